#include "unix_socket.h"
#include "program.h"
#include "words.h"
#include <dirent.h>
#include <errno.h>
#include <libgen.h>
#include <limits.h>
#include <signal.h>
#include <stdbool.h>
#include <stdio.h>
#include <stdlib.h>
#include <string.h>
#include <sys/socket.h>
#include <sys/stat.h>
#include <sys/un.h>
#include <unistd.h>

/* Sockets of this program that are removed when it ends. */
static struct own { struct sockaddr_un address; struct stat file; } own[OWN_SOCKETS];
static size_t own_count;

static bool is_socket(const char *path) {
    struct stat found;
    return lstat(path, &found) == 0 && S_ISSOCK(found.st_mode);
}

/* Whether there is a socket at the path, and no program listens on it. */
static bool is_unheard(const char *path) {
    struct sockaddr_un address = { .sun_family = AF_UNIX };
    if (strlen(path) >= sizeof address.sun_path || !is_socket(path)) return false;
    strcpy(address.sun_path, path);
    int probe = socket(AF_UNIX, SOCK_DGRAM | SOCK_CLOEXEC, 0);
    if (probe < 0) give_up(path);
    bool is_refused = connect(probe, (const struct sockaddr *)&address, sizeof address) && errno == ECONNREFUSED;
    close(probe);
    return is_refused;
}

static void remove_unheard(const char *path) {
    if (is_unheard(path)) unlink(path);
}

/* The number of the process whose socket beside `base` has this name; -1 if it is no such name. It comes after a dot. Further sockets of the
   process have a dot and another number after it. */
static long owner_of(const char *name, const char *base) {
    enum { NUMBER = 16 };
    char process[NUMBER];
    size_t size = strlen(base);
    if (strncmp(name, base, size) != 0 || name[size] != '.') return -1;
    const char *first = name + size + 1, *dot = strchrnul(first, '.');
    if (dot - first >= NUMBER || (*dot == '.' && decimal(dot + 1, INT_MAX) < 0)) return -1;
    snprintf(process, sizeof process, "%.*s", (int)(dot - first), first);
    return decimal(process, INT_MAX);
}

/* Whether it is the socket of a process that is gone. */
static bool is_of_gone_process(const char *name, const char *base) {
    long process = owner_of(name, base);
    return process > 0 && kill((pid_t)process, 0) != 0 && errno == ESRCH;
}

/* Removes the sockets that programs which are gone left next to the one at a path. */
static void remove_beside(const char *path) {
    char folder[PATH_MAX], name[PATH_MAX], beside[2 * PATH_MAX];
    if (strlen(path) >= PATH_MAX) return;
    const char *base = basename(strcpy(name, path)), *parent = dirname(strcpy(folder, path));
    DIR *all = opendir(parent);
    for (const struct dirent *one; all != NULL && (one = readdir(all)) != NULL;) {
        if (!is_of_gone_process(one->d_name, base)) continue;
        snprintf(beside, sizeof beside, "%s/%s", parent, one->d_name);
        remove_unheard(beside);
    }
    if (all != NULL) closedir(all);
}

void remove_left_over(const char *path) {
    remove_unheard(path);
    remove_beside(path);
}

/* What is at the path by now may be another program's. */
static void remove_own(void) {
    for (size_t i = 0; i < own_count; i++) {
        struct stat found;
        const char *path = own[i].address.sun_path;
        if (lstat(path, &found) || found.st_dev != own[i].file.st_dev || found.st_ino != own[i].file.st_ino) continue;
        unlink(path);
    }
}

/* Says why no socket can be made there, by errno. What is there already stays. */
_Noreturn static void refuse_path(const char *path) {
    const char *what = "it is there already, and is not a socket: it stays as it is";
    if (errno == ENOENT) end_program(path, "its folder is missing");
    if (errno == EACCES) end_program(path, "Permission denied: it takes root, or the right to make a socket in this folder");
    if (errno != EADDRINUSE) give_up(path);
    if (is_unheard(path)) what = "the socket of a program that has ended is there, and can't be removed";
    else if (is_socket(path)) what = "another program listens there";
    end_program(path, what);
}

/* Binds a socket to a path, which is then in *address. */
static int bind_to(struct sockaddr_un *address, const char *path, mode_t mode) {
    *address = (struct sockaddr_un){ .sun_family = AF_UNIX };
    errno = ENAMETOOLONG;
    if (strlen(path) >= sizeof address->sun_path) give_up(path);
    strcpy(address->sun_path, path);
    int opened = socket(AF_UNIX, SOCK_DGRAM | SOCK_CLOEXEC, 0);
    mode_t before = umask(~mode & 0777);
    if (opened < 0 || bind(opened, (struct sockaddr *)address, sizeof *address)) refuse_path(path);
    umask(before);
    return opened;
}

int bind_unix(const char *path, mode_t mode) { return bind_to(&(struct sockaddr_un){ 0 }, path, mode); }

int open_unix_as(const char *path, mode_t mode) {
    struct own *made = &own[own_count];
    remove_unheard(path);
    int opened = bind_to(&made->address, path, mode);
    if (lstat(path, &made->file) || (own_count++ == 0 && atexit(remove_own))) give_up(path);
    return opened;
}

/* Whether files that are made from now on get the group of the file at a path. The program may lack the right to that. */
static bool take_group_of(const char *path) {
    struct stat found;
    return stat(path, &found) == 0 && setegid(found.st_gid) == 0;
}

int open_unix(const char *path) {
    char base[sizeof own->address.sun_path];
    gid_t before = getegid();
    bool has_its_group = false;
    const char *dot = strrchr(path, '.');
    if (dot != NULL && strlen(path) < sizeof base) {
        snprintf(base, sizeof base, "%.*s", (int)(dot - path), path);
        remove_beside(base);
        has_its_group = take_group_of(base);
    }
    int opened = open_unix_as(path, 0660);
    if (has_its_group && setegid(before)) give_up(path);
    return opened;
}
