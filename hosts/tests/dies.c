/* dies.so, for hosts/tests/apply: LD_PRELOAD of a program that saves and sends. With DIES_AT=N in the environment it is killed right
   before the N-th call by which it writes, synchronizes, renames or sends. What it prints does not count. Calls are counted from the
   rename of a journal on, or from its start if DIES_FROM is `start`. Of a write that counts, half is written first: so a line is torn.
   With FAILS=1 the call only fails, and nothing is killed: a write since the disk is full, and a message since there is no way.

   With LOSES=1 the machine loses its power too. What was not synchronized is gone then, also that of earlier runs. So each run leaves
   beside a file what the disk still has of it. FILE.appended has its size there, FILE.before is the file that had its name, and
   FILE.none says that there was none. Who synchronizes the file, or its folder, takes these away. */
#define _GNU_SOURCE
#include <dirent.h>
#include <errno.h>
#include <fcntl.h>
#include <limits.h>
#include <signal.h>
#include <stdbool.h>
#include <stdio.h>
#include <stdlib.h>
#include <string.h>
#include <sys/socket.h>
#include <sys/stat.h>
#include <sys/syscall.h>
#include <unistd.h>

static bool has_begun, loses, fails;
static long left;

static bool is_set(const char *variable) {
    const char *value = getenv(variable);
    return value != NULL && strcmp(value, "1") == 0;
}

__attribute__((constructor)) static void begin(void) {
    const char *at = getenv("DIES_AT"), *from = getenv("DIES_FROM");
    left = at == NULL ? 0 : atol(at);
    has_begun = from != NULL && strcmp(from, "start") == 0;
    loses = is_set("LOSES");
    fails = is_set("FAILS");
}

/* Whether this is the call. */
static bool is_last(void) { return has_begun && left > 0 && --left == 0; }

/* Writes a name with an end to it. */
static void add_end(char *to, const char *name, const char *end) {
    if (snprintf(to, PATH_MAX, "%s%s", name, end) >= PATH_MAX) abort();
}

/* Whether a name has this end, which is taken off it. */
static bool take_end(char *name, const char *end) {
    size_t size = strlen(name), more = strlen(end);
    if (size <= more || strcmp(name + size - more, end) != 0) return false;
    name[size - more] = '\0';
    return true;
}

static void cut(int folder, const char *note, const char *name) {
    char digits[24] = "";
    int from = openat(folder, note, O_RDONLY), file = openat(folder, name, O_WRONLY);
    if (from >= 0 && file >= 0 && (read(from, digits, sizeof digits - 1) <= 0 || ftruncate(file, atol(digits)))) abort();
    close(from);
    close(file);
}

/* Sees to what is noted in a folder of its files: that is lost, or else it is on the disk by now. */
static void see_to_folder(int folder, bool is_lost) {
    DIR *names = fdopendir(openat(folder, ".", O_RDONLY | O_DIRECTORY));
    char name[PATH_MAX];
    if (names == NULL) abort();
    for (struct dirent *entry; (entry = readdir(names)) != NULL;) {
        strcpy(name, entry->d_name);
        bool is_appended = is_lost && take_end(name, ".appended");
        bool had_one = !is_appended && take_end(name, ".before"), had_none = !is_appended && !had_one && take_end(name, ".none");
        if (is_appended) cut(folder, entry->d_name, name);
        else if (is_lost && had_one) syscall(SYS_renameat2, folder, entry->d_name, folder, name, 0);
        else if (is_lost && had_none) unlinkat(folder, name, 0);
        if (is_appended || had_one || had_none) unlinkat(folder, entry->d_name, 0);
    }
    closedir(names);
}

/* All that was not synchronized in the folders of the sessions and of the journals. */
static void lose(void) {
    static const char *const folders[] = { "/ptpm", "/ptpm/apply" };
    char path[PATH_MAX];
    for (size_t i = 0; i < sizeof folders / sizeof *folders; i++) {
        add_end(path, getenv("XDG_STATE_HOME"), folders[i]);
        int folder = open(path, O_RDONLY | O_DIRECTORY);
        if (folder < 0) continue;
        see_to_folder(folder, true);
        close(folder);
    }
}

/* What the call answers, if it is not the end. */
static int die(int error) {
    if (!fails && loses) lose();
    if (!fails) kill(getpid(), SIGKILL);
    errno = error;
    return -1;
}

/* The path of the note of what was appended to a file. */
static void find_note(char note[PATH_MAX], int file) {
    char link[64], path[PATH_MAX];
    snprintf(link, sizeof link, "/proc/self/fd/%d", file);
    ssize_t size = readlink(link, path, sizeof path - 1);
    if (size < 0) abort();
    path[size] = '\0';
    add_end(note, path, ".appended");
}

static void note_append(int file, off_t size) {
    char note[PATH_MAX];
    find_note(note, file);
    int to = open(note, O_WRONLY | O_CREAT | O_EXCL, 0600);
    if (to < 0) return;
    dprintf(to, "%ld", (long)size);
    close(to);
}

ssize_t write(int file, const void *octets, size_t size) {
    struct stat found;
    bool is_file = file > STDERR_FILENO && fstat(file, &found) == 0 && S_ISREG(found.st_mode);
    if (is_file && (fcntl(file, F_GETFL) & O_APPEND) != 0) note_append(file, found.st_size);
    if (is_file && is_last()) {
        ssize_t written = syscall(SYS_write, file, octets, size / 2);
        die(ENOSPC);
        return written;
    }
    return syscall(SYS_write, file, octets, size);
}

/* A folder is on the disk then, and what has got its name there; or a file. */
static void keep(int file) {
    char note[PATH_MAX];
    struct stat found;
    if (fstat(file, &found)) return;
    if (S_ISDIR(found.st_mode)) see_to_folder(file, false);
    else find_note(note, file), unlink(note);
}

int fsync(int file) {
    if (is_last()) return die(EIO);
    int answer = (int)syscall(SYS_fsync, file);
    if (answer == 0) keep(file);
    return answer;
}

/* What the disk has there, if it is not noted already. */
static void note_rename(int folder, const char *name) {
    char before[PATH_MAX], none[PATH_MAX];
    add_end(before, name, ".before");
    add_end(none, name, ".none");
    if (faccessat(folder, before, F_OK, 0) == 0 || faccessat(folder, none, F_OK, 0) == 0) return;
    if (linkat(folder, name, folder, before, 0)) close(openat(folder, none, O_WRONLY | O_CREAT, 0600));
}

int renameat(int from, const char *old, int to, const char *new) {
    if (is_last()) return die(ENOSPC);
    note_rename(to, new);
    int answer = (int)syscall(SYS_renameat2, from, old, to, new, 0);
    size_t size = strlen(new);
    if (size > 8 && strcmp(new + size - 8, ".journal") == 0) has_begun = true;
    return answer;
}

ssize_t sendmsg(int socket, const struct msghdr *head, int flags) {
    if (is_last()) return die(ENETUNREACH);
    return syscall(SYS_sendmsg, socket, head, flags);
}
