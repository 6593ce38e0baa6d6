#include "session_file.h"
#include "marks.h"
#include "monotonic.h"
#include "notices.h"
#include "program.h"
#include "stopping.h"
#include "words.h"
#include <errno.h>
#include <limits.h>
#include <stdio.h>
#include <stdlib.h>
#include <string.h>
#include <sys/resource.h>
#include <sys/stat.h>
#include <time.h>
#include <unistd.h>

enum { TURN = 60000, TRY_AGAIN = 10 };     /* the times in milliseconds */

/* The files that were opened, the latest one first. */
static struct session_file *opened;

static const struct session_file *named;

const char *session_path(void) { return named->path; }

void name_session_file(const struct session_file *file) { named = file; }

_Noreturn static void refuse_session_file(const struct session_file *file, const char *why) {
    if (file->is_named) refuse("--numbers %s: %s", file->path, why);
    refuse_storage("nothing was sent: %s: %s", file->path, why);
}

/* Whether the folder is that of a plan. No option names its file, but a variable its folder. */
static bool is_of_plan;

static const char *elsewhere(void) {
    return is_of_plan ? "XDG_STATE_HOME names another folder" : "--numbers FILE keeps the session elsewhere";
}

_Noreturn void refuse_place(const struct session_file *file) {
    const char *fault = kept_fault();
    if (file->is_named) refuse("the request was not sent: --numbers %s%s: %s", file->path, fault, strerror(errno));
    if (has_own_marks()) refuse_storage("nothing was sent: %s%s: %s", file->path, fault, strerror(errno));
    refuse_storage("the request was not sent: %s%s: %s; %s", file->path, fault, strerror(errno), elsewhere());
}

static void open_folder(struct session_file *file) {
    if (open_kept_folder(&file->kept, file->path)) return;
    if (errno == EINVAL) refuse_session_file(file, "no name of a file");
    refuse_place(file);
}

_Noreturn static void end_by_signal(void) {
    complain("ended by a signal: nothing was sent");
    exit(BY_SIGNAL + stopped);
}

/* For how many seconds another run holds the lock: since it took its turn. */
static long held_for(int lock) {
    struct stat found;
    return fstat(lock, &found) || found.st_mtime > time(NULL) ? 0 : (long)(time(NULL) - found.st_mtime);
}

_Noreturn static void refuse_turn(const struct session_file *file, int lock) {
    long owner = kept_lock_owner(lock);
    if (owner == 0) refuse("nothing was sent: %s: another run has held it for %ld s", file->path, held_for(lock));
    refuse("nothing was sent: %s: another run, process %ld, has held it for %ld s", file->path, owner, held_for(lock));
}

/* The lock file, with the lock on it, until a time. Another run that had it may have removed it in the meantime. */
static int lock_until(const struct session_file *file, int64_t end) {
    int lock = open_kept_lock(&file->kept);
    if (lock < 0) refuse_place(file);
    while (!take_kept_lock(lock)) {
        if (errno != EAGAIN && errno != EACCES) refuse_place(file);
        if (stopped) end_by_signal();
        if (milliseconds() >= end) refuse_turn(file, lock);
        show_progress("another run has held %s for %ld s", file->path, held_for(lock));
        wait_for(NULL, 0, TRY_AGAIN);
    }
    return lock;
}

/* If no session is kept, for example of a clock that is not there, no lock stays either. */
static void leave_nothing(void) {
    for (const struct session_file *file = opened; file != NULL; file = file->next) leave_no_lock(&file->kept);
}

/* The lock is released when the file is left, or the program ends. Its time is that of this turn. */
static void take_turn(struct session_file *file) {
    int64_t end = milliseconds() + TURN;
    file->lock = lock_until(file, end);
    while (!is_kept_lock(&file->kept, file->lock)) {
        if (milliseconds() >= end) refuse_turn(file, file->lock);
        close(file->lock);
        file->lock = lock_until(file, end);
    }
    clear_progress();
    futimens(file->lock, NULL);
    if (opened == NULL && atexit(leave_nothing)) refuse_place(file);
    file->next = opened;
    named = opened = file;
}

/* Whether there is room for a session. */
static void see_to_room(const struct session_file *file) {
    static const uint8_t octets[PTPM_SESSION_IMAGE_OCTETS + PTPM_SEAL_OCTETS];
    if (!try_room(&file->kept, octets, sizeof octets)) refuse_place(file);
}

/* What is known of a file, without the file itself. */
static struct session_file *new_file(const char *path, bool is_named) {
    struct session_file *file = calloc(1, sizeof *file);
    if (file == NULL || (file->path = strdup(path)) == NULL) give_up(path);
    file->is_named = is_named;
    file->kept.folder = -1;
    file->kept.mode = 0666;
    return file;
}

/* A session has two files open: as many as the system allows. */
static void allow_files(void) {
    struct rlimit files;
    if (getrlimit(RLIMIT_NOFILE, &files)) return;
    files.rlim_cur = files.rlim_max;
    setrlimit(RLIMIT_NOFILE, &files);
}

enum found_session open_session_file(struct session_file **opened_file, const char *path, bool is_named,
                                     uint8_t octets[MOST_SESSION_OCTETS], size_t *size) {
    struct session_file *file = *opened_file = new_file(path, is_named);
    allow_files();
    open_folder(file);
    take_turn(file);
    refuse_mark(path);
    switch (read_kept(&file->kept, octets, MOST_SESSION_OCTETS, size, &file->kept.before)) {
    case KEPT_FILE:
        if (fsync(file->kept.folder)) refuse_place(file);       /* a run that was killed may not have come to it */
        return take_seal(octets, size, &file->saves) == PTPM_DAMAGED ? BROKEN_SESSION_FILE : SESSION_FILE;
    case KEPT_LINK: refuse_session_file(file, "it is a link");
    case KEPT_OTHER: refuse_session_file(file, "it is not a regular file");
    case KEPT_UNREADABLE: refuse_place(file);
    case KEPT_NONE: break;
    }
    see_to_room(file);
    return NO_SESSION_FILE;
}

void leave_session_file(struct session_file *file) {
    close(file->lock);
    file->lock = -1;
}

bool write_session_file(struct session_file *file, uint8_t octets[MOST_SESSION_OCTETS], size_t size) {
    enum replaced answer = replace_kept(&file->kept, octets, write_seal(octets, size, file->saves + 1));
    if (answer != NOT_REPLACED) file->saves++;
    return answer == REPLACED;
}

/* The path of the file that is taken if the command line names none. */
static char usual_path[PATH_MAX];

/* A variable of the environment that names a folder; NULL if it is not set, or is not an absolute path. */
static const char *folder_in(const char *variable) {
    const char *folder = getenv(variable);
    return folder != NULL && folder[0] == '/' ? folder : NULL;
}

/* Writes the path of the folder to `usual_path`; how many octets it has, or would have. None if no variable names it. */
static size_t find_folder(void) {
    const char *state = folder_in("XDG_STATE_HOME"), *home = folder_in("HOME");
    if (state != NULL) return (size_t)snprintf(usual_path, sizeof usual_path, "%s/ptpm", state);
    if (geteuid() == 0) return (size_t)snprintf(usual_path, sizeof usual_path, "/var/lib/ptpm");
    if (home != NULL) return (size_t)snprintf(usual_path, sizeof usual_path, "%s/.local/state/ptpm", home);
    return 0;
}

/* Adds the name of the session's file to the path of its folder; how many octets there are then, or would be. */
static size_t add_name(size_t size, const struct ptpm_session_settings *settings) {
    return size + (size_t)snprintf(usual_path + size, sizeof usual_path - size, "/%s-%u.%s", identity_text(settings->clock), settings->port,
                                   identity_text(settings->target));
}

_Noreturn static void refuse_long_path(void) {
    refuse("the request was not sent: the path of the folder for the session is too long");
}

/* Makes the folders above the last one; that one is made with the file. */
static void make_parents(void) {
    for (char *slash = strchr(usual_path + 1, '/'); slash != NULL; slash = strchr(slash + 1, '/')) {
        *slash = '\0';
        int failure = mkdir(usual_path, 0700) ? errno : 0;
        struct stat found;
        if (failure != 0 && (stat(usual_path, &found) || !S_ISDIR(found.st_mode))) {
            const char *why = strerror(failure == EEXIST ? ENOTDIR : failure);
            refuse_storage("the request was not sent: %s: %s; %s", usual_path, why, elsewhere());
        }
        *slash = '/';
    }
}

/* The same, and the folders above it are there then. */
static size_t make_folder(void) {
    size_t size = find_folder();
    if (size == 0) refuse("the request was not sent: neither XDG_STATE_HOME nor HOME names a folder for the session; %s", elsewhere());
    if (size >= sizeof usual_path) refuse_long_path();
    make_parents();
    return size;
}

const char *state_folder(void) {
    is_of_plan = true;
    make_folder();
    return usual_path;
}

const char *named_state_folder(void) {
    size_t size = find_folder();
    return size > 0 && size < sizeof usual_path ? usual_path : NULL;
}

const char *usual_file(const struct ptpm_session_settings *settings) {
    if (add_name(make_folder(), settings) >= sizeof usual_path) refuse_long_path();
    return usual_path;
}

void refuse_usual_mark(const struct ptpm_session_settings *settings) {
    size_t size = find_folder();
    bool is_named = size > 0 && size < sizeof usual_path && add_name(size, settings) < sizeof usual_path;
    if (is_named) refuse_open_mark(usual_path);
}
