#include "source.h"
#include "output.h"
#include "program.h"
#include <errno.h>
#include <fcntl.h>
#include <libgen.h>
#include <stdlib.h>
#include <string.h>
#include <sys/inotify.h>
#include <time.h>
#include <unistd.h>

static void complain(const struct source *source, const char *what) { say_at_times("%s: %s", source->path, what); }

/* The owner of a name in a folder, or of the folder, may let the path lead anywhere. So another's file is read only if everybody
   may read it. */
static bool may_choose(const struct stat *owned, const struct stat *file) {
    return owned->st_uid == 0 || owned->st_uid == geteuid() || owned->st_uid == file->st_uid;
}

static bool is_readable(const char *path, int file, struct stat *found) {
    char folder[PATH_MAX];
    struct stat name, parent;
    if (strlen(path) >= sizeof folder || fstat(file, found) || lstat(path, &name)) return false;
    if (stat(dirname(strcpy(folder, path)), &parent)) return false;
    return (found->st_mode & S_IROTH) != 0 || (may_choose(&name, found) && may_choose(&parent, found));
}

int open_to_read(const char *path, struct stat *found) {
    int file = open(path, O_RDONLY | O_NONBLOCK | O_CLOEXEC);
    if (file < 0 || is_readable(path, file, found)) return file;
    close(file);
    errno = EACCES;
    return -1;
}

/* What is watched of a folder is the same as before, or the folder that has its name by now. The one before may be another's too. */
static void watch_folder(int polled, struct watch *watch, const struct watch *other, const char *whole) {
    const char *slash = strrchr(whole, '/');
    if (strlen(whole) >= sizeof watch->folder) return;
    strcpy(watch->name, slash != NULL ? slash + 1 : whole);
    strcpy(watch->folder, whole);
    int number = inotify_add_watch(polled, dirname(watch->folder), IN_CLOSE_WRITE | IN_MOVED_TO);
    if (watch->number >= 0 && number != watch->number && watch->number != other->number) inotify_rm_watch(polled, watch->number);
    watch->number = number;
}

static void watch_folders(struct source *source) {
    char target[PATH_MAX];
    watch_folder(source->polled, &source->of_path, &source->of_target, source->path);
    if (realpath(source->path, target) != NULL) watch_folder(source->polled, &source->of_target, &source->of_path, target);
}

int open_source(struct source *source, const char *path, bool may_be_pipe) {
    struct stat found;
    source->path = path;
    source->is_first = true;
    source->of_path.number = source->of_target.number = -1;
    source->polled = open_to_read(path, &found);
    if (source->polled < 0) give_up(path);
    source->is_pipe = may_be_pipe && S_ISFIFO(found.st_mode);
    if (source->is_pipe) return source->polled;
    if (!S_ISREG(found.st_mode)) {
        complain(source, may_be_pipe ? "it is neither a file nor a pipe" : "it is not a regular file");
        exit(2);
    }
    close(source->polled);
    source->polled = inotify_init1(IN_NONBLOCK | IN_CLOEXEC);
    if (source->polled >= 0) watch_folders(source);
    if (source->polled < 0 || source->of_path.number < 0) give_up(path);
    return source->polled;
}

static bool is_of(const struct watch *watch, const struct inotify_event *event) {
    return event->wd == watch->number && event->len > 0 && strcmp(event->name, watch->name) == 0;
}

/* Reads what became of it: whether a program that wrote to the file has closed it, or another was moved there. */
static bool read_events(struct source *source) {
    _Alignas(struct inotify_event) char events[4096];
    bool is_written = source->is_first;
    source->is_first = false;
    for (ssize_t count; (count = read(source->polled, events, sizeof events)) > 0;) {
        for (char *next = events; next < events + count;) {
            const struct inotify_event *event = (const void *)next;
            is_written |= (event->mask & IN_Q_OVERFLOW) != 0 || is_of(&source->of_path, event) || is_of(&source->of_target, event);
            next += sizeof *event + event->len;
        }
    }
    return is_written;
}

/* Whether another file is at the path than the one that was read last, and has been left alone for a second. */
static bool is_other(const struct source *source) {
    struct stat found;
    struct timespec now;
    clock_gettime(CLOCK_REALTIME, &now);
    return stat(source->path, &found) == 0 && S_ISREG(found.st_mode)
           && (found.st_dev != source->device_read || found.st_ino != source->file_read)
           && llabs((long long)now.tv_sec - found.st_mtim.tv_sec) > 1;
}

bool follow_source(struct source *source) {
    if (source->is_pipe) return false;
    watch_folders(source);
    return is_other(source);
}

static void read_file(struct source *source) {
    struct stat found;
    int file = open_to_read(source->path, &found);
    ssize_t count = -1;
    size_t size = 0;
    while (file >= 0 && (count = read(file, source->held + size, SOURCE_ROOM - size)) > 0) size += (size_t)count;
    if (count < 0) complain(source, strerror(errno));
    else if (size == SOURCE_ROOM) complain(source, "it has over 65,535 octets");
    source->is_ended = count >= 0 && size < SOURCE_ROOM;
    source->first = source->searched = source->taken = 0;
    source->size = source->is_ended ? size : 0;
    if (file >= 0 || stat(source->path, &found) == 0) {
        source->device_read = found.st_dev;
        source->file_read = found.st_ino;
    }
    if (file >= 0) close(file);
    watch_folders(source);
}

/* If another thing, or nothing, is at the path by now, there is nothing to poll any more. If no other descriptor is left, that of the pipe
   is used once more. */
static void open_again(struct source *source) {
    struct stat found;
    int again = open_to_read(source->path, &found);
    bool has_no_other = again < 0 && (errno == EMFILE || errno == ENFILE);
    close(source->polled);
    if (has_no_other) again = open_to_read(source->path, &found);
    bool is_there = again >= 0 && S_ISFIFO(found.st_mode);
    if (!is_there) complain(source, "the pipe is gone, and nothing more is observed");
    if (!is_there && again >= 0) close(again);
    source->polled = is_there ? again : -1;
}

/* The pipe is opened again for the next program that writes to it. If a descriptor is left for that, it is never without a reader. */
static void read_pipe(struct source *source) {
    memmove(source->held, source->held + source->first, source->size);
    source->first = 0;
    ssize_t count = read(source->polled, source->held + source->size, SOURCE_ROOM - source->size);
    if (count > 0) source->size += (size_t)count;
    if (count != 0) return;
    source->is_ended = true;
    open_again(source);
}

int read_source(struct source *source) {
    size_t before = source->is_pipe ? source->size : 0;
    if (source->is_pipe) read_pipe(source);
    else if (read_events(source) || is_other(source)) read_file(source);
    for (size_t k = before; k < source->size; k++) {
        if (source->held[k] == '\0') source->held[k] = 1;       /* which is not a text either */
    }
    return source->polled;
}

bool is_empty_file(const struct source *source) { return !source->is_pipe && source->is_ended && source->size == 0; }

/* Empty lines at the head, which are dropped together. */
static size_t blank_lines(const struct source *source) {
    size_t count = 0;
    while (count < source->size && source->held[source->first + count] == '\n') count++;
    return count;
}

/* How much of what is held is the next text: up to an empty line, of a pipe, or to the end. */
static size_t size_of_text(struct source *source) {
    size_t behind = source->searched > 0 ? source->searched - 1 : 0;
    const char *next = source->held + source->first;
    if (source->is_pipe && source->size > 0 && *next == '\n') return blank_lines(source);
    const char *end = source->is_pipe ? memmem(next + behind, source->size - behind, "\n\n", 2) : NULL;
    if (end != NULL) return (size_t)(end - next) + 2;
    source->searched = source->size;
    return source->is_ended ? source->size : 0;
}

/* Whether the text that was found is dropped: it is the rest of one that is too long, or empty lines. */
static bool let_go_text(struct source *source) {
    bool is_rest = source->is_too_long;
    source->is_too_long = false;
    return is_rest || (source->is_pipe && source->held[source->first] == '\n');
}

/* Drops the latest text. */
static void go_behind(struct source *source) {
    source->first += source->taken;
    source->size -= source->taken;
    if (source->taken > 0) source->searched = 0;
}

bool next_text(struct source *source, char **text) {
    do {
        go_behind(source);
        source->taken = size_of_text(source);
    } while (source->taken > 0 && let_go_text(source));
    if (source->taken > 0) {
        *text = source->held + source->first;
        size_t end = source->taken < source->size ? source->taken - 1 : source->taken;     /* over the end of an empty line, or after all */
        (*text)[end] = '\0';
        return true;
    }
    if (source->is_ended) source->is_ended = source->is_too_long = false;
    if (source->size == SOURCE_ROOM) {                      /* more of it than there is room for, and no end */
        complain(source, "what came in at once has over 65,535 octets");
        source->size = source->searched = 0;
        source->is_too_long = true;
    }
    return false;
}
