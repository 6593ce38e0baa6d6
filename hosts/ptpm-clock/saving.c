#include "saving.h"
#include "askers.h"
#include "counts.h"
#include "kept_file.h"
#include "monotonic.h"
#include "names.h"
#include "output.h"
#include "program.h"
#include "words.h"
#include <errno.h>
#include <libgen.h>
#include <limits.h>
#include <pthread.h>
#include <semaphore.h>
#include <stdio.h>
#include <stdlib.h>
#include <string.h>
#include <sys/eventfd.h>
#include <unistd.h>

/* Statuses of the program, and the place of a clockIdentity in the image of a clock. If a change is under way, that image comes after the
   change (docs/image.md). */
enum { NOT_STARTED = 1, NOT_OPENED = 2, IDENTITY = 12 };
enum { KIND_AT = 4, WITH_CHANGE = 3, CHANGE_SIZE_AT = 14, CHANGE_AT = 16 };

/* Octets of any clock's file, and of one that has more than that. */
enum { ROOM = PTPM_CLOCK_IMAGE_BOUND(PTPM_MOST_PORTS, PTPM_MOST_MANAGERS) + PTPM_SEAL_OCTETS, MOST_STATE_OCTETS = ROOM + 1, LOCK_TRIES = 100 };
enum { JOINED = 5 };        /* requests of managers for which there is one save */
enum { SECOND = 1000, MOST_PAUSE = 5, PAUSE_PART = 20 };        /* milliseconds, and which part of the time of a save */

static struct kept_file file = { .folder = -1, .mode = 0600 };
static int lock = -1;               /* of it, while the program runs */
static uint8_t octets[MOST_STATE_OCTETS];
static uint64_t saves_of_file;      /* by its seal */
static size_t size_of_file;         /* of what is saved */
static unsigned long begun;         /* when that was begun, in microseconds */
static uint64_t token;              /* of the clock's image in it */
static int64_t next_save;           /* when one may begin, in milliseconds */
bool is_saving, is_failing;

/* A thread replaces the file, so that nobody else waits for the disk. The file, its octets and what became of it are the thread's from
   `asked` to `done`. The event can be read from then on. */
static sem_t asked, done;
static int event = -1;
static enum replaced became;
static int failure;

_Noreturn static void end_with(int status) {
    end_output();
    exit(status);
}

/* Why the file can't be used: what `why` says, or errno if it is NULL. */
_Noreturn static void refuse_file(const char *why) {
    char what[PATH_MAX + sizeof ".lock"];
    snprintf(what, sizeof what, "%s%s", options->state, why != NULL ? "" : kept_fault());
    end_program(what, why != NULL ? why : strerror(errno));
}

/* The folder of the file is made if it is missing, and what is above it is not. */
_Noreturn static void refuse_folder(void) {
    char path[PATH_MAX], why[PATH_MAX + 64];
    if (errno != ENOENT) refuse_file(errno == EINVAL ? "no name of a file" : NULL);
    snprintf(path, sizeof path, "%s", options->state);
    snprintf(why, sizeof why, "its folder can't be made: mkdir -p %s makes the one above it", dirname(dirname(path)));
    refuse_file(why);
}

static void leave_nothing(void) { leave_no_lock(&file); }

_Noreturn static void refuse_second(long owner) {
    if (owner == 0) say("%s: another clock has it", options->state);
    else say("%s: another clock, process %ld, has it", options->state, owner);
    end_with(NOT_OPENED);
}

/* What root has made belongs to the user that the program becomes. In another user's folder it is that user's, who may go on with the file. */
static void hand_over(int made) {
    const struct privileges *privileges = &options->privileges;
    struct stat found, folder;
    if (privileges->user_name == NULL || fstat(made, &found) || fstat(file.folder, &folder) || found.st_uid != geteuid()) return;
    bool is_of_other = folder.st_uid != geteuid();
    uid_t user = is_of_other ? folder.st_uid : privileges->user;
    if (fchown(made, user, is_of_other ? folder.st_gid : privileges->group)) errno = 0;     /* it saves to see if it may */
}

/* Two clocks that save to one file would each undo what the other said. */
static void take_file(void) {
    for (int tries = 0; tries < LOCK_TRIES; tries++) {
        lock = open_kept_lock(&file);
        if (lock < 0) refuse_file(NULL);
        if (!take_kept_lock(lock)) {
            if (errno != EAGAIN && errno != EACCES) refuse_file(NULL);
            refuse_second(kept_lock_owner(lock));
        }
        if (is_kept_lock(&file, lock)) {
            hand_over(lock);
            return;
        }
        close(lock);
    }
    refuse_second(0);
}

/* Whether there is a file; its octets are in `octets`. */
static bool read_state(size_t *size) {
    struct stat found;
    switch (read_kept(&file, octets, MOST_STATE_OCTETS, size, &found)) {
    case KEPT_FILE: return true;
    case KEPT_NONE: return false;
    case KEPT_LINK: refuse_file("it is a link");
    case KEPT_OTHER: refuse_file("it is not a regular file");
    case KEPT_UNREADABLE: break;
    }
    refuse_file(NULL);
}

static const char *reason(enum ptpm_restored refusal) {
    switch (refusal) {
    case PTPM_NOT_AN_IMAGE: return "it has no state of a clock: ptpm-clock(8), \"Saved state\", says how to go on";
    case PTPM_DAMAGED: return "octets of the state were lost or changed: ptpm-clock(8), \"Saved state\", says how to go on";
    case PTPM_OTHER_VERSION: return "it has a state in the form of another version of this program";
    case PTPM_OTHER_KIND: return "it has the session of a manager, and not the state of a clock";
    case PTPM_OTHER_PORTS: return "it has the state of a clock with another number of ports";
    default: return "the clock can't be restored from it";
    }
}

_Noreturn static void refuse_octets(enum ptpm_restored refusal) {
    const char *name = answer_name(refusal);
    if (refusal == PTPM_OTHER_CLOCK) {
        int further = octets[KIND_AT] == WITH_CHANGE ? CHANGE_AT + number_at(octets + CHANGE_SIZE_AT) : 0;
        say("it does not start: %s: %s: it has the state of clock %s", name, options->state, identity_text(octets + IDENTITY + further));
    } else say("it does not start: %s: %s: %s", name, options->state, reason(refusal));
    end_with(refusal == PTPM_RESTORE_NO_MEMORY ? NOT_OPENED : NOT_STARTED);
}

/* The clock of the octets that were read; how many managers it had that are not configured any more. */
static size_t restore(struct ptpm_clock *clock, size_t size) {
    size_t gone = 0;
    enum ptpm_restored answer = take_seal(octets, &size, &saves_of_file);
    if (answer != PTPM_RESTORED) refuse_octets(answer);
    answer = ptpm_clock_restore(clock, options->settings.identity, clock_ports(), options->managers, options->manager_count,
                                octets, size, &gone);
    if (answer != PTPM_RESTORED) refuse_octets(answer);
    return gone;
}

static void tell_gone(size_t gone) {
    if (gone == 0) return;
    say("%s: %zu manager%s of it %s not configured any more, and what was kept of %s is forgotten", options->state, gone,
        gone == 1 ? "" : "s", gone == 1 ? "is" : "are", gone == 1 ? "its requests" : "their requests");
}

/* What the command line says about the data sets is for a clock that starts afresh. */
static void tell_domain(const struct ptpm_clock *clock) {
    uint8_t field[PTPM_MOST_READ];
    size_t size;
    if (!options->has_domain || ptpm_clock_read(clock, PTPM_ID_DOMAIN, 0, field, sizeof field, &size) != PTPM_READ) return;
    if (*field == options->settings.domain) return;
    say("%s: -d %u counts only at the first start: the clock is in domain %u", options->state, options->settings.domain, *field);
}

static bool open_event(void) {
    event = eventfd(0, EFD_NONBLOCK | EFD_CLOEXEC);
    return event >= 0 && sem_init(&asked, 0, 0) == 0 && sem_init(&done, 0, 0) == 0;
}

int saving_event(void) { return event; }

bool restore_clock(struct ptpm_clock *clock) {
    size_t size;
    if (options->state == NULL) return false;
    if (!open_kept_folder(&file, options->state)) refuse_folder();
    take_file();
    if (file.is_folder_made) hand_over(file.folder);
    if (atexit(leave_nothing) || !open_event()) refuse_file(NULL);
    bool is_there = read_state(&size);
    if (is_there) {
        tell_gone(restore(clock, size));
        tell_domain(clock);
    }
    size_t most = PTPM_CLOCK_IMAGE_BOUND(clock_ports(), options->manager_count) + PTPM_SEAL_OCTETS;
    if (!try_room(&file, octets, most)) refuse_file(NULL);
    return is_there;
}

static unsigned long microseconds(void) { return (unsigned long)(nanoseconds() / 1000); }

static void count_save(size_t size, unsigned long time) {
    static unsigned long long all;
    all += time;
    counts[SAVES]++;
    counts[MEAN_SAVE] = all / counts[SAVES];
    if (counts[SAVES] == 1 || time < counts[LEAST_SAVE]) counts[LEAST_SAVE] = time;
    if (time > counts[MOST_SAVE]) counts[MOST_SAVE] = time;
    if (options->is_verbose) print_line("saved: %zu octets in %lu us", size, time);
}

/* Makes what the file is to have of the clock; whether it could. */
static bool fill_octets(struct ptpm_clock *clock) {
    size_t size;
    begun = microseconds();
    if (ptpm_clock_image_of(clock, octets, ROOM - PTPM_SEAL_OCTETS, &size, &token) != PTPM_SAVED) return false;
    size_of_file = write_seal(octets, size, saves_of_file + 1);
    return true;
}

/* A save was made: the clock gives out what waited for it. */
static enum ptpm_saved succeed(struct ptpm_clock *clock) {
    unsigned long took = microseconds() - begun, pause = (took / 1000 + PAUSE_PART / 2) / PAUSE_PART;
    saves_of_file++;
    is_failing = false;
    count_save(size_of_file, took);
    next_save = milliseconds() + (int64_t)(pause < MOST_PAUSE ? pause : MOST_PAUSE);
    return ptpm_clock_saved(clock, token);
}

/* A save was not made, or nobody knows. What waited goes on waiting, for the next one. */
static enum ptpm_saved fail(void) {
    counts[SAVES_FAILED]++;
    is_failing = true;
    next_save = milliseconds() + SECOND;
    const char *why = errno == ENOENT ? "its folder is missing" : errno == EAGAIN ? "another clock has it" : strerror(errno);
    say_at_times("%s%s: no change is answered: %s", options->state, kept_fault(), why);
    return PTPM_OTHER_IMAGE;
}

void save_at_start(struct ptpm_clock *clock) {
    if (options->state == NULL) return;
    if (ptpm_clock_saving(clock, MOST_WAITING + ptpm_clock_most_sent(clock) - 1) != PTPM_SAVING) refuse_file(strerror(ENOMEM));
    if (!fill_octets(clock) || replace_kept(&file, octets, size_of_file) != REPLACED) refuse_file(NULL);
    succeed(clock);
}

bool may_save(void) {
    static struct ptpm_rate rate;
    long a_second = options->limits.manager_rate / JOINED;
    if (rate.rate == 0) ptpm_rate_start(&rate, a_second > 0 ? (uint64_t)a_second : 1, (uint64_t)milliseconds());
    return ptpm_rate_take(&rate, (uint64_t)milliseconds());
}

long until_save(void) { return (long)(next_save - milliseconds()); }

static void wait_for(sem_t *what) {
    while (sem_wait(what)) continue;        /* a debugger may interrupt it */
}

/* The folder was removed. Takes the one that is there by now, and its lock; whether it could. If not, errno says why. The filter of system
   calls lets no folder be made. */
static bool reopen_folder(void) {
    struct kept_file other = file;
    if (!open_kept_folder(&other, options->state)) {
        if (errno == EPERM) errno = ENOENT;
        return false;
    }
    int other_lock = open_kept_lock(&other);
    bool is_taken = other_lock >= 0 && take_kept_lock(other_lock) && is_kept_lock(&other, other_lock);
    close_quietly(is_taken ? file.folder : other.folder);
    close_quietly(is_taken ? lock : other_lock);
    if (!is_taken) return false;
    file = other;
    lock = other_lock;
    return true;
}

static void *replace_files(void *nothing) {
    for (;;) {
        wait_for(&asked);
        became = replace_kept(&file, octets, size_of_file);
        if (became == NOT_REPLACED && errno == ENOENT && reopen_folder()) became = replace_kept(&file, octets, size_of_file);
        failure = errno;
        eventfd_write(event, 1);
        sem_post(&done);
    }
    return nothing;
}

/* Starts the thread before the first save; whether it is there. If not, errno says why. */
static bool has_thread(void) {
    static pthread_t thread;
    static bool is_started;
    if (!is_started) is_started = (errno = pthread_create(&thread, NULL, replace_files, NULL)) == 0;
    return is_started;
}

bool begin_save(struct ptpm_clock *clock) {
    is_saving = fill_octets(clock) && has_thread();
    if (is_saving) sem_post(&asked);
    else fail();
    return is_saving;
}

enum ptpm_saved end_save(struct ptpm_clock *clock) {
    eventfd_t times;
    wait_for(&done);
    eventfd_read(event, &times);
    errno = failure;
    is_saving = false;
    if (became == REPLACED) return succeed(clock);
    if (became == IN_DOUBT) saves_of_file++;
    return fail();
}
