#include "journals.h"
#include "kept_file.h"
#include "notices.h"
#include "random.h"
#include "session_file.h"
#include "text.h"
#include <dirent.h>
#include <errno.h>
#include <fcntl.h>
#include <stdio.h>
#include <stdlib.h>
#include <string.h>
#include <sys/stat.h>
#include <time.h>
#include <unistd.h>

static const char ending[] = ".journal";
static char folder[PATH_MAX - JOURNAL_NAME - 16];
static char own[PATH_MAX];              /* the path of this run's journal; empty without one */

_Noreturn static void refuse_folder(const char *path) { refuse_storage("nothing was sent: %s: %s", path, strerror(errno)); }

static void make_folder(const char *path) {
    if (mkdir(path, 0700) && errno != EEXIST) refuse_folder(path);
}

/* A run that was killed may not have synchronized the name of its journal. */
static void synchronize_folder(void) {
    int opened = open(folder, O_RDONLY | O_DIRECTORY | O_CLOEXEC);
    if (opened < 0 || fsync(opened)) refuse_folder(folder);
    close(opened);
}

static bool write_folder(const char *state) {
    return state != NULL && (size_t)snprintf(folder, sizeof folder, "%s/apply", state) < sizeof folder;
}

bool find_journals(void) { return write_folder(named_state_folder()); }

void take_journals(void) {
    char path[PATH_MAX];
    const char *state = state_folder();
    if (!write_folder(state)) refuse_storage("nothing was sent: %s: the path is too long", state);
    make_folder(state);
    make_folder(folder);
    snprintf(path, sizeof path, "%s/lock", folder);
    int lock = open(path, O_RDWR | O_CREAT | O_NOFOLLOW | O_CLOEXEC, 0660);
    if (lock < 0) refuse_folder(path);
    if (take_kept_lock(lock)) {
        synchronize_folder();
        return;
    }
    if (errno != EAGAIN && errno != EACCES) refuse_folder(path);
    refuse("nothing was sent: another apply, process %ld, has %s", (long)kept_lock_owner(lock), path);
}

const char *journals_folder(void) { return folder; }

static bool ends_with(const char *name, const char *end) {
    size_t size = strlen(name), most = JOURNAL_NAME + strlen(end);
    return size > strlen(end) && size < most && strcmp(name + size - strlen(end), end) == 0;
}

/* The path of a file in the folder. */
static void write_path(char path[PATH_MAX], const char *name) {
    snprintf(path, PATH_MAX, "%s/%.*s", folder, JOURNAL_NAME + 15, name);
}

/* Whether a file in the folder is a journal. What was written of one that never got its place is removed. */
static bool is_journal(const char *name) {
    char path[PATH_MAX];
    write_path(path, name);
    if (ends_with(name, ".journal.new")) unlink(path);
    return ends_with(name, ending);
}

/* A copy of an open journal would be carried out once more. */
static void refuse_copy(const struct journal *journal, const char *path) {
    const char *name = strrchr(path, '/') + 1;
    size_t size = strlen(name) - strlen(ending);
    if (journal->ending != IS_OPEN || (size == strlen(journal->name) && memcmp(name, journal->name, size) == 0)) return;
    refuse_storage("nothing was sent: %s: it is the journal of %s, which is open: remove it if it is a copy, or give it that name", path, journal->name);
}

/* Reads one that is there. */
static void read_it(struct journal *journal, const char *path) {
    switch (read_journal(journal, path)) {
    case FOUND_JOURNAL: refuse_copy(journal, path); return;
    case NO_JOURNAL: refuse_usage("nothing was sent: %s: there is no such journal: ptpm-manage applies lists them", path);
    case DAMAGED_JOURNAL:
        refuse_storage("nothing was sent: DAMAGED: %s: octets of the journal were lost or changed; without it no apply is open", path);
    case OTHER_JOURNAL: refuse_storage("nothing was sent: OTHER_VERSION: %s: another version of this program wrote it, and only that version goes on with it", path);
    case UNREADABLE_JOURNAL: refuse_folder(path);
    }
}

static bool rolls_back(const struct journal *back, const struct journal *journal) { return strcmp(back->rolls_back, journal->name) == 0; }

/* The one that goes on, of two that are open: a rollback, and not the apply that it takes back. */
static bool goes_on(const struct journal *one, const struct journal *other) {
    if (*other->name == '\0' || rolls_back(one, other)) return true;
    if (rolls_back(other, one)) return false;
    const char *earlier = strcmp(one->name, other->name) < 0 ? one->path : other->path;
    refuse_storage("nothing was sent: %s and %s are both open, though no run leaves two open: move %s away, and then resume", one->name, other->name,
                   earlier);
}

bool find_open_journal(struct journal *journal) {
    char path[PATH_MAX];
    struct journal one;
    DIR *names = opendir(folder);
    if (names == NULL) refuse_folder(folder);
    *journal = (struct journal){ 0 };
    for (struct dirent *entry; (entry = readdir(names)) != NULL;) {
        if (!is_journal(entry->d_name)) continue;
        write_path(path, entry->d_name);
        read_it(&one, path);
        struct journal *left = one.ending == IS_OPEN && goes_on(&one, journal) ? journal : &one;
        leave_journal(left);
        if (left == journal) *journal = one;
    }
    closedir(names);
    memcpy(own, journal->path, sizeof own);
    return *journal->name != '\0';
}

bool find_rolled_back(struct journal *journal, const struct journal *back) {
    char path[PATH_MAX];
    if (*back->rolls_back == '\0') return false;
    snprintf(path, sizeof path, "%s/%s%s", folder, back->rolls_back, ending);
    if (read_journal(journal, path) == FOUND_JOURNAL) return true;
    leave_journal(journal);
    return false;
}

void find_journal(struct journal *journal, const char *name) {
    char path[PATH_MAX];
    if (strchr(name, '/') != NULL || strlen(name) >= JOURNAL_NAME) refuse_usage("%s: not the name of an apply", name);
    snprintf(path, sizeof path, "%s/%s%s", folder, name, ending);
    read_it(journal, path);
}

static int is_listed(const struct dirent *entry) { return ends_with(entry->d_name, ending); }

void read_journals(void (*take)(struct journal *journal, enum found_journal found)) {
    char path[PATH_MAX];
    struct dirent **names;
    struct journal journal;
    int count = scandir(folder, &names, is_listed, alphasort);
    for (int i = 0; i < count; i++) {
        write_path(path, names[i]->d_name);
        enum found_journal found = read_journal(&journal, path);
        if (found != NO_JOURNAL) take(&journal, found);
        leave_journal(&journal);
        free(names[i]);
    }
    if (count >= 0) free(names);
}

/* What `read_journals` is asked. */
static size_t ended;
static bool is_any_open;
static char name_of_open[JOURNAL_NAME];

static void count_one(struct journal *journal, enum found_journal found) {
    bool is_ended = found == FOUND_JOURNAL && journal->ending != IS_OPEN;
    ended += is_ended;
    if (is_ended) return;
    is_any_open = true;
    snprintf(name_of_open, sizeof name_of_open, "%s", journal->name);
}

static void count_journals(void) {
    ended = 0;
    is_any_open = false;
    read_journals(count_one);
}

bool is_apply_open(char name[JOURNAL_NAME]) {
    count_journals();
    if (is_any_open) memcpy(name, name_of_open, JOURNAL_NAME);
    return is_any_open;
}

/* The earliest by their names go. This run's journal is the latest, even if the time of this machine was set back. */
void tidy_journals(size_t kept) {
    char path[PATH_MAX];
    struct dirent **names;
    count_journals();
    size_t left = is_any_open || ended <= kept ? 0 : ended - kept;
    int count = left == 0 ? 0 : scandir(folder, &names, is_listed, alphasort);
    for (int i = 0; i < count; i++) {
        write_path(path, names[i]->d_name);
        bool goes = left > 0 && (kept == 0 || strcmp(path, own) != 0);
        if (goes && unlink(path)) complain("%s: %s", path, strerror(errno));
        left -= goes;
        free(names[i]);
    }
    if (count > 0) free(names);
}

void name_journal(struct journal *journal, const char *word) {
    snprintf(journal->name, sizeof journal->name, "%s-%s-%04x", utc_text("%Y%m%d-%H%M%S", time(NULL)), word, draw_number());
    snprintf(journal->path, sizeof journal->path, "%s/%s%s", folder, journal->name, ending);
    memcpy(own, journal->path, sizeof own);
}
