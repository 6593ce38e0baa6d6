#include "marks.h"
#include "journal.h"
#include "kept_file.h"
#include "notices.h"
#include "program.h"
#include <errno.h>
#include <limits.h>
#include <stdint.h>
#include <stdio.h>
#include <string.h>
#include <sys/stat.h>
#include <unistd.h>

static const char *own;

void own_marks(const char *journal) { own = journal; }

bool has_own_marks(void) { return own != NULL; }

/* Opens the folder of a mark; whether it could. */
static bool find_mark(struct kept_file *mark, const char *session) {
    char path[PATH_MAX];
    *mark = (struct kept_file){ .folder = -1, .mode = 0666 };
    if ((size_t)snprintf(path, sizeof path, "%s.apply", session) < sizeof path) return open_kept_folder(mark, path);
    errno = ENAMETOOLONG;
    return false;
}

/* The journals' folder may have been moved together with the session: then the journal is in the folder `apply` beside that. */
static void find_moved(char journal[PATH_MAX], const char *session) {
    char beside[PATH_MAX];
    struct stat found;
    const char *name = strrchr(journal, '/'), *end = strrchr(session, '/');
    if (name == NULL || end == NULL || lstat(journal, &found) == 0) return;
    int size = snprintf(beside, sizeof beside, "%.*s/apply%s", (int)(end - session), session, name);
    if ((size_t)size < sizeof beside && lstat(beside, &found) == 0) memcpy(journal, beside, (size_t)size + 1);
}

/* The journal that a mark names. */
static enum kept_found read_mark(const struct kept_file *mark, const char *session, char journal[PATH_MAX]) {
    struct stat found;
    size_t size;
    enum kept_found what = read_kept(mark, (uint8_t *)journal, PATH_MAX - 1, &size, &found);
    journal[size] = '\0';
    journal[strcspn(journal, "\n")] = '\0';
    find_moved(journal, session);
    return what;
}

/* Whether it is the journal of this run. Its path may have been spelt otherwise, for example by XDG_STATE_HOME with a slash at its end. */
static bool is_own(const char *journal) {
    struct stat one, other;
    if (own == NULL || strcmp(own, journal) == 0) return own != NULL;
    return stat(own, &one) == 0 && stat(journal, &other) == 0 && one.st_dev == other.st_dev && one.st_ino == other.st_ino;
}

/* Refuses a mark whose journal is open. A past one is removed if it may be. */
static void see_to_mark(const char *session, bool may_remove) {
    struct kept_file mark;
    char journal[PATH_MAX];
    enum kept_found found = find_mark(&mark, session) ? read_mark(&mark, session, journal) : KEPT_NONE;
    bool is_past = found == KEPT_FILE && !is_own(journal) && !may_be_open(journal);
    if (is_past && may_remove) unlinkat(mark.folder, mark.name, 0);
    if (mark.folder >= 0) close(mark.folder);
    if (is_past || found == KEPT_NONE || (found == KEPT_FILE && is_own(journal))) return;
    const char *why = found == KEPT_UNREADABLE ? strerror(errno) : "it can't be read";
    if (found != KEPT_FILE) refuse_storage("nothing was asked: %s.apply: %s: an apply may be open", session, why);
    refuse("nothing was asked: the apply of %s is open: ptpm-manage resume goes on with it", journal);
}

void refuse_mark(const char *session) { see_to_mark(session, true); }

void refuse_open_mark(const char *session) {
    char path[PATH_MAX];
    struct stat found;
    if ((size_t)snprintf(path, sizeof path, "%s.apply", session) < sizeof path && lstat(path, &found) == 0) see_to_mark(session, false);
}

bool make_mark(const char *session) {
    struct kept_file mark;
    char line[PATH_MAX + 1];
    int size = snprintf(line, sizeof line, "%s\n", own);
    bool is_made = find_mark(&mark, session) && replace_kept(&mark, (const uint8_t *)line, (size_t)size) == REPLACED;
    close_quietly(mark.folder);
    return is_made;
}

void remove_mark(const char *session) {
    struct kept_file mark;
    char journal[PATH_MAX];
    if (find_mark(&mark, session) && read_mark(&mark, session, journal) == KEPT_FILE && is_own(journal)) unlinkat(mark.folder, mark.name, 0);
    if (mark.folder >= 0) close(mark.folder);
}
