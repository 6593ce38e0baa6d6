#include "journal.h"
#include "kept_file.h"
#include "names.h"
#include "notices.h"
#include "program.h"
#include <errno.h>
#include <fcntl.h>
#include <stdio.h>
#include <stdlib.h>
#include <string.h>
#include <sys/stat.h>
#include <time.h>
#include <unistd.h>

/* What a text in a journal is. */
enum { TEXT_OF_CHECK = 1, SKIPPED_LINE = 2 };

const char *ending_name(enum ending ending) {
    static const char *const endings[] = {
        "open", "complete", "refused", "answered", "changed", "given up", "rolled back", "stopped", "in part",
    };
    return endings[ending];
}

void give_steps(struct journal *journal, const struct step *steps, size_t count) {
    journal->count = count;
    journal->steps = needed(calloc(count + 1, sizeof *journal->steps), "the steps");
    journal->told = needed(calloc(count + 1, sizeof *journal->told), "the steps");
    if (steps != NULL) memcpy(journal->steps, steps, count * sizeof *steps);
}

const struct step *next_clock(const struct step *steps, size_t count, const struct step *before) {
    const struct step *next = NULL;
    for (size_t i = 0; i < count; i++) {
        bool is_after = before == NULL || memcmp(steps[i].clock, before->clock, 8) > 0;
        if (is_after && (next == NULL || memcmp(steps[i].clock, next->clock, 8) < 0)) next = &steps[i];
    }
    return next;
}

bool is_uncertain(const struct journal *journal, long step) {
    uint32_t mark = ptpm_journal_mark(&journal->kept, (uint16_t)step);
    return (mark == PTPM_MARK_BEGUN || mark == PTPM_MARK_LET_GO) && !journal->told[step].is_unsent;
}

void leave_journal(struct journal *journal) {
    ptpm_journal_stop(&journal->kept);
    if (journal->file > 0) close(journal->file);
    free(journal->steps);
    free(journal->told);
    free(journal->octets);
    free(journal->skipped);
    *journal = (struct journal){ 0 };
}

/* ---- records */

/* The octets of the latest record that was added. */
static uint8_t added[PTPM_RECORD_OCTETS];
static size_t added_size;

_Noreturn static void end_without_memory(void) {
    errno = ENOMEM;
    give_up("the journal");
}

static void start_records(struct journal *journal) {
    if (ptpm_journal_start(&journal->kept) != PTPM_JOURNALED) end_without_memory();
}

/* Adds a record. One that the library refuses ends the program. */
static void add(struct journal *journal, const struct ptpm_journal_record *record, const void *first, const void *second) {
    enum ptpm_journaled answer = ptpm_journal_add(&journal->kept, record, first, record->first_size, second, record->second_size,
                                                  added, sizeof added, &added_size);
    if (answer == PTPM_JOURNAL_NO_MEMORY) end_without_memory();
    if (answer != PTPM_JOURNALED) refuse_storage("%s: %s: no run writes such a record here", journal->path, answer_name(answer));
}

static void write_text(FILE *to, struct journal *journal, uint8_t what, const char *text, size_t size) {
    add(journal, &(struct ptpm_journal_record){ .kind = PTPM_RECORD_TEXT, .what = what, .first_size = (uint16_t)size }, text, text);
    fwrite(added, 1, added_size, to);
}

static void write_step(FILE *to, struct journal *journal, const struct step *step) {
    struct ptpm_journal_record record = {
        .kind = PTPM_RECORD_STEP, .domain = step->domain, .group = step->group, .port = step->port, .id = step->id,
        .first_size = (uint16_t)step->before.size, .second_size = (uint16_t)step->after.size,
    };
    memcpy(record.clock, step->clock, 8);
    add(journal, &record, step->before.octets, step->after.octets);
    fwrite(added, 1, added_size, to);
}

/* The head, the steps, and the texts. */
static void write_beginning(FILE *to, struct journal *journal) {
    struct ptpm_journal_record head = {
        .kind = PTPM_RECORD_HEAD, .flags = journal->keeps_going ? PTPM_KEEPS_GOING : PTPM_IN_ONE_ROW, .together = 1,
        .port = journal->manager_port, .count = (uint16_t)journal->count,
        .first_size = (uint16_t)strlen(journal->name), .second_size = (uint16_t)strlen(journal->rolls_back),
    };
    memcpy(head.clock, journal->manager, 8);
    add(journal, &head, journal->name, journal->rolls_back);
    fwrite(added, 1, added_size, to);
    for (size_t i = 0; i < journal->count; i++) write_step(to, journal, &journal->steps[i]);
    if (*journal->check != '\0') write_text(to, journal, TEXT_OF_CHECK, journal->check, strlen(journal->check));
    for (const char *at = journal->skipped, *end; at != NULL && (end = strchr(at, '\n')) != NULL; at = end + 1) {
        write_text(to, journal, SKIPPED_LINE, at, (size_t)(end - at));
    }
}

/* Each takes octets of a record; whether there is room for them. */
static bool take_name(char *name, size_t room, const uint8_t *octets, size_t size) {
    if (size >= room) return false;
    memcpy(name, octets, size);
    name[size] = '\0';
    return true;
}

static bool take_value(struct value *value, const uint8_t *octets, size_t size) {
    if (size > sizeof value->octets) return false;
    value->size = size;
    memcpy(value->octets, octets, size);
    return true;
}

static bool take_text(struct journal *journal, const struct ptpm_journal_record *record, const uint8_t *octets) {
    char *more = NULL;
    const char *before = journal->skipped == NULL ? "" : journal->skipped;
    if (record->what == TEXT_OF_CHECK) return take_name(journal->check, sizeof journal->check, octets + record->first, record->first_size);
    if (asprintf(&more, "%s%.*s\n", before, record->first_size, (const char *)octets + record->first) < 0) give_up("the journal");
    free(journal->skipped);
    journal->skipped = more;
    return true;
}

static bool take_head(struct journal *journal, const struct ptpm_journal_record *head, const uint8_t *octets) {
    memcpy(journal->manager, head->clock, 8);
    journal->manager_port = head->port;
    journal->keeps_going = (head->flags & PTPM_KEEPS_GOING) != 0;
    give_steps(journal, NULL, head->count);
    journal->count = 0;
    return take_name(journal->name, sizeof journal->name, octets + head->first, head->first_size)
           && take_name(journal->rolls_back, sizeof journal->rolls_back, octets + head->second, head->second_size);
}

static bool take_step(struct journal *journal, const struct ptpm_journal_record *record, const uint8_t *octets) {
    struct step *step = &journal->steps[journal->count++];
    *step = (struct step){ .domain = record->domain, .group = record->group, .port = record->port, .id = record->id };
    memcpy(step->clock, record->clock, 8);
    return take_value(&step->before, octets + record->first, record->first_size)
           && take_value(&step->after, octets + record->second, record->second_size);
}

/* Of a long answer its beginning is shown. */
static bool take_told(struct journal *journal, const struct ptpm_journal_record *record, const uint8_t *octets) {
    struct told *told = &journal->told[record->step];
    *told = (struct told){ .outcome = record->what, .error = record->error, .time = record->time };
    return take_value(&told->answer, octets + record->first, record->first_size < MOST_VALUE ? record->first_size : MOST_VALUE);
}

/* Takes a record that the library has taken; whether it is one of this program. */
static bool take_record(struct journal *journal, const struct ptpm_journal_record *record, const uint8_t *octets) {
    if (record->time != 0) journal->latest = record->time;
    switch (record->kind) {
    case PTPM_RECORD_HEAD: return take_head(journal, record, octets);
    case PTPM_RECORD_STEP: return take_step(journal, record, octets);
    case PTPM_RECORD_TEXT: return take_text(journal, record, octets);
    case PTPM_RECORD_TOLD: return take_told(journal, record, octets);
    case PTPM_RECORD_END: journal->ending = record->what; break;
    default: break;
    }
    return true;
}

/* ---- its file */

/* Opens it, to be appended to. */
static bool open_notes(struct journal *journal) {
    journal->file = open(journal->path, O_WRONLY | O_APPEND | O_CLOEXEC | O_NOFOLLOW);
    return journal->file >= 0;
}

bool make_journal(struct journal *journal) {
    struct kept_file file = { .folder = -1, .mode = 0666 };
    char *octets = NULL;
    start_records(journal);
    FILE *to = needed(open_memstream(&octets, &journal->size), "the journal");
    write_beginning(to, journal);
    if (fclose(to)) give_up("the journal");
    journal->octets = (uint8_t *)octets;
    bool is_made = open_kept_folder(&file, journal->path) && replace_kept(&file, journal->octets, journal->size) == REPLACED;
    close_quietly(file.folder);
    return is_made && open_notes(journal);
}

bool continue_journal(struct journal *journal) {
    struct stat found;
    if (!open_notes(journal) || fstat(journal->file, &found)) return false;
    return found.st_size == (off_t)journal->size || (ftruncate(journal->file, (off_t)journal->size) == 0 && fsync(journal->file) == 0);
}

/* All of a file, synchronized; NULL if it can't be read, and then errno says why. */
static uint8_t *read_file(const char *path, size_t *size) {
    struct stat found;
    int file = open(path, O_RDONLY | O_CLOEXEC | O_NOFOLLOW | O_NONBLOCK);
    bool is_kept = file >= 0 && fsync(file) == 0 && fstat(file, &found) == 0;
    uint8_t *octets = is_kept ? malloc((size_t)found.st_size + 1) : NULL;
    *size = 0;
    for (ssize_t count = 1; octets != NULL && count > 0 && *size < (size_t)found.st_size; *size += (size_t)count) {
        count = read(file, octets + *size, (size_t)found.st_size - *size);
        if (count >= 0) continue;
        free(octets);
        octets = NULL;
    }
    close_quietly(file);
    return octets;
}

/* Takes each whole record. */
static enum found_journal take_records(struct journal *journal, const uint8_t *octets, size_t size) {
    struct ptpm_journal_record record;
    size_t taken;
    start_records(journal);
    for (journal->size = 0;; journal->size += taken) {
        const uint8_t *at = octets + journal->size;
        switch (ptpm_journal_next(&journal->kept, at, size - journal->size, &record, &taken)) {
        case PTPM_JOURNALED: if (!take_record(journal, &record, at)) return DAMAGED_JOURNAL; break;
        case PTPM_JOURNAL_WHOLE: return FOUND_JOURNAL;
        case PTPM_JOURNAL_OTHER_VERSION: return OTHER_JOURNAL;
        case PTPM_JOURNAL_NO_MEMORY: end_without_memory();
        default: return DAMAGED_JOURNAL;
        }
    }
}

enum found_journal read_journal(struct journal *journal, const char *path) {
    size_t size;
    *journal = (struct journal){ 0 };
    snprintf(journal->path, sizeof journal->path, "%s", path);
    journal->octets = read_file(path, &size);
    if (journal->octets == NULL) return errno == ENOENT ? NO_JOURNAL : UNREADABLE_JOURNAL;
    return take_records(journal, journal->octets, size);
}

bool may_be_open(const char *path) {
    struct journal journal;
    enum found_journal found = read_journal(&journal, path);
    bool is_open = found != NO_JOURNAL && (found != FOUND_JOURNAL || journal.ending == IS_OPEN);
    leave_journal(&journal);
    return is_open;
}

/* ---- notes */

/* Whether the file still has a name. If not, errno says so. */
static bool is_there(const struct journal *journal) {
    struct stat found;
    if (fstat(journal->file, &found) == 0 && found.st_nlink > 0) return true;
    errno = ENOENT;
    return false;
}

const char *journal_rest(const struct journal *journal) {
    return is_there(journal) ? "the apply stays open" : "the journal is gone, and no resume finds this apply";
}

void say_not_noted(const struct journal *journal) {
    const char *why = strerror(errno);
    complain("%s: %s: %s", journal->path, why, journal_rest(journal));
}

/* Appends a record, and synchronizes it. If it can't be, what there is of it is cut off. */
static bool append(struct journal *journal, const uint8_t *octets, size_t size) {
    ssize_t written = write(journal->file, octets, size);
    if (written >= 0 && (size_t)written < size) errno = ENOSPC;
    bool is_noted = written == (ssize_t)size && fsync(journal->file) == 0 && is_there(journal);
    int failure = errno;
    if (is_noted) journal->size += size;
    else if (ftruncate(journal->file, (off_t)journal->size)) failure = errno;
    errno = failure;
    return is_noted;
}

bool note_record(struct journal *journal, const uint8_t *octets, size_t size, long *answered) {
    struct ptpm_journal_record record;
    size_t taken;
    *answered = NO_STEP;
    if (!append(journal, octets, size)) return false;
    enum ptpm_journaled answer = ptpm_journal_next(&journal->kept, octets, size, &record, &taken);
    if (answer != PTPM_JOURNALED) refuse_storage("%s: %s: no run writes such a record here", journal->path, answer_name(answer));
    if (record.kind == PTPM_RECORD_TOLD) *answered = record.step;
    return take_record(journal, &record, octets);
}

/* After a note that could not be written the run ends: the library has that already. */
bool note_end(struct journal *journal, enum ending ending) {
    struct ptpm_journal_record end = { .time = (uint64_t)time(NULL), .kind = PTPM_RECORD_END, .what = (uint8_t)ending, .step = NO_STEP };
    add(journal, &end, added, added);
    return append(journal, added, added_size) && take_record(journal, &end, added);
}
