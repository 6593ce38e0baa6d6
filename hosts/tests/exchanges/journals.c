/* Commands of a journal, whose records are said by their members, as they are given. And commands of the seal of an image, and of the
   newest of several images. */
#include "commands.h"
#include <string.h>

static struct ptpm_journal journal;
static struct ptpm_journal_record record;
static struct octets groups[2], given;
static size_t size;

void stop_journal(void) { ptpm_journal_stop(&journal); }

static uint32_t start(void *unused) {
    (void)unused;
    return ptpm_journal_start(&journal);
}

static void run_journal(char *words) {
    (void)words;
    say_outcome(refusing(start, NULL, NULL), "STARTED");
}

/* What a refused call may not change: a mark of each of the first steps. */
static size_t state(uint8_t *octets) {
    for (uint16_t step = 0; step < 8; step++) octets[step] = (uint8_t)ptpm_journal_mark(&journal, step);
    return 8;
}

static uint32_t add(void *given_room) {
    return ptpm_journal_add(&journal, &record, groups[0].at, groups[0].size, groups[1].at, groups[1].size, room, *(size_t *)given_room, &size);
}

/* `add [room N] kind=3 step=0 .. [with OCTETS [and OCTETS]]`. What comes is its octets. */
static void run_add(char *words) {
    size_t octets = next_room(&words, PTPM_RECORD_OCTETS);
    char *with = strstr(words, "with "), *second = with == NULL ? NULL : strstr(with, " and ");
    groups[0].size = groups[1].size = 0;
    if (second != NULL) *second = '\0', second += strlen(" and "), read_octets(&second, &groups[1]);
    if (with != NULL) *with = '\0', with += strlen("with "), read_octets(&with, &groups[0]);
    read_record(&words, &record);
    clear_room();
    uint32_t answer = refusing(add, &octets, state);
    say_written(answer, "JOURNALED", size, say_octets);
}

static void say_number(const char *name, unsigned long long number) {
    if (number != 0) say(" %s=%llu", name, number);
}

static void say_group(const char *lead, size_t place, size_t count, const uint8_t *octets) {
    if (count == 0) return;
    say(" %s ", lead);
    say_octets(octets + place, count);
}

static void say_record(const uint8_t *octets) {
    static const uint8_t none[8];
    say("kind=%u", record.kind);
    say_number("flags", record.flags), say_number("together", record.together), say_number("count", record.count);
    if (memcmp(record.clock, none, sizeof none) != 0) { say(" clock="); say_octets(record.clock, sizeof record.clock); }
    say_number("port", record.port), say_number("domain", record.domain), say_number("group", record.group), say_number("id", record.id);
    say_number("time", record.time), say_number("step", record.step), say_number("number", record.number);
    say_number("what", record.what), say_number("error", record.error);
    say_group("with", record.first, record.first_size, octets);
    say_group("and", record.second, record.second_size, octets);
    say("\n");
}

static uint32_t next(void *place) {
    size_t at = *(size_t *)place;
    return ptpm_journal_next(&journal, given.at + at, given.size - at, &record, &size);
}

/* `read OCTETS`: each record of a file, and how many octets were whole. */
static void run_read(char *words) {
    uint32_t answer;
    size_t at = 0;
    read_octets(&words, &given);
    for (; (answer = refusing(next, &at, state)) == PTPM_JOURNALED; at += size) say_record(given.at + at);
    say("%s after %zu\n", answer_name(answer, ""), at);
}

static void run_mark(char *words) {
    static const char *const marks[] = { "untouched", "begun", "done", "refused", "answered", "given up", "none" };
    say("%s\n", marks[ptpm_journal_mark(&journal, (uint16_t)next_number(&words, 0))]);
}

/* `seal COUNT OCTETS`. There is room for exactly image and seal, unless it is given. */
static void run_seal(char *words) {
    static uint8_t before[MOST_OCTETS];
    size_t sealed = 1, octets = next_room(&words, 0);
    uint64_t count = (uint64_t)next_number(&words, 0);
    read_octets(&words, &given);
    if (octets == 0) octets = given.size + PTPM_SEAL_OCTETS;
    clear_room();
    memcpy(room, given.at, given.size);
    memcpy(before, room, sizeof before);
    uint32_t answer = ptpm_image_seal(room, given.size, octets, count, &sealed);
    put_name("SEALED", room, sealed);
    if (answer == PTPM_SAVED) say_written(answer, "SAVED", sealed, say_octets);
    else say("%s\n%s", answer_name(answer, "SAVED"), sealed == 0 && memcmp(room, before, sizeof before) == 0 ? "" : "it writes\n");
}

/* `unseal OCTETS`: how many octets the image has, and how often it was saved. */
static void run_unseal(char *words) {
    uint64_t count = 0xee;
    size_t image = 0xee;
    read_octets(&words, &given);
    uint32_t answer = ptpm_image_unseal(given.at, given.size, &count, &image);
    say("%s %zu %llu\n", answer_name(answer, "RESTORED"), image, (unsigned long long)count);
}

/* `newest SIZE OCTETS`: the place, how many octets its image has, and how often it was saved; places of this size are all octets. */
static void run_newest(char *words) {
    uint64_t count = 0xee;
    size_t image = 0xee, each = (size_t)next_number(&words, 0);
    read_octets(&words, &given);
    size_t places = each == 0 ? 3 : given.size / each;
    size_t place = ptpm_newest_image(given.at, each, places, &count, &image);
    say("%zu of %zu: %zu %llu\n", place, places, image, (unsigned long long)count);
}

const struct command journal_commands[] = {
    { "journal", run_journal }, { "add", run_add }, { "read-journal", run_read }, { "mark", run_mark }, { "seal", run_seal },
    { "unseal", run_unseal }, { "newest", run_newest }, { NULL, NULL },
};
