#include "device.h"
#include "counts.h"
#include "ethernet.h"
#include "message_places.h"
#include "names.h"
#include "output.h"
#include "ptp4l.h"
#include "source.h"
#include <stdlib.h>
#include <string.h>

bool has_device;

static struct source source;
static struct device_limits rooms[2], *limits = &rooms[0];

/* Changes that wait. The program is asked about the first, which is then decided and taken. A manager has one of them at most. */
static struct { struct heard heard; uint8_t octets[MOST_HEARD], station[STATION]; } waiting[MANAGERS];
static size_t first, count;
enum state { WAITS, IS_ASKED, IS_LOOKED_FOR, IS_DECIDED };
static enum state state;                /* of the first */
static struct ptpm_question question;   /* that the program is asked about it */
static struct ptpm_say said;            /* and what the device says of it, if it was asked */
static bool is_said;

/* What the file says, if it has changed: limits, or something that is wrong. */
enum file_says { SAYS_NOTHING, SAYS_LIMITS, IS_WRONG };

static enum file_says take_limits(void) {
    struct device_limits *other = limits == &rooms[0] ? &rooms[1] : &rooms[0];
    static char empty[1];
    char *text = empty;
    read_source(&source);
    bool is_empty = is_empty_file(&source), has_text = next_text(&source, &text);
    if (!has_text && !is_empty) return SAYS_NOTHING;
    if (!read_device_limits(other, source.path, text)) return IS_WRONG;
    limits = other;
    return SAYS_LIMITS;
}

void start_device(void) {
    has_device = options->limits_file != NULL || has_program();
    if (options->limits_file == NULL) return;
    open_source(&source, options->limits_file, false);
    if (take_limits() != SAYS_LIMITS) exit(2);
}

int limits_event(void) { return options->limits_file != NULL ? source.polled : -1; }

void read_limits(void) {
    switch (take_limits()) {
    case SAYS_NOTHING: break;
    case SAYS_LIMITS:
        if (options->is_verbose) print_line("limits read: %zu", limits->count);
        break;
    case IS_WRONG: say_at_times("%s: the limits stay as they were", source.path);
    }
}

void follow_limits(void) {
    if (options->limits_file != NULL && follow_source(&source)) read_limits();
}

static void object(struct ptpm_say *say, uint16_t error) {
    say->kind = PTPM_OBJECTS;
    say->error = error;
    counts[OBJECTED]++;
}

const struct ptpm_say *objection_of_limits(const struct ptpm_question *asked) {
    static struct ptpm_say objection;
    uint16_t error = ptpm_limits_say(limits->all, limits->count, asked);
    if (error == 0) return NULL;
    object(&objection, error);
    return &objection;
}

bool has_program(void) { return options->device_program != NULL || options->ptp4l != NULL; }

bool is_passed_over(const struct heard *heard) {
    for (size_t i = 0; i < count; i++) {
        const uint8_t *octets = waiting[(first + i) % MANAGERS].heard.octets;
        if (memcmp(octets + SOURCE_AT, heard->octets + SOURCE_AT, SEQUENCE_AT - SOURCE_AT) != 0) continue;
        counts[NOT_TAKEN_MEANWHILE]++;
        return true;
    }
    return false;
}

void wait_for_program(const struct heard *change) {
    if (count == MANAGERS) {            /* the first is of an earlier run */
        counts[NOT_TAKEN_MEANWHILE]++;
        return;
    }
    size_t place = (first + count++) % MANAGERS;
    struct heard *copy = &waiting[place].heard;
    *copy = *change;
    copy->octets = memcpy(waiting[place].octets, change->octets, change->size);
    if (change->station != NULL) copy->station = memcpy(waiting[place].station, change->station, STATION);
}

static struct heard *first_in(enum state wanted) { return count > 0 && state == wanted ? &waiting[first].heard : NULL; }

struct heard *change_to_ask(void) { return first_in(WAITS); }

bool is_next_of_peer(void) { return count > 0 && waiting[first].heard.port == NULL; }

void decide_change(const struct ptpm_say *say) {
    is_said = say != NULL;
    if (is_said) said = *say;
    state = IS_DECIDED;
}

/* The error that a status of the program is: that of its number, or a general one. */
static uint16_t error_of(int status) {
    switch (status) {
    case PTPM_ERROR_WRONG_VALUE: case PTPM_ERROR_NOT_SETABLE: case PTPM_ERROR_NOT_SUPPORTED: return (uint16_t)status;
    default: return PTPM_ERROR_GENERAL_ERROR;
    }
}

static void let_go_of_change(void) {
    first = (first + 1) % MANAGERS;
    count--;
    state = WAITS;
}

static const char *asked_program(void) { return options->ptp4l != NULL ? options->ptp4l : options->device_program; }

/* It said nothing, so the change counts as lost, and its manager sends it again. */
static void drop_change(const char *why) {
    say_at_times("%s %s, and the change counts as lost", asked_program(), why);
    counts[SILENT]++;
    let_go_of_change();
}

static void agree(void) {
    static const struct ptpm_say agreement = { .kind = PTPM_AGREES };
    counts[AGREED]++;
    decide_change(&agreement);
}

static void refuse(uint16_t error) {
    struct ptpm_say say = { 0 };
    object(&say, error);
    decide_change(&say);
}

bool may_ask(const struct ptpm_question *asked) {
    const struct ptpm_say *say;
    if (options->ptp4l == NULL) return true;
    switch (judge_change(asked, &say)) {
    case MAY_BE_ASKED: return true;
    case IS_SAID: take_word(say); break;
    case IS_TOO_EARLY: break;
    case IS_LOST: drop_change("was not asked");
    }
    return false;
}

void ask_program(const struct ptpm_question *asked) {
    question = *asked;
    if (options->ptp4l != NULL ? ask_for_change(asked) : start_run(asked, false)) state = IS_ASKED;
    else if (options->state == NULL) drop_change("could not be asked");
    else {
        say_at_times("%s could not be asked: GENERAL_ERROR", asked_program());
        counts[SILENT]++;
        refuse(PTPM_ERROR_GENERAL_ERROR);
    }
}

void take_word(const struct ptpm_say *say) {
    if (say->kind == PTPM_AGREES) agree();
    else refuse(say->error);
    if (options->is_verbose) print_line("the ptp4l %s", say->kind == PTPM_AGREES ? "has done it" : error_name(say->error));
}

/* What a look finds: the status of a run of the program. By any other than the first two it does not know. */
enum { HAS_CHANGE = 0, LACKS_CHANGE = 1, DOES_NOT_KNOW = 2 };

static void take_look(int found) {
    if (found == HAS_CHANGE) agree();
    else refuse(PTPM_ERROR_GENERAL_ERROR);
    say_at_times("a change was under way: the device %s", found == HAS_CHANGE ? "has it"
                 : found == LACKS_CHANGE ? "lacks it, and the answer is GENERAL_ERROR"
                                         : "does not know, and the answer is GENERAL_ERROR");
}

static void look(void) {
    state = IS_LOOKED_FOR;
    if (!start_run(&question, true)) take_look(DOES_NOT_KNOW);
}

/* It is the first of those that wait, and nobody's. A copy of it waits like another change, and gets the answer. */
void settle_earlier(const struct ptpm_question *asked) {
    static uint8_t octets[LEAST_MESSAGE];
    question = *asked;
    wait_for_program(&(struct heard){ .octets = octets, .size = sizeof octets, .is_of_earlier_run = true });
    if (options->ptp4l != NULL) take_look(has_ptp4l_changed(asked) ? HAS_CHANGE : LACKS_CHANGE);
    else look();
}

/* Nothing was done. */
static void refuse_change(const struct run *run) {
    uint16_t error = run->end == RUN_NOT_STARTED ? PTPM_ERROR_GENERAL_ERROR : error_of(run->number);
    refuse(error);
    if (run->end == RUN_NOT_STARTED) say_at_times("%s: %s", options->device_program, strerror(run->number));
    else if (error == PTPM_ERROR_GENERAL_ERROR) {
        say_at_times("%s ended with status %d: GENERAL_ERROR", options->device_program, run->number);
    }
    if (options->is_verbose) print_line("the device objects: %s", error_name(error));
}

/* Nobody knows what was done. */
static void take_silence(const char *why) {
    if (options->state == NULL) {
        drop_change(why);
        return;
    }
    say_at_times("%s %s, and is asked whether the device has the change", options->device_program, why);
    counts[SILENT]++;
    look();
}

void hear_program(void) {
    struct run run;
    if (!end_run(&run)) return;
    if (state == IS_LOOKED_FOR) take_look(run.end == RUN_EXITED ? run.number : DOES_NOT_KNOW);
    else if (state != IS_ASKED) return;
    else if (run.end == RUN_TOOK_TOO_LONG) take_silence("took too long");
    else if (run.end == RUN_KILLED) take_silence("was ended by a signal");
    else if (run.end == RUN_NOT_STARTED || run.number != 0) refuse_change(&run);
    else {
        agree();
        if (options->is_verbose) print_line("the device agrees");
    }
}

struct heard *take_change(const struct ptpm_say **say) {
    struct heard *change = first_in(IS_DECIDED);
    if (change == NULL) return NULL;
    *say = is_said ? &said : NULL;
    let_go_of_change();
    return change;
}
