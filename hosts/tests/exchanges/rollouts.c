/* Commands of a rollout. What it wants done next is said in words, and a note with its record. */
#include "commands.h"
#include <stdlib.h>
#include <string.h>

static struct ptpm_rollout rollout;
static struct ptpm_rollout_event event;
static struct ptpm_rollout_action action;
static struct octets given;
static size_t whole;

void stop_rollout(void) { ptpm_rollout_stop(&rollout); }

static uint32_t open_it(void *choice) { return ptpm_rollout_open(&rollout, given.at, given.size, *(uint32_t *)choice, &whole); }

/* `rollout CHOICE OCTETS`: how many octets of the journal are whole. */
static void run_rollout(char *words) {
    uint32_t choice = (uint32_t)next_number(&words, 0);
    read_octets(&words, &given);
    uint32_t answer = refusing(open_it, &choice, NULL);
    say("%s, %zu octets\n", answer_name(answer, "ROLLED"), whole);
}

/* What a refused turn may not change: the record. */
static size_t state(uint8_t *octets) {
    size_t size;
    ptpm_rollout_record(&rollout, octets, PTPM_RECORD_OCTETS, &size);
    return size;
}

static uint32_t turn(void *unused) {
    (void)unused;
    return ptpm_rollout_turn(&rollout, &event, given.at, given.size, &action);
}

static void say_record(void) {
    size_t size = 1;
    clear_room();
    uint32_t answer = ptpm_rollout_record(&rollout, room, PTPM_RECORD_OCTETS, &size);
    if (answer == PTPM_ROLLED && wrote_alone(size)) say_octets(room, size);
}

static void say_step(void) {
    if (action.step == PTPM_NO_STEP) say("no step");
    else say("step %u", action.step);
}

static void say_action(void) {
    switch (action.what) {
    case PTPM_DO_LOOK: say("look at lane %u", action.lane); break;
    case PTPM_DO_SETTLE: say("settle lane %u, ", action.lane); say_step(); say(", in domain %u", action.domain); break;
    case PTPM_DO_LET_GO: say("give up at lane %u", action.lane); break;
    case PTPM_DO_READ: say("read "); say_step(); say(" in domain %u", action.domain); break;
    case PTPM_DO_CHECK: say("check before "); say_step(); break;
    case PTPM_DO_ASK: say("ask "); say_step(); break;
    case PTPM_DO_NOTE: say("note "); say_record(); break;
    case PTPM_DO_GO_ON: say("go on at lane %u", action.lane); break;
    case PTPM_DO_LEAVE: say("leave lane %u", action.lane); break;
    default: say(action.ending == 0 ? "open: %u at " : "ended: %u at ", action.ending == 0 ? action.why : action.ending); say_step();
    }
    say("\n");
}

/* By the number of the event. */
static const char *const events[] = {
    "begin", "found", "begins", "unsent", "value", "refused", "silent", "done", "passes", "stops", "not-written", "interrupted", NULL,
};

static uint32_t next_event(char **words) {
    for (uint32_t number = 0; events[number] != NULL; number++) {
        if (takes_word(words, events[number])) return number;
    }
    return (uint32_t)next_number(words, 0);
}

/* `event TIME WORD`, and after `begins` and `refused` a number, after `found` and `value` octets. */
static void run_event(char *words) {
    event = (struct ptpm_rollout_event){ .time = (uint64_t)next_number(&words, 0) };
    event.what = next_event(&words);
    given.size = 0;
    if (event.what == PTPM_EVENT_BEGINS) event.number = (uint16_t)next_number(&words, 0);
    else if (event.what == PTPM_EVENT_REFUSED) event.error = (uint16_t)next_number(&words, 0);
    else if (event.what == PTPM_EVENT_FOUND || event.what == PTPM_EVENT_VALUE) read_octets(&words, &given);
    uint32_t answer = refusing(turn, NULL, state);
    if (answer == PTPM_ROLLED) say_action();
    else say_outcome(answer, "ROLLED");
}

static void run_record(char *words) {
    size_t size = 1, octets = next_room(&words, PTPM_RECORD_OCTETS);
    clear_room();
    uint32_t answer = ptpm_rollout_record(&rollout, room, octets, &size);
    say_written(answer, "ROLLED", size, say_octets);
}

const struct command rollout_commands[] = {
    { "rollout", run_rollout }, { "event", run_event }, { "record", run_record }, { NULL, NULL },
};
