/* Commands of a survey. */
#include "commands.h"
#include <string.h>

static struct ptpm_survey survey;

struct start_of_survey { struct ptpm_survey_settings settings; bool is_at; uint8_t target[8]; };

void stop_survey(void) { ptpm_survey_stop(&survey); }

static uint32_t start(void *given) {
    const struct start_of_survey *as = given;
    return as->is_at ? ptpm_survey_start_at_sized(&survey, &as->settings, as->target) : ptpm_survey_start_sized(&survey, &as->settings);
}

/* `survey clock=M port=1 .. [target K]`. */
static void run_survey(char *words) {
    struct start_of_survey as;
    as.is_at = read_survey(&words, &as.settings, as.target);
    say_outcome(refusing(start, &as, NULL), "STARTED");
}

static void run_ask(char *words) {
    size_t size = 1, octets = next_room(&words, PTPM_MOST_OCTETS);
    clear_room();
    uint32_t answer = ptpm_survey_send(&survey, room, octets, &size);
    say_written(answer, "SENT", size, say_message);
}

/* The answers so far, as many as there is room for. */
static size_t state(uint8_t *octets) {
    size_t size = 0, count = ptpm_survey_count(&survey);
    for (size_t i = 0; i < count && size + PTPM_MOST_OCTETS + 16 < MOST_OCTETS; i++) {
        struct ptpm_source source = { 0 };
        size_t field = 0;
        uint16_t error = 0;
        uint32_t told = ptpm_survey_answer(&survey, i, &source, octets + size + 16, PTPM_MOST_OCTETS, &field, &error);
        memset(octets + size, 0, 16);
        memcpy(octets + size, &source, sizeof source);
        octets[size + 12] = (uint8_t)told;
        octets[size + 13] = (uint8_t)error;
        size += 16 + field;
    }
    memcpy(octets + size, &count, sizeof count);
    return size + sizeof count;
}

static uint32_t receive(void *given) {
    const struct octets *datagram = given;
    return ptpm_survey_receive(&survey, datagram->at, datagram->size);
}

static void run_take(char *words) {
    static struct octets datagram;
    read_octets(&words, &datagram);
    say_outcome(refusing(receive, &datagram, state), "TAKEN");
}

static void run_count(char *words) {
    (void)words;
    say("%zu\n", ptpm_survey_count(&survey));
}

/* `answer PLACE`: who gave it, and what it says. */
static void run_answer(char *words) {
    struct ptpm_source source = { 0 };
    uint16_t error = 0xeeee;
    size_t size = 1, octets = next_room(&words, PTPM_MOST_OCTETS), place = (size_t)next_number(&words, 0);
    clear_room();
    uint32_t answer = ptpm_survey_answer(&survey, place, &source, room, octets, &size, &error);
    if (!ptpm_is_refusal(answer)) {
        say_octets(source.clock, sizeof source.clock);
        say(" %u: ", source.port);
    }
    say_written(answer, "VALUE", size, say_octets);
    if (answer == PTPM_REFUSED || error != 0) say("error: %u\n", error);
}

const struct command survey_commands[] = {
    { "survey", run_survey }, { "ask", run_ask }, { "take", run_take }, { "count", run_count }, { "answer", run_answer }, { NULL, NULL },
};
