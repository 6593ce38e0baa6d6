#include "exchange.h"
#include "message_places.h"
#include "monotonic.h"
#include "notices.h"
#include "random.h"
#include "stopping.h"
#include "unanswered.h"
#include <errno.h>
#include <stdio.h>
#include <string.h>
#include <unistd.h>

/* Who asks by the latest message, and its target as the session has it. And the port that takes the place of the session's last one,
   or 0. */
static uint8_t source[PORT_IDENTITY], target[PORT_IDENTITY];
static uint16_t beyond;

bool is_beyond_session(uint16_t port) { return port > SESSION_PORTS && port != EVERY_PORT; }

enum ptpm_begun begin_of_task(struct ptpm_session *session, const struct task *task) {
    beyond = is_beyond_session(task->port) ? task->port : 0;
    uint16_t port = beyond != 0 ? SESSION_PORTS : task->port;
    if (port == 0 || port == EVERY_PORT) return ptpm_session_begin(session, task->action, task->id, port, task->octets, task->size);
    return ptpm_session_begin_at(session, task->action, task->id, port, task->octets, task->size);
}

uint32_t start_survey(struct ptpm_survey *survey, const struct task *task, uint16_t number, uint16_t id, uint8_t domain,
                      uint8_t message[PTPM_MOST_OCTETS], size_t *size) {
    struct ptpm_survey_settings settings = {
        .port = task->settings.port, .number = number, .id = id, .domain = domain, .hops = task->settings.hops,
    };
    memcpy(settings.clock, task->settings.clock, sizeof settings.clock);
    uint32_t refusal = task->is_of_clock ? ptpm_survey_start_at(survey, &settings, task->settings.target)
                                         : ptpm_survey_start(survey, &settings);
    return refusal == PTPM_STARTED ? ptpm_survey_send(survey, message, PTPM_MOST_OCTETS, size) : refusal;
}

/* Outside of the session its last port and the one that is named in its place are swapped. */
static void swap_port(uint8_t *at) {
    uint16_t port = number_at(at);
    if (beyond != 0 && (port == beyond || port == SESSION_PORTS)) put_number(at, port == beyond ? SESSION_PORTS : beyond);
}

/* The latest numbers under which something was asked. */
enum { NUMBERS = 256, FEW = 16 };
static uint16_t asked[NUMBERS];
static size_t asked_count;

static uint16_t number_in(const uint8_t *message) { return number_at(message + SEQUENCE_AT); }

static bool was_asked(uint16_t number) {
    for (size_t i = 0; i < NUMBERS && i < asked_count; i++) {
        if (asked[i] == number) return true;
    }
    return false;
}

/* How many answers had a number that was not asked; one after the other with the same number are one. */
static long guesses;

bool is_response_of_clock(const uint8_t *copy, size_t size) {
    uint8_t action = size >= LEAST_MESSAGE ? copy[ACTION_AT] & LOWER_HALF : 0;
    return (action == RESPONSE || action == ACKNOWLEDGE) && memcmp(copy + TARGET_AT, source, sizeof source) == 0
           && memcmp(copy + SOURCE_AT, target, CLOCK_IDENTITY) == 0;
}

bool may_answer(const uint8_t *copy, size_t size) {
    static uint16_t latest;
    if (is_response_of_clock(copy, size) && !was_asked(number_in(copy))) {
        guesses += guesses == 0 || number_in(copy) != latest;
        latest = number_in(copy);
    }
    return guesses <= FEW;
}

void tell_guesses(void) {
    if (guesses <= FEW) return;
    complain("%ld answers had numbers that were not asked: someone guesses numbers, or also asks as this manager; all answers are ignored", guesses);
}

void name_target(uint8_t *message) {
    if (!was_asked(number_in(message))) asked[asked_count++ % NUMBERS] = number_in(message);
    memcpy(source, message + SOURCE_AT, sizeof source);
    memcpy(target, message + TARGET_AT, sizeof target);
    swap_port(message + TARGET_AT + CLOCK_IDENTITY);
}

enum sending send_again(struct ptpm_session *session) {
    static uint8_t message[PTPM_MOST_OCTETS];
    size_t size;
    if (ptpm_session_send(session, message, sizeof message, &size) != PTPM_SENT) return NONE_LEFT;
    name_target(message);
    return send_message(message, size);
}

size_t copy_datagram(uint8_t copy[PTPM_MOST_OCTETS], const uint8_t *datagram, size_t size) {
    if (size > PTPM_MOST_OCTETS) size = PTPM_MOST_OCTETS;       /* octets that follow the message */
    memcpy(copy, datagram, size);
    if (size >= LEAST_MESSAGE) swap_port(copy + SOURCE_PORT_AT);
    return size;
}

/* The sourcePortIdentity of an answer is that of the port which made it (13.3.2.8). A clock of this project has the port that was named
   make it. A `ptp4l` refuses at the port where the request came in, before it looks at the port that was named. So an error of that clock
   is judged as one of the named port; the library judges all else of it, its number among that. */
bool is_error_of_clock(uint8_t *copy, size_t size) {
    bool is_error = size >= LEAST_MESSAGE && copy[TLV_AT] == 0 && copy[TLV_AT + 1] == ERROR_TLV
                    && memcmp(copy + SOURCE_AT, target, CLOCK_IDENTITY) == 0;
    if (is_error) memcpy(copy + SOURCE_AT, target, sizeof target);
    return is_error;
}

/* Whether a datagram answers the session's request. */
static bool is_answered(struct ptpm_session *session, const uint8_t *datagram, size_t size) {
    static uint8_t copy[PTPM_MOST_OCTETS];
    size = copy_datagram(copy, datagram, size);
    if (!may_answer(copy, size)) return false;
    enum ptpm_session_received became = ptpm_session_receive(session, copy, size);
    if (became == PTPM_ANSWERED) return true;
    tell_unreadable(became, source, copy, size);
    return is_error_of_clock(copy, size) && ptpm_session_receive(session, copy, size) == PTPM_ANSWERED;
}

void judge_unheard(const struct task *task, const uint8_t *copy, size_t size) {
    static struct ptpm_session judge;
    static bool is_started;
    if (!is_started) is_started = ptpm_session_start(&judge, &task->settings) == PTPM_STARTED;
    if (is_started) tell_unreadable(ptpm_session_receive(&judge, copy, size), source, copy, size);
}

bool is_answered_before(struct ptpm_session *session, int64_t end) {
    size_t size;
    for (const uint8_t *datagram; (datagram = receive_message(&size, end)) != NULL;) {
        if (is_answered(session, datagram, size)) return true;
    }
    return false;
}

enum { PROCESSES = 2047 };      /* so that the last port is 65533; one of every port is 65535 */

uint16_t port_of_nobody(uint8_t action) {
    return (uint16_t)(FIRST_OF_NOBODY + getpid() % PROCESSES * 2 + (action != PTPM_GET));
}

/* Begins a GET; whether it is begun. */
static bool begin_reading(struct ptpm_session *session, const struct task *task, uint16_t id, uint8_t attempts) {
    static struct task reading;
    reading = *task;
    reading.action = PTPM_GET;
    reading.id = id;
    reading.size = 0;
    reading.settings.port = port_of_nobody(PTPM_GET);
    reading.settings.first = next_number();
    reading.settings.attempts = attempts;
    return ptpm_session_start(session, &reading.settings) == PTPM_STARTED && begin_of_task(session, &reading) == PTPM_BEGUN;
}

/* Why there was no way for the latest message; 0 if there was. */
static int failure;

const char *why_unread(void) {
    static char why[64];
    snprintf(why, sizeof why, "%s%s", failure == 0 ? "" : ": ", failure == 0 ? "" : strerror(failure));
    return why;
}

/* Sends it until it is answered; whether it is. */
static bool finish_reading(struct ptpm_session *session, const struct task *task) {
    for (int attempt = 1; !stopped; attempt++) {
        enum sending sending = send_again(session);
        if (sending == NONE_LEFT) return false;
        failure = sending == NO_TRANSPORT ? errno : 0;
        if (attempt > 1) show_progress("no answer yet: attempt %d", attempt);
        if (sending != NO_TRANSPORT && is_answered_before(session, milliseconds() + task->timeout)) return true;
    }
    return false;
}

bool read_by_nobody(const struct task *task, uint16_t id, uint8_t attempts, struct answer *answer) {
    struct ptpm_session session = { 0 };
    bool is_answered = begin_reading(&session, task, id, attempts) && finish_reading(&session, task);
    if (is_answered) take_report(&session, answer);
    ptpm_session_stop(&session);
    return is_answered;
}
