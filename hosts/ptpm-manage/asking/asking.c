#include "answer.h"
#include "exchange.h"
#include "message_places.h"
#include "monotonic.h"
#include "names.h"
#include "notices.h"
#include "stopping.h"
#include "transport.h"
#include "unanswered.h"
#include "verbs.h"
#include "words.h"
#include <stdbool.h>
#include <stdio.h>
#include <string.h>

enum { QUIET = 2, QUIET_AT_FIRST = 5 };     /* rounds without a new answer that end a survey; QUIET_AT_FIRST if nobody answered */

static struct ptpm_survey survey;
static struct answer answer;

/* What an operator can do if the library refuses to ask. */
static const char *advice(uint32_t refusal) {
    switch (refusal) {
    case PTPM_NEEDS_PORT: return ": name a port of the clock, 1 to 65534, such as --target aabbcc.fffe.ddee01-1 or --port 1";
    case PTPM_SAME_CLOCK: return ": the manager has the identity of the clock; --manager gives it another";
    case PTPM_MANAGER_IS_EVERY: return ": the manager's identity means every clock; --manager gives it another";
    case PTPM_TARGET_IS_EVERY: return ": --target means every clock; survey asks every clock";
    case PTPM_TARGET_IS_ZERO: return ": --target is not the identity of a clock; survey shows which clocks there are";
    default: return "";
    }
}

static int not_asked(uint32_t refusal) {
    complain("nothing was asked: %s%s", answer_name(refusal), advice(refusal));
    return NOT_ASKED;
}

/* Counts a message that went out; whether it makes sense to go on. It makes none if there is no transport, and none went out
   before; that is said. */
static bool count_sending(enum sending sending, long *sent) {
    *sent += sending == OUT;
    if (sending != NO_TRANSPORT || *sent > 0) return true;
    say_not_sent();
    return false;
}

/* Sends the session's request until it is answered, its attempts are used, or a signal comes in. Counts what went out. */
static int send_until_answered(struct ptpm_session *session, const struct task *task, long *sent) {
    for (int attempt = 1;; attempt++) {
        enum sending sending = stopped ? NONE_LEFT : send_again(session);
        if (sending == NONE_LEFT) return NOT_ANSWERED;
        if (attempt > 1) show_progress("no answer yet: attempt %d of %d", attempt, task->settings.attempts);
        if (!count_sending(sending, sent)) return NOT_ASKED;
        if (is_answered_before(session, milliseconds() + task->timeout)) return ANSWERED;
    }
}

static int ask_once(struct ptpm_session *session, const struct task *task, long *all_sent) {
    long sent = 0;
    enum ptpm_begun refusal = begin_of_task(session, task);
    if (refusal != PTPM_BEGUN) refuse("nothing was asked: %s", answer_name(refusal));
    int status = send_until_answered(session, task, &sent);
    *all_sent += sent;
    if (status == NOT_ANSWERED) return no_answer(task, REQUEST, 0, sent);
    if (status != ANSWERED) return status;
    take_report(session, &answer);
    return print_report(task, &answer);
}

int judge_request(const struct task *task) {
    struct ptpm_session session = { 0 };
    uint32_t refusal = ptpm_session_start(&session, &task->settings);
    if (refusal == PTPM_STARTED) refusal = begin_of_task(&session, task);
    ptpm_session_stop(&session);
    return refusal == PTPM_BEGUN ? ANSWERED : not_asked(refusal);
}

int ask_without_file(const struct task *task) {
    struct ptpm_session session = { 0 };
    int status = ANSWERED;
    long requests = 0, sent = 0;
    uint32_t refusal = ptpm_session_start(&session, &task->settings);
    if (refusal != PTPM_STARTED) refuse("nothing was asked: %s", answer_name(refusal));
    for (; requests < task->times && (status == ANSWERED || status == REFUSED); requests++) status = ask_once(&session, task, &sent);
    if (task->times > 1) print_count(requests, sent);
    ptpm_session_stop(&session);
    return status;
}

/* How many answers to the message the survey hears in time that are the first of their port. More ports than it has room for are
   counted. */
static int taken_in_time(const uint8_t *message, long wait, long *lost) {
    int taken = 0;
    int64_t end = milliseconds() + wait;
    size_t size;
    for (const uint8_t *datagram; (datagram = receive_message(&size, end)) != NULL;) {
        enum ptpm_survey_received became = ptpm_survey_receive(&survey, datagram, size);
        tell_unreadable(became, message + SOURCE_AT, datagram, size);
        taken += became == PTPM_TAKEN;
        *lost += became == PTPM_FULL || became == PTPM_NO_MEMORY;
    }
    return taken;
}

/* The answers of a survey in the order in which they came. */
static void print_answers(const struct task *task) {
    struct ptpm_source source;
    char lead[IDENTITY_TEXT + 8];
    for (size_t place = 0; place < ptpm_survey_count(&survey); place++) {
        answer.outcome = ptpm_survey_answer(&survey, place, &source, answer.octets, sizeof answer.octets, &answer.size, &answer.error);
        snprintf(lead, sizeof lead, "%s/%u ", identity_text(source.clock), source.port);
        if (task->is_json) print_answer_as_json(stdout, task, &source, &answer);
        else print_answer(stdout, task, lead, &answer);
    }
}

static int end_of_survey(const struct task *task, long sent, long lost) {
    size_t count = ptpm_survey_count(&survey);
    print_answers(task);
    if (lost > 0) complain("more ports answered than there is room for: these are the first %zu", count);
    if (count > 0 && stopped) complain("ended by a signal: more may answer");
    if (count == 0) return no_answer(task, REQUEST, 0, sent);
    return stopped ? BY_SIGNAL + stopped : ANSWERED;
}

int ask_every_port(const struct task *task) {
    static uint8_t message[PTPM_MOST_OCTETS];
    size_t size;
    long sent = 0, lost = 0;
    uint32_t refusal = start_survey(&survey, task, task->settings.first, task->id, task->settings.domain, message, &size);
    if (refusal != PTPM_SENT) return not_asked(refusal);
    for (int attempt = 1, quiet = 0; attempt <= task->settings.attempts && !stopped; attempt++) {
        if (quiet >= (ptpm_survey_count(&survey) > 0 ? QUIET : QUIET_AT_FIRST)) break;
        show_progress("attempt %d: %zu answers so far", attempt, ptpm_survey_count(&survey));
        if (!count_sending(send_message(message, size), &sent)) return NOT_ASKED;
        quiet = taken_in_time(message, task->timeout, &lost) > 0 ? 0 : quiet + 1;
    }
    int status = end_of_survey(task, sent, lost);
    ptpm_survey_stop(&survey);
    return status;
}
