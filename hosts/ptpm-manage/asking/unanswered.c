#include "unanswered.h"
#include "answer.h"
#include "exchange.h"
#include "message_places.h"
#include "names.h"
#include "notices.h"
#include "ptpm.h"
#include "session_file.h"
#include "stopping.h"
#include "transport.h"
#include "words.h"
#include <string.h>

/* How often nobody asks. */
enum { READINGS = 10 };

/* Whether the clock answers nobody's GET, if it did not answer the manager; then what it has is said. */
static bool say_value(const struct task *task) {
    static struct answer answer;
    bool is_answered = read_by_nobody(task, task->id, READINGS, &answer);
    if (is_answered) {
        complain("the clock answers reads%s", answer.outcome == PTPM_VALUE ? ", and has by now" : "");
        if (answer.outcome == PTPM_VALUE) print_answer(stderr, task, "ptpm-manage: ", &answer);
    } else if (!stopped) {
        complain("it answers no read either%s", why_unread());
    }
    return is_answered;
}

/* Why a clock that answers reads may drop what this manager asks. The path is that of the session's file. */
static void say_reason(const struct task *task, enum unanswered what, uint16_t number, const char *path) {
    static const char unsaved[] = ", or the clock can't save its state, for example since its disk is full, or its device has not agreed yet";
    const char *manager = identity_text(task->settings.clock);
    unsigned port = task->settings.port;
    switch (what) {
    case REQUEST:
        complain("it dropped the request, since a copy of manager %s/%u asks too, or each answer was lost%s", manager, port, unsaved);
        break;
    case EARLIER_REQUEST:
    case EARLIER_ELSEWHERE:
    case NUMBER:
        complain("it dropped number %u of manager %s/%u, since another file or a copy of the manager is ahead, or each answer was "
                 "lost%s", number, manager, port, unsaved);
        complain("if it does so each time, remove %s: the next run then begins a new session", path);
        break;
    case FIRST_NUMBER:
        complain("it answers no GET of manager %s/%u under any of four numbers: each answer was lost%s", manager, port, unsaved);
        break;
    }
}

/* A request goes over one of three, and clocks hear only theirs. */
static void advise_on_way(const struct task *task) {
    if (task->address != NULL) return;
    if (task->is_ethernet) complain("only clocks over Ethernet were asked, and none over UDP");
    else if (task->is_six) {
        complain("only clocks over IPv6 were asked, and none over IPv4, or over Ethernet (--ethernet)");
        complain("only clocks of the group ff0e::181 were asked: --udp ff02::181 asks those whose scope is the link");
    } else complain("only clocks over IPv4 were asked, and none over IPv6 (--ipv6), or over Ethernet (--ethernet)");
}

/* A request to every clock or every port waits for the time of a few answers. An answer that takes longer is not heard. */
static void advise_on_time(const struct task *task) {
    complain("over a slow link --timeout waits longer for each answer, %ld ms here", task->timeout);
}

void advise_on_every(const struct task *task) {
    static bool is_advised;
    if (task->path != NULL || is_advised) return;
    is_advised = true;
    advise_on_way(task);
    advise_on_time(task);
}

/* What may be wrong if the clock answers nobody. */
static void advise(const struct task *task, enum unanswered what) {
    const char *end = what == EARLIER_REQUEST || what == EARLIER_ELSEWHERE ? "" : "; --domain names another";
    unsigned hops = task->settings.hops;
    if (task->path == NULL && is_of_this_host(task->settings.target)) {
        complain("a clock on this machine has that identity, and is asked on its Unix socket: --unix PATH, such as /var/run/ptp4l");
        return;
    }
    if (task->port > 1) complain("numberPorts of get DEFAULT_DATA_SET shows whether the clock has a port %u", task->port);
    if (hops < SITE_HOPS) complain("a clock past more than %u boundary clock%s was not asked: --hops %d asks as far as status does",
                                   hops, hops == 1 ? "" : "s", SITE_HOPS);
    if (task->path != NULL) {
        complain("a clock with a transportSpecific, or in another domain, was not asked%s", end);
        return;
    }
    if (task->port == 0) complain("a clock that answers only if its port is named, such as a ptpd, is asked with --port 1");
    complain("survey DEFAULT_DATA_SET shows which clocks are in that domain%s", end);
    advise_on_way(task);
    if (task->is_survey) advise_on_time(task);
}

/* What becomes of a request that stays in the session's file. */
static void say_rest(const struct task *task, enum unanswered what, uint16_t number) {
    const char *words = task_words(task);
    unsigned domain = task->settings.domain;
    if (!task->is_kept) return;
    if (what == REQUEST) {
        complain("the next run sends %s again, under number %u, before its own; --give-up gives it up", words, number);
    } else if (what == EARLIER_REQUEST) {
        complain("%s of an earlier run, number %u, comes first; --give-up gives it up", words, number);
    } else if (what == EARLIER_ELSEWHERE) {
        complain("%s of an earlier run, number %u, was asked in domain %u, and comes first; --give-up gives it up, and --domain "
                 "%u asks there", words, number, domain, domain);
    }
}

/* What is said about the request at the end of the first line. */
static const char *request_clause(const struct task *task, enum unanswered what) {
    bool may_change = !task->is_survey && task->action != PTPM_GET;
    if (what == REQUEST) return may_change ? ": the request may have been carried out" : "";
    bool is_earlier = what == EARLIER_REQUEST || what == EARLIER_ELSEWHERE;
    if (is_earlier && may_change) return ": an earlier request may have been carried out, and this one was not sent";
    return ": the request itself was not sent";
}

void say_silence(const struct task *task, enum unanswered what, uint16_t number, const char *path) {
    tell_unfit_interfaces();
    tell_deaf_port();
    tell_guesses();
    if (say_value(task)) say_reason(task, what, number, path);
}

int no_answer(const struct task *task, enum unanswered what, uint16_t number, long sent) {
    const char *end = stopped ? "ended by a signal: " : "";
    if (sent == 0) {
        complain("%snothing was sent%s%s", end, stopped ? "" : ": no message is taken at ", stopped ? "" : transport_name());
        return stopped ? BY_SIGNAL + stopped : NOT_ASKED;
    }
    complain("%sno answer at %s in domain %u to %ld message%s%s", end, transport_name(), task->settings.domain, sent,
             sent == 1 ? "" : "s", request_clause(task, what));
    say_rest(task, what, number);
    if (stopped) return BY_SIGNAL + stopped;
    tell_unfit_interfaces();
    tell_deaf_port();
    tell_guesses();
    if (task->is_survey && !task->is_of_clock) {
        advise_on_every(task);
        return NOT_ANSWERED;
    }
    bool is_answered = (task->is_kept || task->action != PTPM_GET) && say_value(task);
    if (stopped) return BY_SIGNAL + stopped;
    if (!is_answered) advise(task, what);
    else if (task->is_kept) say_reason(task, what, number, session_path());
    return NOT_ANSWERED;
}

/* Whether the library gives this name to what is not a message by its rules, whatever was asked. */
static bool is_of_form(uint32_t refusal) {
    switch (refusal) {
    case PTPM_BAD_VERSION:
    case PTPM_BAD_LENGTH:
    case PTPM_BAD_ACTION:
    case PTPM_BAD_TLV_TYPE:
    case PTPM_BAD_TLV_LENGTH:
    case PTPM_BAD_TEXT: return true;
    default: return false;
    }
}

bool tell_unreadable(uint32_t refusal, const uint8_t source[10], const uint8_t *datagram, size_t size) {
    static bool is_told;
    if (!is_of_form(refusal) || size < LEAST_MESSAGE || memcmp(datagram + TARGET_AT, source, PORT_IDENTITY) != 0) return false;
    if (is_told) return true;
    is_told = true;
    complain("malformed reply from %s ignored: %s", identity_text(datagram + SOURCE_AT), answer_name(refusal));
    return true;
}
