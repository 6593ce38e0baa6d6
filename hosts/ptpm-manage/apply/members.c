#include "members.h"
#include "apply_report.h"
#include "exchange.h"
#include "names.h"
#include "notices.h"
#include "program.h"
#include "stopping.h"
#include "text.h"
#include "transport.h"
#include "words.h"
#include <stdlib.h>
#include <string.h>
#include <time.h>

/* The name of a member, then its value if it was read, and the one that is wanted, if there are these. It is to be freed. */
static char *describe_member(const struct step *step, const struct answer *answer, const struct value *wanted) {
    char *text = NULL;
    size_t size;
    FILE *to = needed(open_memstream(&text, &size), "a notice");
    write_member_name(to, step);
    if (answer != NULL) {
        fputs(" is ", to);
        if (answer->outcome == PTPM_VALUE) write_value(to, step->id, answer->octets, answer->size);
        else fputs("refused", to);
    }
    if (wanted != NULL) {
        fputs(", and not ", to);
        write_value(to, step->id, wanted->octets, wanted->size);
    }
    if (fclose(to)) give_up("a notice");
    return text;
}

void show_step(const char *what, long place, size_t count, const struct step *step) {
    char *member = describe_member(step, NULL, NULL);
    head_progress("%s %ld of %zu, %s, since %s UTC", what, place + 1, count, member, utc_text("%T", time(NULL)));
    free(member);
}

/* Says after a lead that a member has another value than is wanted. */
static void say_value(const char *lead, const struct step *step, const struct answer *answer, const struct value *wanted) {
    char *text = describe_member(step, answer, wanted);
    complain("%s: %s", lead, text);
    free(text);
}

void say_changed(const struct step *step, const struct answer *answer, const struct value *wanted) {
    say_value("changed since", step, answer, wanted);
}

/* Says that a step is not needed. */
static void say_needless(const struct step *step, const struct answer *answer) {
    char *text = describe_member(step, answer, NULL);
    complain("%s already", text);
    free(text);
}

/* ---- reads */

struct task task_of_step(const struct task *task, const struct step *step) {
    struct task asked = *task;
    memcpy(asked.settings.target, step->clock, 8);
    asked.settings.domain = step->domain;
    asked.port = step->port;
    asked.action = PTPM_SET;
    asked.id = step->id;
    asked.size = step->after.size;
    memcpy(asked.octets, step->after.octets, step->after.size);
    return asked;
}

static bool is_read(const struct task *task, const struct step *step, uint8_t domain, struct answer *answer) {
    struct task reading = task_of_step(task, step);
    reading.settings.domain = domain;
    return read_by_nobody(&reading, step->id, task->settings.attempts, answer);
}

static int not_read(const struct step *step, uint8_t domain) {
    if (stopped) return BY_SIGNAL + stopped;
    complain("no answer from %s at %s in domain %u to a read of %s%s", identity_text(step->clock), transport_name(), domain, id_name(step->id),
             why_unread());
    return NOT_ANSWERED;
}

int read_member(const struct task *task, const struct step *step, uint8_t domain, struct answer *answer) {
    return is_read(task, step, domain, answer) ? ANSWERED : not_read(step, domain);
}

/* The same, and that DOMAIN is read in either domain of its step. The clock may have moved. */
static int read_moved(const struct task *task, const struct step *step, uint8_t domain, struct answer *answer) {
    bool is_answered = is_read(task, step, domain, answer);
    if (!is_answered && step->id == PTPM_ID_DOMAIN) is_answered = is_read(task, step, step->after.octets[0], answer);
    return is_answered ? ANSWERED : not_read(step, domain);
}

bool has(const struct answer *answer, const struct step *step, const struct value *value) {
    return answer->outcome == PTPM_VALUE && has_value(step->id, value->octets, value->size, answer);
}

/* ---- a rollback */

/* Each move is read in the domain in which it is asked, and so are the other members of its clock. */
static uint8_t domain_at_begin(const struct journal *journal, const struct step *step) {
    for (size_t i = 0; i < journal->count && step->id != PTPM_ID_DOMAIN; i++) {
        const struct step *move = &journal->steps[i];
        bool is_of_clock = memcmp(move->clock, step->clock, 8) == 0 && move->after.octets[0] == step->domain;
        if (is_of_clock && move->id == PTPM_ID_DOMAIN) return move->domain;
    }
    return step->domain;
}

int leave_needed_steps(const struct task *task, struct journal *back) {
    static struct answer answer;
    int found = ANSWERED;
    size_t count = back->count;
    back->count = 0;
    for (size_t i = 0; i < count; i++) {
        const struct step step = back->steps[i];
        show_step("read", (long)i, count, &step);
        int status = read_moved(task, &step, domain_at_begin(back, &step), &answer);
        if (status != ANSWERED) return status;
        bool is_needless = has(&answer, &step, &step.after);
        if (is_needless) say_needless(&step, &answer);
        else back->steps[back->count++] = step;
        if (is_needless || has(&answer, &step, &step.before)) continue;
        say_changed(&step, &answer, &step.before);
        found = NOT_AS_ASKED;
    }
    return found;
}

/* Why a rollback leaves a step out; NULL if it does not, or the step was never asked. */
static const char *why_left_out(const struct journal *journal, size_t place) {
    switch (journal->told[place].outcome) {
    case IS_REFUSED: return "was refused";
    case OTHER_VALUE: return "was answered with a different value";
    case NOT_TOLD: return is_uncertain(journal, (long)place) ? "may have been carried out" : NULL;
    default: return NULL;
    }
}

int find_left_out(const struct task *task, struct journal *journal) {
    static struct answer answer;
    int found = ANSWERED;
    for (size_t i = 0; i < journal->count; i++) {
        const struct step *step = &journal->steps[i];
        const char *why = why_left_out(journal, i);
        char lead[2 * JOURNAL_NAME + 64];
        if (why == NULL) continue;
        show_step("read", (long)i, journal->count, step);
        int status = read_moved(task, step, domain_at_begin(journal, step), &answer);
        if (status == ANSWERED && has(&answer, step, &step->before)) continue;
        journal->told[i].is_left_out = true;
        snprintf(lead, sizeof lead, "step %zu of %s %s, and is left out", i + 1, journal->name, why);
        if (status == ANSWERED) say_value(lead, step, &answer, &step->before);
        else complain("%s", lead);
        found = status == ANSWERED ? NOT_ANSWERED : status;
    }
    return found;
}
