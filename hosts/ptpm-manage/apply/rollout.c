#include "rollout.h"
#include "answer.h"
#include "apply_report.h"
#include "driving.h"
#include "exchange.h"
#include "marks.h"
#include "members.h"
#include "monotonic.h"
#include "names.h"
#include "notices.h"
#include "program.h"
#include "ptpm_program.h"
#include "session.h"
#include "stopping.h"
#include "transport.h"
#include "unanswered.h"
#include "words.h"
#include <errno.h>
#include <stdlib.h>
#include <string.h>
#include <time.h>

/* A clock that an apply changes: its session, held from the first use to the end, and what becomes of what is asked there. */
struct desk {
    struct task task;                   /* what is asked of all clocks, with this one as the target */
    struct kept_session session;
    struct driver driver;
    long step;                          /* what it is asked, or NO_STEP: the request of another program */
    uint8_t domain;                     /* in which that is asked */
    bool is_begun_now;                  /* that is a step that this run has begun */
    bool has_failed;                    /* it gave the latest request no answer */
};

/* The lanes: the clocks of the steps, in the order of their identities. */
static struct desk **desks;
static size_t desk_count;

/* ---- sessions */

static struct desk *desk_of(const struct step *step) {
    size_t lane = 0;
    while (memcmp(desks[lane]->task.settings.target, step->clock, 8) != 0) lane++;
    return desks[lane];
}

/* A question that an earlier run left at another port than that step's is given up. */
static void take_session(const struct task *task, const struct step *first) {
    struct desk *desk = needed(malloc(sizeof *desk), "the sessions");
    *desk = (struct desk){ .task = task_of_step(task, first) };
    open_session(&desk->session, &desk->task);
    desk->driver = (struct driver){ .asker = &desk->session.asker, .task = &desk->task };
    if (!desk->session.has_file) desk->driver.opened = milliseconds();
    desks = needed(reallocarray(desks, desk_count + 1, sizeof *desks), "the sessions");
    desks[desk_count++] = desk;
}

/* The first step of a clock without an answer, or else its first one. */
static const struct step *first_to_ask(const struct journal *journal, const struct step *first) {
    for (size_t i = 0; i < journal->count; i++) {
        bool is_of_clock = memcmp(journal->steps[i].clock, first->clock, 8) == 0;
        if (is_of_clock && journal->told[i].outcome == NOT_TOLD) return &journal->steps[i];
    }
    return first;
}

/* The port of the step that is asked first counts. */
void take_sessions(const struct task *task, const struct journal *journal) {
    for (const struct step *first = NULL; (first = next_clock(journal->steps, journal->count, first)) != NULL;) {
        take_session(task, first_to_ask(journal, first));
    }
}

void mark_sessions(void) {
    for (size_t i = 0; i < desk_count; i++) {
        if (make_mark(desks[i]->session.file->path)) continue;
        refuse_storage("nothing was sent: %s.apply: %s: the apply stays open", desks[i]->session.file->path, strerror(errno));
    }
}

static void remove_marks(void) {
    for (size_t i = 0; i < desk_count; i++) remove_mark(desks[i]->session.file->path);
}

void leave_sessions(void) {
    for (size_t i = 0; i < desk_count; i++) {
        ptpm_asker_stop(&desks[i]->session.asker);
        free(desks[i]);
    }
    free(desks);
    desks = NULL;
    desk_count = 0;
}

/* ---- events */

/* What an action came to, for the rollout. */
struct event { struct ptpm_rollout_event said; const uint8_t *octets; size_t size; };

/* One that has only its name. */
static struct event plain_event(uint32_t what) { return (struct event){ .said = { .what = what } }; }

/* What an answer says. */
static struct event event_of(const struct answer *answer) {
    struct event event = plain_event(PTPM_EVENT_VALUE);
    event.octets = answer->octets;
    event.size = answer->size;
    if (answer->outcome == PTPM_REFUSED) event.said = (struct ptpm_rollout_event){ .what = PTPM_EVENT_REFUSED, .error = answer->error };
    return event;
}

/* The asker has the session that the file has: nothing was asked there since it was opened. */
static struct event look_at_desk(const struct desk *desk) {
    static uint8_t image[PTPM_SESSION_IMAGE_OCTETS];
    struct event event = plain_event(PTPM_EVENT_FOUND);
    event.octets = image;
    if (desk->session.has_file) ptpm_asker_image(&desk->session.asker, image, sizeof image, &event.size);
    return event;
}

/* What the answer is that was handed out. That to another program's request is said. */
static struct event take_answer(struct desk *desk) {
    static struct answer answer;
    answer.outcome = ptpm_asker_report(&desk->session.asker, answer.octets, sizeof answer.octets, &answer.size, &answer.error);
    if (desk->step == NO_STEP) say_settled(&desk->session.earlier, &desk->task, &answer);
    return event_of(&answer);
}

static struct event not_saved(const struct desk *desk, struct journal *journal) {
    const char *why = strerror(errno);
    if (desk->is_begun_now && desk->driver.sent == 0) journal->told[desk->step].is_unsent = true;
    complain("%s: %s: %s", desk->session.file->path, why, journal_rest(journal));
    return plain_event(PTPM_EVENT_NOT_WRITTEN);
}

/* ---- no answer */

/* What is known of a clock that gave this step no answer. One that moves may be in either domain: nothing is said of it. */
static void say_silence_at(const struct desk *desk, const struct step *step, bool is_begun) {
    enum unanswered what = is_begun ? REQUEST : desk->session.has_file ? NUMBER : FIRST_NUMBER;
    if (step->id == PTPM_ID_DOMAIN) return;
    struct task asked = task_of_step(&desk->task, step);
    say_silence(&asked, what, desk->driver.number, desk->session.file->path);
}

static void say_unanswered(const struct desk *desk, const struct journal *journal, bool is_uncertain) {
    complain("no answer from %s at %s in domain %u to %ld message%s: %s", identity_text(desk->task.settings.target), transport_name(),
             desk->domain, desk->driver.sent, desk->driver.sent == 1 ? "" : "s",
             is_uncertain ? "the step may have been carried out" : "the next step was not sent");
    if (desk->step == NO_STEP) say_before_steps(&desk->session.earlier, &desk->task);
    else say_silence_at(desk, &journal->steps[desk->step], is_uncertain);
}

/* No answer came. If no message of a step left that this run has begun, the session was saved without it. */
static struct event end_unanswered(struct desk *desk, const struct journal *journal) {
    const struct driver *driver = &desk->driver;
    bool is_unsent = desk->is_begun_now && driver->handed.what == PTPM_FAILED && !driver->handed.was_sent;
    desk->has_failed = true;
    if (!stopped && !driver->is_way_said) {
        say_unanswered(desk, journal, desk->step != NO_STEP && is_uncertain(journal, desk->step) && !is_unsent);
    }
    return plain_event(is_unsent ? PTPM_EVENT_UNSENT : stopped ? PTPM_EVENT_INTERRUPTED : PTPM_EVENT_SILENT);
}

/* ---- what is asked */

/* Drives the asker until there is something for the rollout. */
static struct event drive_on(struct desk *desk, struct journal *journal) {
    for (;;) {
        switch (drive(&desk->driver)) {
        case PTPM_NOTE_BEGUN: return (struct event){ .said = { .what = PTPM_EVENT_BEGINS, .number = desk->driver.handed.number } };
        case PTPM_NOTE_ANSWER: return take_answer(desk);
        case PTPM_SAVE_IT:
            if (!save_session(&desk->session)) return not_saved(desk, journal);
            if (say_saved(&desk->driver)) return plain_event(PTPM_EVENT_DONE);
            break;
        default: return end_unanswered(desk, journal);
        }
    }
}

static void begin_at_desk(struct desk *desk, long step, uint8_t domain) {
    if (desk->has_failed) renew_session(&desk->session, &desk->task);
    desk->step = step;
    desk->domain = domain;
    desk->is_begun_now = desk->has_failed = false;
    begin_driving(&desk->driver);
}

static struct event ask_at_desk(struct desk *desk, struct journal *journal, long step) {
    struct task request = task_of_step(&desk->task, &journal->steps[step]);
    begin_at_desk(desk, step, request.settings.domain);
    ask_request(&desk->driver, (uint64_t)step, &request);
    return drive_on(desk, journal);
}

static struct event settle_at_desk(struct desk *desk, struct journal *journal, long step, uint8_t domain) {
    begin_at_desk(desk, step, step == NO_STEP ? desk->session.earlier.task.settings.domain : domain);
    settle_request(&desk->driver, 0, domain);
    return drive_on(desk, journal);
}

static struct event go_on_at_desk(struct desk *desk, struct journal *journal) {
    desk->is_begun_now |= desk->driver.handed.what == PTPM_NOTE_BEGUN;
    if (desk->driver.handed.what == PTPM_NOTE_BEGUN) begin_driving(&desk->driver);
    say_noted(&desk->driver);
    return drive_on(desk, journal);
}

/* Gives up the request that is still in the session, and saves that. Nothing is sent. */
static struct event let_go_at_desk(struct desk *desk, struct journal *journal) {
    enum ptpm_asked refusal = ptpm_asker_let_go(&desk->session.asker, &desk->driver.handed);
    if (refusal != PTPM_ASKED) refuse_to_let_go(refusal, &desk->session.earlier, &desk->task);
    return drive_on(desk, journal);
}

/* ---- actions */

/* The rollout that goes on, and whose it is. */
struct run { const struct task *task; struct journal *journal; struct ptpm_rollout rollout; };

static void show(const struct run *run, const char *what, long step) {
    show_step(what, step, run->journal->count, &run->journal->steps[step]);
}

static struct event settle(const struct run *run, const struct ptpm_rollout_action *action) {
    if (action->step != NO_STEP) show(run, "step", action->step);
    return settle_at_desk(desks[action->lane], run->journal, action->step, action->domain);
}

/* A member is read before it is asked, and once all steps are done. */
static struct event read_step(const struct run *run, const struct ptpm_rollout_action *action) {
    static struct answer answer;
    const struct step *step = &run->journal->steps[action->step];
    bool is_done = run->journal->told[action->step].outcome == DONE;
    const struct value *wanted = is_done ? &step->after : &step->before;
    show(run, is_done ? "read" : "step", action->step);
    int status = read_member(run->task, step, action->domain, &answer);
    if (status != ANSWERED) return plain_event(stopped ? PTPM_EVENT_INTERRUPTED : PTPM_EVENT_SILENT);
    if (!has(&answer, step, wanted)) say_changed(step, &answer, wanted);
    return event_of(&answer);
}

/* Whether the user's program says that it may go on. */
static struct event check_before(const struct run *run, long step) {
    const char *path = run->journal->check;
    if (*path == '\0') return plain_event(PTPM_EVENT_PASSES);
    show(run, "check before step", step);
    int status = run_check_program(path);
    if (stopped) return plain_event(PTPM_EVENT_INTERRUPTED);
    if (status == 0) return plain_event(PTPM_EVENT_PASSES);
    complain("%s ended with status %d before step %ld: no further step is sent", path, status, step + 1);
    return plain_event(PTPM_EVENT_STOPS);
}

static struct event note(struct run *run) {
    static uint8_t octets[PTPM_RECORD_OCTETS];
    size_t size;
    long answered;
    ptpm_rollout_record(&run->rollout, octets, sizeof octets, &size);
    if (!note_record(run->journal, octets, size, &answered)) {
        say_not_noted(run->journal);
        return plain_event(PTPM_EVENT_NOT_WRITTEN);
    }
    if (answered != NO_STEP) say_step(run->journal, answered);
    return plain_event(PTPM_EVENT_DONE);
}

/* No step of the clock is to come: other runs may ask it. */
static struct event leave(struct desk *desk) {
    remove_mark(desk->session.file->path);
    leave_session_file(desk->session.file);
    return plain_event(PTPM_EVENT_DONE);
}

static bool sends(uint32_t what) { return what == PTPM_DO_SETTLE || what == PTPM_DO_READ || what == PTPM_DO_CHECK || what == PTPM_DO_ASK; }

static struct event do_action(struct run *run, const struct ptpm_rollout_action *action) {
    if (stopped && sends(action->what)) return plain_event(PTPM_EVENT_INTERRUPTED);
    switch (action->what) {
    case PTPM_DO_LOOK: return look_at_desk(desks[action->lane]);
    case PTPM_DO_SETTLE: return settle(run, action);
    case PTPM_DO_LET_GO: return let_go_at_desk(desks[action->lane], run->journal);
    case PTPM_DO_READ: return read_step(run, action);
    case PTPM_DO_CHECK: return check_before(run, action->step);
    case PTPM_DO_ASK: return ask_at_desk(desk_of(&run->journal->steps[action->step]), run->journal, action->step);
    case PTPM_DO_NOTE: return note(run);
    case PTPM_DO_GO_ON: return go_on_at_desk(desks[action->lane], run->journal);
    default: return leave(desks[action->lane]);
    }
}

static void see_to(const struct journal *journal, enum ptpm_rolled answer) {
    if (answer != PTPM_ROLLED) refuse_storage("%s: %s: the apply stays open", journal->path, answer_name(answer));
}

static struct ptpm_rollout_action turn(struct run *run, struct event event) {
    struct ptpm_rollout_action action;
    event.said.time = (uint64_t)time(NULL);
    see_to(run->journal, ptpm_rollout_turn(&run->rollout, &event.said, event.octets, event.size, &action));
    return action;
}

/* ---- the end */

/* A refusal changes nothing. But an earlier message of the step may have been carried out, by a clock that no longer knows that. Says so if
   the member has what was asked. */
static void say_value_of_refused(const struct run *run, size_t place) {
    static struct answer answer;
    const struct step *step = &run->journal->steps[place];
    if (read_member(run->task, step, step->domain, &answer) != ANSWERED || !has(&answer, step, &step->after)) return;
    complain("step %zu is refused, and yet the clock has what it asks: an earlier copy was carried out, or somebody else set "
             "the value", place + 1);
    complain("a rollback leaves it out");
}

/* Says why steps were refused, and whether one that is given up may have been carried out. */
static void say_of_steps(const struct run *run) {
    const struct journal *journal = run->journal;
    for (size_t i = 0; i < journal->count; i++) {
        bool is_refused = journal->told[i].outcome == IS_REFUSED;
        if (is_refused) say_right(run->task, journal->told[i].error);
        if (is_refused) say_value_of_refused(run, i);
        if (journal->ending == GIVEN_UP && is_uncertain(journal, (long)i)) complain("step %zu may have been carried out", i + 1);
    }
}

static int end_open(const struct run *run, const struct ptpm_rollout_action *end) {
    const struct journal *journal = run->journal;
    if (end->why == PTPM_OPEN_SETTLED) return ANSWERED;
    if (end->why == PTPM_OPEN_NOT_WRITTEN) return NOT_WRITTEN;
    if (stopped) {
        complain("ended by a signal: the apply stays open");
        return BY_SIGNAL + stopped;
    }
    if (end->why == PTPM_OPEN_UNKNOWN) {
        complain("step %d was begun, and another program has used its session since, or the file is gone: %s", end->step + 1,
                 desk_of(&journal->steps[end->step])->session.file->path);
        complain("nothing was sent; ptpm-manage resume --give-up ends the apply");
    }
    return NOT_ANSWERED;
}

static int end_of(const struct run *run, const struct ptpm_rollout_action *end) {
    if (run->journal->ending == IS_OPEN) return end_open(run, end);
    remove_marks();
    if (end->ending == PTPM_END_CHANGED && end->step == NO_STEP) complain("that was not planned: no further step is sent");
    say_of_steps(run);
    return ANSWERED;
}

int carry_out_journal(const struct task *task, struct journal *journal, uint32_t choice) {
    struct run run = { .task = task, .journal = journal };
    size_t whole;
    see_to(journal, ptpm_rollout_open(&run.rollout, journal->octets, journal->size, choice, &whole));
    struct ptpm_rollout_action action = turn(&run, plain_event(PTPM_EVENT_BEGIN));
    while (action.what != PTPM_DO_END) action = turn(&run, do_action(&run, &action));
    ptpm_rollout_stop(&run.rollout);
    return end_of(&run, &action);
}

bool end_journal(struct journal *journal, enum ending ending) {
    if (!note_end(journal, ending)) {
        say_not_noted(journal);
        return false;
    }
    remove_marks();
    return true;
}
