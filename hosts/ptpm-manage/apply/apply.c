#include "apply_report.h"
#include "exchange.h"
#include "journals.h"
#include "marks.h"
#include "members.h"
#include "notices.h"
#include "plan.h"
#include "rollout.h"
#include "stopping.h"
#include "transport.h"
#include "verbs.h"
#include <errno.h>
#include <string.h>
#include <unistd.h>

/* The program's status after this end. */
static int status_of(enum ending ending) {
    switch (ending) {
    case COMPLETE:
    case ROLLED_BACK: return ANSWERED;
    case ENDED_REFUSED:
    case ENDED_ANSWERED: return REFUSED;
    case ENDED_CHANGED: return NOT_AS_ASKED;
    default: return IN_PART;
    }
}

/* ---- plan */

/* No session is kept of a port that no clock of ptpm has. */
static void judge_ports(const struct step *steps, size_t count) {
    for (size_t i = 0; i < count; i++) {
        if (!is_beyond_session(steps[i].port)) continue;
        refuse_usage("nothing was sent: change %zu: a request to a port above %d has no session", i + 1, SESSION_PORTS);
    }
}

static void warn_of_open(struct plan *plan, const struct task *task) {
    char name[JOURNAL_NAME], text[2 * JOURNAL_NAME];
    if (plan->text.text == NULL || !find_journals() || !is_apply_open(name)) return;
    snprintf(text, sizeof text, "apply %s is open: resume comes first", name);
    add_warning(plan, text, task->is_json);
}

static int show_plan(const struct task *task) {
    struct plan plan;
    int status = make_plan(&plan, task), probed = ANSWERED;
    warn_of_open(&plan, task);
    if (task->plan.is_probed && !stopped) probed = probe_clocks(&plan, task);
    print_plan(&plan, task->is_json);
    if (status == ANSWERED) judge_ports(plan.steps, plan.count);
    if (probed == ANSWERED) probed = status;
    if (probed == ANSWERED) note_of_end(plan.count > 0 ? CHANGES : NOTHING_TO_DO);
    if (probed == ANSWERED && plan.count > 0 && task->plan.tells_changes) probed = HAS_CHANGES;
    leave_plan(&plan);
    return probed;
}

/* ---- a journal is carried out */

/* What was left out, or has no answer, leaves a rollback done in part. */
static int judge_left_out(const struct task *task, struct journal *journal) {
    int status = find_left_out(task, journal);
    return status == NOT_ANSWERED ? IN_PART : status;
}

/* Goes on with a journal whose sessions are taken and marked, and says what became of it. If it is a rollback that is complete, and the journal
   of the apply is there, it also says what was left out. */
static int carry_out(const struct task *task, struct journal *journal) {
    struct journal back_of = { 0 };
    bool keeps_going = journal->keeps_going || task->plan.keeps_going;
    refuse_as(LEFT_OPEN);
    int status = carry_out_journal(task, journal, keeps_going ? PTPM_KEEP_GOING : PTPM_STOP_AT_FAILURE);
    if (status == ANSWERED) status = status_of(journal->ending);
    else if (status == NOT_ANSWERED) status = LEFT_OPEN;
    if (status == ANSWERED && journal->skipped != NULL) status = IN_PART;
    if (status == ANSWERED && find_rolled_back(&back_of, journal)) status = judge_left_out(task, &back_of);
    print_apply(journal, &back_of, status == LEFT_OPEN, task->is_json);
    if (journal->ending == IS_OPEN) complain("it is open: ptpm-manage resume goes on with it, and resume --give-up ends it");
    leave_journal(&back_of);
    leave_sessions();
    return status;
}

static void make_journal_of(const struct task *task, struct journal *journal) {
    memcpy(journal->manager, task->settings.clock, 8);
    journal->manager_port = task->settings.port;
    if (!make_journal(journal)) refuse_storage("nothing was sent: %s: %s", journal->path, strerror(errno));
}

/* Begins a new one: the sessions are taken, the journal is made, and then the marks that name it. */
static int begin(const struct task *task, struct journal *journal) {
    own_marks(journal->path);
    judge_ports(journal->steps, journal->count);
    take_sessions(task, journal);
    make_journal_of(task, journal);
    mark_sessions();
    return carry_out(task, journal);
}

/* ---- apply */

static bool is_expected(const struct task *task, const struct plan *plan) {
    return task->plan.expected == NULL || strcmp(task->plan.expected, plan->id) == 0;
}

static int apply_plan(const struct task *task, const struct plan *plan) {
    struct journal journal = { 0 };
    bool is_with_skips = plan->unreached != NULL && *plan->unreached != '\0';
    if (!is_expected(task, plan)) {
        complain("nothing was sent: the plan has changed by now");
        return NOT_AS_ASKED;
    }
    if (plan->count == 0) {
        note_of_end(NOTHING_TO_DO);
        return is_with_skips ? IN_PART : ANSWERED;
    }
    give_steps(&journal, plan->steps, plan->count);
    name_journal(&journal, plan->id);
    journal.keeps_going = task->plan.keeps_going;
    if (task->plan.check != NULL) snprintf(journal.check, sizeof journal.check, "%s", task->plan.check);
    if (is_with_skips) journal.skipped = strdup(plan->unreached);
    int status = begin(task, &journal);
    leave_journal(&journal);
    return status;
}

/* Whether what is not reached stops nothing: the user leaves it out, or asks none of it. */
static bool may_skip(const struct task *task, const struct plan *plan) {
    return is_reached_in_part(plan) && (task->plan.skips_unreached || *plan->unreached == '\0');
}

static int apply(const struct task *task) {
    struct journal open;
    struct plan plan;
    take_journals();
    if (find_open_journal(&open)) refuse("nothing was sent: %s is open: ptpm-manage resume or rollback comes first", open.name);
    int status = make_plan(&plan, task);
    print_plan(&plan, task->is_json);
    if (fflush(stdout) || ferror(stdout)) return NOT_WRITTEN;
    limit_plan(&plan, &task->plan);
    if (status == NOT_ANSWERED && may_skip(task, &plan)) status = ANSWERED;
    if (stopped && status == ANSWERED) status = BY_SIGNAL + stopped;
    const char *next = status == NOT_ANSWERED && is_reached_in_part(&plan) ? ": --skip-unreached leaves out what is not reached" : "";
    if (stopped || status == REFUSED || status == NOT_ANSWERED) complain("nothing was sent%s", next);
    if (status == ANSWERED && task->plan.is_probed && is_expected(task, &plan)) status = probe_steps(&plan, task);
    if (status == ANSWERED) status = apply_plan(task, &plan);
    leave_plan(&plan);
    return status;
}

/* ---- resume */

/* The task as the journal's manager, whichever the way has by itself. Clock 0 is that of a Unix socket: a clock would refuse it elsewhere. */
static const struct task *as_manager(const struct task *task, const struct journal *journal) {
    static const uint8_t of_socket[8];
    static struct task own;
    own = *task;
    if (task->path == NULL && memcmp(journal->manager, of_socket, 8) == 0) {
        refuse_usage("nothing was sent: %s was begun on a Unix socket: --unix names it", journal->name);
    }
    bool is_other = memcmp(journal->manager, task->settings.clock, 8) != 0 || journal->manager_port != task->settings.port;
    if (task->has_manager && is_other) refuse_usage("nothing was sent: %s was begun by a different manager than that of --manager", journal->name);
    memcpy(own.settings.clock, journal->manager, 8);
    own.settings.port = journal->manager_port;
    return &own;
}

/* Ends the apply that a rollback takes back, if a run ended before it did so. */
static void end_rolled_back(const struct journal *back) {
    struct journal journal;
    if (!find_rolled_back(&journal, back)) return;
    bool is_ended = journal.ending != IS_OPEN || (continue_journal(&journal) && note_end(&journal, ROLLED_BACK));
    if (!is_ended) refuse_storage("nothing was sent: %s: %s", journal.path, strerror(errno));
    leave_journal(&journal);
}

/* Takes the journal up where a run before left it. */
static void take_up(const struct task *task, struct journal *journal) {
    end_rolled_back(journal);
    own_marks(journal->path);
    take_sessions(task, journal);
    if (!continue_journal(journal)) refuse_storage("nothing was sent: %s: %s", journal->path, strerror(errno));
    mark_sessions();
}

static int give_up_apply(const struct task *task, struct journal *journal) {
    int status = carry_out_journal(task, journal, PTPM_GIVE_UP);
    if (status != ANSWERED) return status;
    print_apply(journal, &(struct journal){ 0 }, true, task->is_json);
    return IN_PART;
}

static int resume(const struct task *task) {
    struct journal journal;
    take_journals();
    if (!find_open_journal(&journal)) {
        complain("nothing was sent: no apply is open in %s", journals_folder());
        note_of_end(NOTHING_TO_DO);
        return ANSWERED;
    }
    task = as_manager(task, &journal);
    take_up(task, &journal);
    if (!task->is_letting_go) open_transport(task);
    int status = task->is_letting_go ? give_up_apply(task, &journal) : carry_out(task, &journal);
    leave_journal(&journal);
    return status;
}

/* ---- rollback */

/* Adds the step that takes this one back, if this one is known to be done. */
static void take_one_back(struct journal *back, const struct journal *journal, size_t place) {
    const struct step *done = &journal->steps[place];
    if (journal->told[place].outcome != DONE) return;
    struct step *step = &back->steps[back->count++];
    *step = *done;
    step->before = done->after;
    step->after = done->before;
    if (done->id == PTPM_ID_DOMAIN) step->domain = done->after.octets[0];
}

/* The steps that take back what is known to be done. What was done before the moves of DOMAIN was asked in the earlier domain. So it comes
   after their way back, and what was done after them before it. The moves keep their order: the farthest clock first again. */
static void take_back(struct journal *back, const struct journal *journal) {
    size_t first = 0, end = journal->count;
    while (first < end && journal->steps[first].id != PTPM_ID_DOMAIN) first++;
    while (end > first && journal->steps[end - 1].id != PTPM_ID_DOMAIN) end--;
    give_steps(back, NULL, journal->count);
    back->count = 0;
    for (size_t i = journal->count; i > end; i--) take_one_back(back, journal, i - 1);
    for (size_t i = first; i < end; i++) take_one_back(back, journal, i);
    for (size_t i = first; i > 0; i--) take_one_back(back, journal, i - 1);
}

/* The journal of the rollback is there before the apply has its end. So wherever a run ends, one of the two is open. */
static int go_over_to(const struct task *task, struct journal *journal, struct journal *back) {
    make_journal_of(task, back);
    if (!end_journal(journal, ROLLED_BACK)) return NOT_WRITTEN;
    leave_sessions();
    own_marks(back->path);
    take_sessions(task, back);
    mark_sessions();
    return carry_out(task, back);
}

/* Says that no step is to be taken back, and what is left out. It is not an apply, and has no name. */
static int end_without_steps(const struct task *task, struct journal *journal, struct journal *back) {
    complain("%s: no step is to be rolled back", journal->name);
    int status = judge_left_out(task, journal);
    back->ending = COMPLETE;
    if (task->is_json) print_apply(back, journal, false, true);
    note_of_end(NOTHING_TO_DO);
    return status;
}

/* Begins the rollback, if there is a step to take back. */
static int begin_back(const struct task *task, struct journal *journal, struct journal *back) {
    bool is_open = journal->ending == IS_OPEN;
    snprintf(back->rolls_back, sizeof back->rolls_back, "%s", journal->name);
    if (back->count > 0) {
        name_journal(back, "rollback");
        return is_open ? go_over_to(task, journal, back) : begin(task, back);
    }
    if (is_open && !end_journal(journal, ROLLED_BACK)) return NOT_WRITTEN;
    return end_without_steps(task, journal, back);
}

/* The uncertain step of an apply that is open is settled first. If it was being given up, the apply ends first. */
static int roll_back(const struct task *task, struct journal *journal, struct journal *back) {
    bool is_open = journal->ending == IS_OPEN;
    if (is_open) take_up(task, journal);
    int status = is_open ? carry_out_journal(task, journal, PTPM_SETTLE_ALONE) : ANSWERED;
    is_open = journal->ending == IS_OPEN;
    if (!is_open) leave_sessions();
    if (status == ANSWERED) {
        take_back(back, journal);
        status = leave_needed_steps(task, back);
    }
    if (status == ANSWERED) return begin_back(task, journal, back);
    complain("nothing was rolled back%s", is_open ? ": the apply stays open" : "");
    return is_open && status == NOT_ANSWERED ? LEFT_OPEN : status;
}

/* Says what a rollback would do. Only reads are sent, and nothing is made. */
static int show_rollback(const struct task *task) {
    struct journal journal, back = { 0 };
    if (!find_journals()) refuse_storage("neither XDG_STATE_HOME nor HOME names a folder with applies");
    find_journal(&journal, task->plan.word);
    open_transport(task);
    snprintf(back.rolls_back, sizeof back.rolls_back, "%s", journal.name);
    take_back(&back, &journal);
    int status = leave_needed_steps(task, &back);
    if (status == ANSWERED || status == NOT_AS_ASKED) print_dry_run(&back, task->is_json);
    if (status == ANSWERED) note_of_end(back.count > 0 ? CHANGES : NOTHING_TO_DO);
    leave_journal(&back);
    leave_journal(&journal);
    return status;
}

static int rollback(const struct task *task) {
    struct journal journal, open, back = { 0 };
    if (task->plan.is_dry) return show_rollback(task);
    take_journals();
    find_journal(&journal, task->plan.word);
    if (find_open_journal(&open) && strcmp(open.name, journal.name) != 0) {
        refuse("nothing was sent: %s is open: ptpm-manage resume or rollback comes first", open.name);
    }
    leave_journal(&open);
    open_transport(task);
    int status = roll_back(as_manager(task, &journal), &journal, &back);
    leave_sessions();
    leave_journal(&back);
    leave_journal(&journal);
    return status;
}

/* ---- what was applied */

static int show_applies(const struct task *task) {
    struct journal journal;
    if (!find_journals()) refuse_storage("neither XDG_STATE_HOME nor HOME names a folder with applies");
    if (task->plan.word == NULL) {
        bool is_closed = access(journals_folder(), R_OK | X_OK) && errno != ENOENT;
        if (is_closed) refuse_storage("%s: %s", journals_folder(), strerror(errno));
        if (!print_applies(task->is_json)) complain("no apply has a journal in %s", journals_folder());
        return ANSWERED;
    }
    find_journal(&journal, task->plan.word);
    journal.shows_times = true;
    print_apply(&journal, &(struct journal){ 0 }, false, task->is_json);
    leave_journal(&journal);
    return ANSWERED;
}

static int change(const struct task *task) {
    switch (task->plan.verb) {
    case APPLIES: return show_applies(task);
    case APPLY: return apply(task);
    case RESUME: return resume(task);
    case ROLLBACK: return rollback(task);
    default: return show_plan(task);
    }
}

int change_site(const struct task *task) {
    begin_object(task->is_json);
    refuse_as(NOT_ANSWERED);
    int status = change(task);
    if (task->plan.kept >= 0) tidy_journals((size_t)task->plan.kept);
    end_object(status);
    return status;
}
