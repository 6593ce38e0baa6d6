#include "in_session.h"
#include "driving.h"
#include "monotonic.h"
#include "notices.h"
#include "program.h"
#include "session.h"
#include "session_file.h"
#include "transport.h"
#include "unanswered.h"
#include "words.h"
#include <errno.h>
#include <stdbool.h>
#include <stdlib.h>
#include <string.h>

/* While the asker has more to do, and otherwise the program's status. */
enum { GOES_ON = -1 };

/* How the asker's requests are named. */
enum tag { LEFT, OWN };

struct run {
    struct kept_session session;
    struct driver driver;
    const struct task *task;
    reporting *report;
    enum unanswered what;           /* what is sent: the request LEFT or OWN, or a question before it */
    bool is_reported;               /* its answer is */
    int status;
};

/* What the asker is asked about if there is no answer. */
static const struct task *task_of(const struct run *run) {
    return run->what == EARLIER_REQUEST || run->what == EARLIER_ELSEWHERE ? &run->session.earlier.task : run->task;
}

/* From now on this is sent. */
static void begin(struct run *run, enum unanswered what) {
    run->what = what;
    run->is_reported = false;
    run->status = ANSWERED;
    begin_driving(&run->driver);
}

static int end_unanswered(struct run *run) {
    const struct driver *driver = &run->driver;
    return driver->is_way_said ? NOT_ASKED : no_answer(task_of(run), run->what, driver->number, driver->sent);
}

/* ---- what is noted and saved */

/* Says at the first run how a clock knows this manager, if nobody named it: once, also for several clocks. */
static void tell_first_run(const struct run *run) {
    static bool is_told;
    complain("%s is new: the session begins at number %u", run->session.file->path, run->driver.handed.number);
    if (is_told || run->task->has_manager || run->task->path != NULL) return;
    is_told = true;
    const char *identity = identity_text(run->task->settings.clock);
    complain("this manager is %s/%u, from the MAC of the interface: ptpm-clock accepts its changes with -m %s/%u", identity,
             run->task->settings.port, identity, run->task->settings.port);
}

/* The request of this run is begun. */
static int note_begun(struct run *run) {
    if (!run->session.has_file) tell_first_run(run);
    run->session.has_file = true;
    begin(run, REQUEST);
    say_noted(&run->driver);
    return GOES_ON;
}

/* Reports the answer, before the session is kept without the request. */
static int note_answer(struct run *run) {
    static struct answer answer;
    bool is_own = run->driver.handed.tag == OWN;
    answer.outcome = ptpm_asker_report(&run->session.asker, answer.octets, sizeof answer.octets, &answer.size, &answer.error);
    run->status = is_own ? run->report(run->task, &answer) : say_settled(&run->session.earlier, run->task, &answer);
    if (run->status == NOT_WRITTEN) return NOT_WRITTEN;
    run->is_reported = is_own;
    say_noted(&run->driver);
    return GOES_ON;
}

/* Keeps the session. A request that can't be kept is not sent. */
static int save(struct run *run) {
    bool is_unsent = run->driver.is_unsent;
    if (save_session(&run->session)) return say_saved(&run->driver) ? run->status : GOES_ON;
    if (!run->is_reported && !is_unsent) refuse_place(run->session.file);
    complain("%s: %s: the next run asks this again", run->session.file->path, strerror(errno));
    return is_unsent ? end_unanswered(run) : run->status;
}

/* ---- a request */

/* Does what the asker hands out: GOES_ON, or the program's status. */
static int do_handed(struct run *run) {
    switch (drive(&run->driver)) {
    case PTPM_NOTE_BEGUN: return note_begun(run);
    case PTPM_NOTE_ANSWER: return note_answer(run);
    case PTPM_SAVE_IT: return save(run);
    default: return end_unanswered(run);
    }
}

/* Does it until the asker rests, or there is no answer; the program's status. */
static int carry_out(struct run *run) {
    int status;
    do status = do_handed(run);
    while (status == GOES_ON);
    return status;
}

static int let_go(struct run *run) {
    enum ptpm_asked refusal = ptpm_asker_let_go(&run->session.asker, &run->driver.handed);
    if (refusal != PTPM_ASKED) refuse_to_let_go(refusal, &run->session.earlier, run->task);
    say_let_go(&run->session.earlier, run->task);
    return carry_out(run);
}

static int settle_earlier(struct run *run) {
    bool is_here = run->session.earlier.task.settings.domain == run->task->settings.domain;
    if (!run->session.earlier.is_left) return ANSWERED;
    begin(run, is_here ? EARLIER_REQUEST : EARLIER_ELSEWHERE);
    if (run->task->is_letting_go) return let_go(run);
    settle_request(&run->driver, LEFT, run->task->settings.domain);
    return carry_out(run);
}

static int ask_once(struct run *run) {
    begin(run, run->session.has_file ? NUMBER : FIRST_NUMBER);
    ask_request(&run->driver, OWN, run->task);
    return carry_out(run);
}

static int ask_clock(struct run *run) {
    int status = ANSWERED;
    long requests = 0, sent = 0;
    for (; requests < run->task->times && (status == ANSWERED || status == REFUSED); requests++) {
        status = ask_once(run);
        if (run->what == REQUEST) sent += run->driver.sent;
    }
    if (run->task->times > 1 && run->what == REQUEST) print_count(requests, sent);
    return status;
}

/* It has its turn before its socket, so nothing of another run comes in there. */
int ask_in_session(const struct task *task) {
    struct run *run = take_run(task, print_report);
    open_transport(task);
    return end_run(run);
}

struct run *take_run(const struct task *task, reporting *report) {
    struct run *run = needed(malloc(sizeof *run), "a session");
    *run = (struct run){ .task = task, .report = report, .driver = { .asker = &run->session.asker, .task = task } };
    open_session(&run->session, task);
    if (!run->session.has_file) run->driver.opened = milliseconds();
    return run;
}

int end_run(struct run *run) {
    name_session_file(run->session.file);
    int status = settle_earlier(run);
    if (status == ANSWERED) status = ask_clock(run);
    ptpm_asker_stop(&run->session.asker);
    free(run);
    return status;
}
