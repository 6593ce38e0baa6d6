/* ptpm-manage: one request to one clock by a session of the library, a survey of all clocks, or a whole site. It goes over UDP
   port 320 (IEEE 1588-2019, annexes C and D), over Ethernet (annex E) or on a Unix socket. How it is used is in
   docs/ptpm-manage.md. The library decides which answer is a request's, and what is wrong with a site is found by `ptpm`.
   What is here and in the files below it is not proved. It reads words, moves octets, measures time and prints. It chooses the
   number of a session's first request, and when a request goes out again. It judges which answers of a site are copies of others.
   docs/architecture.md has more of that ("Decisions of the hosts"). */
#include "in_session.h"
#include "notices.h"
#include "program.h"
#include "random.h"
#include "stopping.h"
#include "transport.h"
#include "verbs.h"
#include <errno.h>
#include <stdbool.h>
#include <stdio.h>
#include <string.h>

const char program[] = "ptpm-manage";

/* Asks it. */
static int ask(struct task *task) {
    bool sends_nothing = task->plan.verb == APPLIES || (task->plan.verb == RESUME && task->is_letting_go);
    if (!sends_nothing) find_transport(task);
    if (task->plan.verb != NO_PLAN) return change_site(task);
    int status = task->is_survey ? ANSWERED : judge_request(task);
    if (status != ANSWERED) return status;
    if (task->is_kept) return ask_in_session(task);
    task->settings.first = draw_number();
    open_transport(task);
    if (task->site.is_collected) return task->site.is_shown ? show_status(task) : collect(task);
    return task->is_survey ? ask_every_port(task) : ask_without_file(task);
}

int main(int argc, char **argv) {
    static struct task task;
    hold_streams();
    setvbuf(stderr, NULL, _IOLBF, BUFSIZ);      /* so that lines of several runs stay whole */
    read_task(&task, argc, argv);
    catch_signals();
    let_signals_end_writes();
    int status = ask(&task);
    clear_progress();
    if (fflush(stdout) || ferror(stdout)) {
        complain("standard output could not be written: %s", strerror(errno));
        status = stopped ? BY_SIGNAL + stopped : NOT_WRITTEN;
    }
    return status == NOT_WRITTEN && task.site.form == AS_PLUGIN ? NOT_ANSWERED : status;
}
