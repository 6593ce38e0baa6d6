/* What `main` carries out, by the verb of the task. Each answers the program's status. */
#pragma once

#include "task.h"

/* Whether the library would take the task's request; nothing is sent for that. If not, it is said why. */
int judge_request(const struct task *task);

/* Makes the task's request as many times as the task says, one after the other, in a session that no file keeps. Each is sent until it
   is answered or its attempts are used. Prints what each answer says. */
int ask_without_file(const struct task *task);

/* Asks every port of every clock, or only of the task's clock. It ends if two rounds bring no new answer, or the attempts are
   used. Prints what each answer says, after the port that gave it. */
int ask_every_port(const struct task *task);

/* Prints what `collect` hears. */
int collect(const struct task *task);

/* Shows a site at a glance, as `ptpm monitor` says, and has its status. */
int show_status(const struct task *task);

/* Changes several clocks by one file: `plan`, `apply`, `resume`, `rollback` and `applies` (docs/changing-a-site.md). */
int change_site(const struct task *task);
