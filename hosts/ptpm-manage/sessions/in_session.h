/* A task, carried out in the session that its file keeps. The asker of the library says what is noted, saved and sent, and in which order;
   here that is done. So a request is in the file before it is sent. An answer is reported before the file has the session without the
   request. A run may be killed, or its machine lose power. Its request was then answered and reported, or the next run settles it. */
#pragma once

#include "answer.h"
#include "task.h"

/* What becomes of the answer to a request of this run; the program's status. */
typedef int reporting(const struct task *task, const struct answer *answer);

/* Settles what an earlier run left, or abandons it if the task says so. Then makes the task's request as many times as the task says, one
   after the other. Prints what each answer says; the program's status. */
int ask_in_session(const struct task *task);

/* A run of the same over a transport that is open, in parts. The answer is given to `report`. New sessions that were taken before any was
   asked in wait at the same time. */
struct run;
struct run *take_run(const struct task *task, reporting *report);

/* Asks, and leaves the session; the program's status. */
int end_run(struct run *run);
