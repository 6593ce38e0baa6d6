/* The session of a manager with a clock, in an asker of the library, which continues from one run of this program to the next. A file
   keeps its image. */
#pragma once

#include "answer.h"
#include "session_file.h"
#include "task.h"
#include <stdbool.h>
#include <stdint.h>

/* A request that an earlier run made in the session, and that has no answer yet. That run was killed, was ended by a signal, lost its
   machine's power, or had no answer. */
struct earlier {
    bool is_left;               /* and is to be settled or abandoned before anything is asked */
    uint16_t number;
    struct task task;           /* it, as a task of this run, in the domain in which it is settled */
};

struct kept_session {
    struct ptpm_asker asker;
    struct session_file *file;
    bool has_file;              /* there was one */
    struct earlier earlier;
};

/* Takes the file of the task's session only for this run. The asker gets the session that it has, or a new one if there is no file.
   Ends the program, status 2, if the file has anything else, or another session. */
void open_session(struct kept_session *session, const struct task *task);

/* Has the asker begin again with the session as it is, after a request without an answer. */
void renew_session(struct kept_session *session, const struct task *task);

/* Keeps the session as it is now; whether it could. */
bool save_session(struct kept_session *session);

/* Whether a request may change the clock. */
bool may_change(const struct task *request);

/* Whether a request of an earlier run that may have changed a clock was settled. */
bool has_settled_change(void);

/* Says what the answer to the request of an earlier run is; NOT_WRITTEN if that can't be said. */
int say_settled(const struct earlier *earlier, const struct task *task, const struct answer *answer);

/* Says that the request of an earlier run comes before the steps of an apply, and how it is abandoned. */
void say_before_steps(const struct earlier *earlier, const struct task *task);

/* Says that the request of an earlier run is abandoned. */
void say_let_go(const struct earlier *earlier, const struct task *task);

/* Ends the program, status 2: the library refuses to abandon that request. */
_Noreturn void refuse_to_let_go(uint32_t refusal, const struct earlier *earlier, const struct task *task);
