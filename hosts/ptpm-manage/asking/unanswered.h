/* What can be said if no answer came, or if one is not taken since the library can't read it. */
#pragma once

#include "task.h"
#include <stdbool.h>
#include <stddef.h>
#include <stdint.h>

/* What was sent: the task's request; the request of an earlier run, which is the task here; or a question before the task's
   request. An earlier request is in this run's domain, or elsewhere. A question asks whether the next number of a session is new,
   or which number of a new session is. */
enum unanswered { REQUEST, EARLIER_REQUEST, EARLIER_ELSEWHERE, NUMBER, FIRST_NUMBER };

/* Says what is known about it, after this many messages of it went out with the number. Nobody knows which of them came in. If a
   clock may have dropped them, nobody reads its value, and what it has is said. The program's status. */
int no_answer(const struct task *task, enum unanswered what, uint16_t number, long sent);

/* Says once which clocks a survey, or a collection, did not ask, and how it hears answers that take longer. */
void advise_on_every(const struct task *task);

/* Says what is known of a clock that gave a step of an apply no answer, or a question before it. If it answers reads, that is what it
   has, and why it may drop these. The path is that of the session's file. */
void say_silence(const struct task *task, enum unanswered what, uint16_t number, const char *path);

/* Whether an answer to this sourcePortIdentity can't be read, and the library does not take the datagram for that. It is said once. */
bool tell_unreadable(uint32_t refusal, const uint8_t source[10], const uint8_t *datagram, size_t size);
