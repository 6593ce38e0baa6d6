/* A request is begun and goes out, and its answer comes in. And a GET by nobody, that is by no manager. */
#pragma once

#include "answer.h"
#include "task.h"
#include "transport.h"
#include <stdbool.h>
#include <stdint.h>

/* The last port that a session of the library names. */
enum { SESSION_PORTS = 255 };

/* Whether a port is above those. No clock of this project has it. So nothing that is asked of it is kept in a file. */
bool is_beyond_session(uint16_t port);

/* Begins the task's request at the port that it names, for an id of the clock too: some clocks answer only then. If it names
   none, or every port, every port is asked for such an id. A port above the session's takes the place of its last one in what goes
   out, and gives it back in what comes in. What the library answers. */
enum ptpm_begun begin_of_task(struct ptpm_session *session, const struct task *task);

/* Starts a survey of every port of every clock, or of the task's clock: with this number, for an id, in a domain. Writes its message.
   PTPM_SENT, or why the library would not ask. */
uint32_t start_survey(struct ptpm_survey *survey, const struct task *task, uint16_t number, uint16_t id, uint8_t domain,
                      uint8_t message[PTPM_MOST_OCTETS], size_t *size);

/* Sends the session's request once more, which uses one of its attempts: NONE_LEFT if there is none. */
enum sending send_again(struct ptpm_session *session);

/* Whether an answer to the session's request comes in before a time, and before a signal asks the program to end. */
bool is_answered_before(struct ptpm_session *session, int64_t end);

/* Notes whom a message asks, and puts the port that the task names in it. */
void name_target(uint8_t *message);

/* Copies a datagram as the session of the latest message is to hear it; how many octets it has then. */
size_t copy_datagram(uint8_t copy[PTPM_MOST_OCTETS], const uint8_t *datagram, size_t size);

/* Whether such a copy may answer. It may not if it has the name of the clock that was asked, but a number that was not. If more than a
   few had, somebody guesses numbers, and nothing more answers in this run: tell_guesses says so. */
bool may_answer(const uint8_t *copy, size_t size);
void tell_guesses(void);

/* Whether a datagram is a response of the clock that was asked to who asked. */
bool is_response_of_clock(const uint8_t *copy, size_t size);

/* Whether a copy is an error of the clock that was asked. It is one of the port that was asked from now on. */
bool is_error_of_clock(uint8_t *copy, size_t size);

/* Says of a copy that answered nothing if it is not a message by the rules: the library's asker does not say why. */
void judge_unheard(const struct task *task, const uint8_t *copy, size_t size);

/* From this portNumber on none is of a manager. What is asked in no session is asked from one of these, so that no session treats
   its answer as an answer of its own. */
enum { FIRST_OF_NOBODY = 61440 };

/* The portNumber with which this process asks in no session. For a GET it is even, and for a SET or a COMMAND odd. */
uint16_t port_of_nobody(uint8_t action);

/* Reads this id at the task's clock and port, sent so often at most; whether there is an answer, which is taken. It uses up no manager's
   number, and the clock answers from its data sets as they are. The first number is drawn, and each other one is the next. */
bool read_by_nobody(const struct task *task, uint16_t id, uint8_t attempts, struct answer *answer);

/* Why the latest read had no way, after a colon and a space; empty if it had one. The text is there until the next call. */
const char *why_unread(void);
