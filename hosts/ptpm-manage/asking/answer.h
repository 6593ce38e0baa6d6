/* What an answer of a clock says, printed; and the members of its dataField (IEEE 1588-2019, 15.5.3), as an operator reads them. */
#pragma once

#include "task.h"
#include <stdbool.h>
#include <stddef.h>
#include <stdint.h>
#include <stdio.h>

/* What an answer says; its dataField is the head of `octets`. */
struct answer { enum ptpm_reported outcome; uint16_t error; size_t size; uint8_t octets[PTPM_MOST_OCTETS]; };

/* What the answer to the session's latest request says. */
void take_report(struct ptpm_session *session, struct answer *answer);

/* Prints it, each line after `lead`. */
void print_answer(FILE *to, const struct task *task, const char *lead, const struct answer *answer);

/* Prints it as one line, an object of JSON: whose answer it is, to which id, and what it says. The port of the source is 0 if
   nobody knows which one answered. */
void print_answer_as_json(FILE *to, const struct task *task, const struct ptpm_source *source, const struct answer *answer);

/* Prints members of such an object: who answers, or is asked, for an id. */
void print_source_as_json(FILE *to, unsigned domain, const struct ptpm_source *source, uint16_t id);

/* Prints what the dataField of an id says as JSON: a name, such as `"members":`, and an object of the members by their names. A
   dataField that is not known is `"dataField":` and its octets in hexadecimal. */
void print_members_as_json(FILE *to, const char *name, uint16_t id, const uint8_t *octets, size_t size);

/* Whether an answer has the value of a dataField. The members are compared, but no reserved octets. If the octets have no members
   here, they are compared as they are. */
bool has_value(uint16_t id, const uint8_t *octets, size_t size, const struct answer *answer);

/* Whether an answer is that of a SET, and has another value than was asked. A clock of this project answers a SET by the SET's own octets,
   and other clocks by their data set as it is then. So any other value says that the request was not carried out as it was asked. */
bool is_other(const struct task *task, const struct answer *answer);

/* Says so on standard error, with each member that differs as it was asked. */
void say_other(const struct task *task, const struct answer *answer);

/* Prints what the answer to the task's request says; the program's status. */
int print_report(const struct task *task, const struct answer *answer);

/* Says why a clock may have refused a change as NOT_SUPPORTED, and names the manager in the form with which a clock is started. Any other
   error says nothing of the manager. */
void say_right(const struct task *task, uint16_t error);

/* Says once how a ptp4l takes changes over the network, if the error is NOT_SUPPORTED. */
void say_of_ptp4l(uint16_t error);

/* Prints how many requests there were, and messages of them. */
void print_count(long requests, long sent);
