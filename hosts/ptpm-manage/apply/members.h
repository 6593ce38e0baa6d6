/* The members that a journal sets are read, by nobody. */
#pragma once

#include "answer.h"
#include "journal.h"
#include "task.h"

/* Shows which step is at work, whose member it is, and since when. */
void show_step(const char *what, long place, size_t count, const struct step *step);

/* What a step asks, as a task. */
struct task task_of_step(const struct task *task, const struct step *step);

/* Reads the member of a step in a domain. ANSWERED, or the program's status. */
int read_member(const struct task *task, const struct step *step, uint8_t domain, struct answer *answer);

/* Whether an answer has a value of a step's member. */
bool has(const struct answer *answer, const struct step *step, const struct value *value);

/* Says that a member has another value than is wanted. */
void say_changed(const struct step *step, const struct answer *answer, const struct value *wanted);

/* Leaves only the steps of a rollback that are needed. Each member is read in the domain in which its clock is. One that has its value
   already is said, and so is one that has neither value. ANSWERED, NOT_AS_ASKED if one has neither, or the program's status. */
int leave_needed_steps(const struct task *task, struct journal *back);

/* After the rollback of a journal: whether each member that it left out is as before the apply. Each that is not is said, and noted in
   `told`. ANSWERED, NOT_ANSWERED if one is not, or the program's status. */
int find_left_out(const struct task *task, struct journal *journal);
