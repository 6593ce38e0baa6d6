/* What became of an apply: a line for each step, or an object of JSON. */
#pragma once

#include "journal.h"
#include <stdbool.h>
#include <stdio.h>

/* Whatever a run comes to, with --json it prints one object. From now on what is refused ends it, and what else fails is NOT_WRITTEN. */
void begin_object(bool is_json);

/* The head of that object: a text that begins with its bracket and lacks the last one. */
void print_members(const char *text, size_t size);

/* Ends it with a word for the program's status. */
void end_object(int status);

/* Notes what the status does not have: that there was nothing to do, or that there are changes. */
enum noted { NOTHING_TO_DO, CHANGES };
void note_of_end(enum noted noted);

/* Prints it on standard output. An apply without an end is `silent` if an answer is missing, and otherwise `open`. `back_of` is the apply
   that it takes back, if it is a rollback: JSON names the steps of that one that are left out. */
void print_apply(const struct journal *journal, const struct journal *back_of, bool is_silent, bool is_json);

/* Prints the steps of a rollback that is not begun. */
void print_dry_run(const struct journal *back, bool is_json);

/* Says on standard error what became of a step, if that is not a terminal. */
void say_step(const struct journal *journal, long place);

/* Prints each apply whose journal is there: when it began, its plan, how it ended, and its name. Whether there is one. */
bool print_applies(bool is_json);

/* Writes whose member a step sets: `aabbccfffeddee01/1 LOG_SYNC_INTERVAL`. */
void write_member_name(FILE *to, const struct step *step);

/* Writes a dataField on one line: the value of its one member, or each member with its name. */
void write_value(FILE *to, uint16_t id, const uint8_t *octets, size_t size);
