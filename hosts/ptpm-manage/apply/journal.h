/* The journal of an apply: its steps, and what became of each. The library writes and reads its records, and refuses one that no run makes
   (docs/changing-a-site.md, "The journal"). What is noted is on the disk before anything else happens. */
#pragma once

#include "ptpm.h"
#include <limits.h>
#include <stdbool.h>
#include <stddef.h>
#include <stdint.h>

/* The largest dataField of a member that is set, a text; how long the name of a journal is; and no step. */
enum { MOST_VALUE = 258, JOURNAL_NAME = 64, NO_STEP = PTPM_NO_STEP };

/* A dataField. */
struct value { size_t size; uint8_t octets[MOST_VALUE]; };

/* A SET of a member, at a port if it is one of a port, and what the member was before it. */
struct step {
    uint8_t clock[8], domain, group;   /* the group of the order (docs/changing-a-site.md) */
    uint16_t port, id;
    struct value before, after;
};

/* What the clock answered to a step. */
enum outcome { NOT_TOLD, DONE = PTPM_STEP_DONE, IS_REFUSED = PTPM_STEP_REFUSED, OTHER_VALUE = PTPM_STEP_ANSWERED };
struct told {
    enum outcome outcome;
    uint16_t error;
    struct value answer;
    bool is_left_out;           /* by a rollback, and the member is not as before */
    bool is_unsent;             /* it is begun, and this run knows that no message of it left */
    uint64_t time;              /* when that was noted, in seconds since 1970 */
};

/* How it ended. */
enum ending {
    IS_OPEN, COMPLETE = PTPM_END_COMPLETE, ENDED_REFUSED = PTPM_END_REFUSED, ENDED_ANSWERED = PTPM_END_ANSWERED,
    ENDED_CHANGED = PTPM_END_CHANGED, GIVEN_UP = PTPM_END_GIVEN_UP, ROLLED_BACK = PTPM_END_ROLLED_BACK, STOPPED = PTPM_END_STOPPED,
    ENDED_IN_PART = PTPM_END_IN_PART
};

struct journal {
    struct ptpm_journal kept;               /* what the library has of it */
    char path[PATH_MAX], name[JOURNAL_NAME];
    char rolls_back[JOURNAL_NAME];          /* the apply that it rolls back; empty if none */
    char check[PATH_MAX];                   /* the program that says whether to go on at another clock; empty if none */
    char *skipped;                          /* lines: what of the plan was not reached, and is left out; or NULL */
    uint8_t manager[8];
    uint16_t manager_port;
    struct step *steps;
    struct told *told;
    size_t count;
    bool keeps_going;                       /* it goes on at other clocks if one fails */
    enum ending ending;
    uint8_t *octets;                        /* of the file, as it was made or read, */
    int file;
    size_t size;                            /* and how many octets of whole records it has by now */
    uint64_t latest;                        /* when the latest note was made, or 0 */
    bool shows_times;                       /* its report has them */
};

/* Makes the steps' places. Ends the program with status 2 if there is no memory. */
void give_steps(struct journal *journal, const struct step *steps, size_t count);

/* The first step of the clock whose identity comes next after that of a step, or first of all after NULL; NULL after the last. Sessions
   of several clocks are taken in this order: then no two runs each hold one that the other waits for. */
const struct step *next_clock(const struct step *steps, size_t count, const struct step *before);

/* Makes the file whole, with only the steps; whether it could. If not, errno says why. */
bool make_journal(struct journal *journal);

enum found_journal { FOUND_JOURNAL, NO_JOURNAL, DAMAGED_JOURNAL, OTHER_JOURNAL, UNREADABLE_JOURNAL };

/* Reads the journal at its path, and synchronizes it: a run that was killed may not have. A last record that was torn does not count.
   OTHER_JOURNAL is one of another version of this program. DAMAGED_JOURNAL is also one that no run makes. */
enum found_journal read_journal(struct journal *journal, const char *path);

/* Opens its file for more notes, and cuts a torn record off; whether it could. */
bool continue_journal(struct journal *journal);

/* Whether the journal at a path may be open: it is, or it can't be read. One that is not there is none. */
bool may_be_open(const char *path);

/* Notes a record that the rollout made, and synchronizes it; whether it could. Ends the program with status 4 if no run makes that note
   there. *answered is the step that it says is answered, or NO_STEP. */
bool note_record(struct journal *journal, const uint8_t *octets, size_t size, long *answered);

/* The same for an end at no step. */
bool note_end(struct journal *journal, enum ending ending);

/* Says that it could not, by errno. */
void say_not_noted(const struct journal *journal);

/* Whether a step was sent, as far as is known, and has no answer. */
bool is_uncertain(const struct journal *journal, long step);

/* What becomes of an apply that ends before its end is noted: it stays open. Without its file no later run finds it. */
const char *journal_rest(const struct journal *journal);

const char *ending_name(enum ending ending);

/* Closes its file, and frees what it holds. */
void leave_journal(struct journal *journal);
