/* What a file would change at several clocks: they are asked what they have, and `ptpm plan` compares it with the file. */
#pragma once

#include "journal.h"
#include "ptpm_program.h"
#include "task.h"
#include <stdbool.h>

enum { PLAN_ID = 8 };

struct plan {
    struct printed text;                /* as it is printed */
    char id[PLAN_ID + 1];               /* of what it changes */
    struct step *steps;                 /* in the order in which they are asked */
    size_t count;
    char *unreached;                    /* lines: what is not reached; or NULL */
    bool has_unsettable, has_reached;   /* something can't be set; something is reached */
};

/* Opens the transport, asks the clocks, and has the plan made. The status is that of `ptpm plan`. It is 0 if it can be applied, and 1 if
   something can't be set. It is 2 if the file is refused, and 3 if something is not reached. Or it is that of the program, if the clocks
   could not be asked. */
int make_plan(struct plan *plan, const struct task *task);

/* Leaves the steps of these clocks. That others change nothing there is said. */
void limit_plan(struct plan *plan, const struct plan_options *options);

/* Whether it can be applied to what was reached. */
bool is_reached_in_part(const struct plan *plan);

/* Adds a warning to what is printed. Its text needs no escape in JSON. */
void add_warning(struct plan *plan, const char *text, bool is_json);

/* Prints it. Of JSON, the object is still to be ended. */
void print_plan(const struct plan *plan, bool is_json);

/* Frees what it holds. */
void leave_plan(struct plan *plan);

/* Whether clocks take this manager's SETs, which no GET says. Asks the clock of each change a SET of NULL_PTP_MANAGEMENT, which has no
   member to change (IEEE 1588-2019, 15.5.3.1). That is in the manager's session with it. Adds a warning to the plan for each that refuses.
   ANSWERED, or the program's status if one does not answer, which is said. */
int probe_clocks(struct plan *plan, const struct task *task);

/* Before the first step of an apply: whether each clock takes what it is asked. Each is asked a SET of the value that it has, once, in the
   manager's session with it. If it has another value by now, it is not asked. A refusal is said. ANSWERED, REFUSED if a clock refuses, NOT_AS_ASKED if a
   value has changed, or the program's status. */
int probe_steps(const struct plan *plan, const struct task *task);
