/* A journal is carried out: what the library's rollout says is done, one action after the other. */
#pragma once

#include "journal.h"
#include "task.h"

/* Takes the sessions of all clocks of the journal, and marks their files. Ends the program with status 2 if one can't be taken, and with
   NOT_WRITTEN if one can't be marked. */
void take_sessions(const struct task *task, const struct journal *journal);
void mark_sessions(void);
void leave_sessions(void);

/* Does what is to be done by this choice, such as PTPM_KEEP_GOING. ANSWERED if the journal has an end then, or all is settled. Otherwise it stays
   open, and the answer is the program's status. */
int carry_out_journal(const struct task *task, struct journal *journal, uint32_t choice);

/* Notes how it ended, and takes the marks away; whether it could. */
bool end_journal(struct journal *journal, enum ending ending);
