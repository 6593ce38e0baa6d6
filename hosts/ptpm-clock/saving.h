/* The state of the clock in a file (-s FILE): its data sets, and what is kept for each manager. So a start continues where the
   clock was. What a turn changed is saved before any message leaves that shows it. Without a file nothing is saved, and everything
   leaves at once. */
#pragma once

#include "options.h"
#include "ptpm.h"
#include <stdbool.h>

/* Takes the file only for this program, and reads it: whether there was one, so that its clock is in the handle. Ends the
   program with status 1, and says why, if the library refuses what the file has. It does so with status 2 if the file is a link
   or no file, is another program's, or can't be read or written. What the file has stays then. */
bool restore_clock(struct ptpm_clock *clock);

/* Has the clock keep its messages until it is saved, and saves it once, with the rights that the program keeps. Ends the program with
   status 2 if it can't. Does nothing without a file. */
void save_at_start(struct ptpm_clock *clock);

/* Begins to save the clock, which a thread does; whether it is begun. */
bool begin_save(struct ptpm_clock *clock);

/* What is to be polled: it can be read once that save is done. -1 without a file. */
int saving_event(void);

/* Whether a save was begun and not ended. Whether the latest one failed. */
extern bool is_saving, is_failing;

/* Ends the save, after a wait for the disk if it is not done. What ptpm_clock_saved returns, and then the clock gives out what waited. Or
   PTPM_OTHER_IMAGE if the clock is not saved, and standard error says why. */
enum ptpm_saved end_save(struct ptpm_clock *clock);

/* In how many milliseconds the next save may begin; 0 or less if it may now. It is tried again a second after one that failed. After
   another one there is a pause of a twentieth of its time. Those who were answered ask again in it, and share the next save. */
long until_save(void);

/* Whether a save may be made now for requests at a port. There may be a fifth as many saves a second as requests of managers, and
   as many at once. So only a part of the time is spent waiting for the disk. */
bool may_save(void);
