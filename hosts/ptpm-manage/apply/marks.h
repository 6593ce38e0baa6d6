/* The mark of an apply beside the file of a session, FILE.apply, which names the apply's journal. While that is open no other run may ask
   in the session. It would settle a step and print an answer that the journal then lacks. */
#pragma once

#include <stdbool.h>

/* From now on the marks of this journal are this run's own. The path stays. */
void own_marks(const char *journal);

/* Whether this run is of an apply. */
bool has_own_marks(void);

/* Ends the program, status 2, if the file is marked by an apply of another journal that is open. The mark of one that has an end, or whose
   journal is gone, is removed. The session's lock is this run's. */
void refuse_mark(const char *session);

/* The same for a session whose lock is not this run's: nothing is removed, or made. */
void refuse_open_mark(const char *session);

/* Marks the file of a session as this run's; whether it could. If not, errno says why. */
bool make_mark(const char *session);

/* Takes the mark away, if it is this run's. */
void remove_mark(const char *session);
