/* The folder of the journals: STATE/apply, where STATE is the folder of the sessions. */
#pragma once

#include "journal.h"
#include <stdbool.h>

/* Makes the folder if it is missing, and takes its lock, which only one apply, resume or rollback at a time has. It is released at the end
   of the program. Ends the program with status 2 if it can't be taken. */
void take_journals(void);

/* Its path, once it is taken or found. */
const char *journals_folder(void);

/* Finds the folder, and takes no lock: nothing is made or written there. Whether there may be one. */
bool find_journals(void);

/* Reads each journal in turn, the earliest first, and hands it over with what it is. Those that can't be read are handed over too. */
void read_journals(void (*take)(struct journal *journal, enum found_journal found));

/* Whether an apply is open; its name, if it can be read. Nothing ends the program. */
bool is_apply_open(char name[JOURNAL_NAME]);

/* Removes the journals that have an end, except this many of the latest. If one is open, or can't be read, all stay. */
void tidy_journals(size_t kept);

/* Finds the journal that is open; whether there is one. A rollback comes before the apply that it takes back. Ends the program with status 2
   if any other two are open, or one is damaged or can't be read. */
bool find_open_journal(struct journal *journal);

/* Finds the apply that a rollback takes back; whether it is there. */
bool find_rolled_back(struct journal *journal, const struct journal *back);

/* Finds the journal of this name. Ends the program with status 2 if there is none, or it is damaged. */
void find_journal(struct journal *journal, const char *name);

/* Gives a new journal its name and path: the time in UTC, a word, and four digits that are drawn. */
void name_journal(struct journal *journal, const char *word);
