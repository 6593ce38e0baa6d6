/* What each program defines itself, and how it ends if something went wrong. */
#pragma once

/* The program's own: its name, which comes before what it says on standard error. */
extern const char program[];

/* Says what went wrong and why, and ends the program with status 2. `give_up` has the text of errno. */
_Noreturn void end_program(const char *what, const char *why);
_Noreturn void give_up(const char *what);

/* The memory, or the stream, that was asked for. If there is none, `give_up` says for what. */
void *needed(void *asked, const char *what);

/* From now on that has another status, and what went wrong is also passed on there. */
void end_otherwise(int status, void (*say)(const char *what, const char *why));

/* Closes a file if it is open, and leaves errno as it is. */
void close_quietly(int file);

/* Occupies the descriptors of standard input, output and error that are closed. No file or socket of the program then gets one
   of them, and nothing that is printed goes into it. */
void hold_streams(void);
