/* The program `ptpm`, as a part of what this program does: it reads lines and prints what they show. Or it goes on, and both write and read. */
#pragma once

#include <stdbool.h>
#include <stddef.h>
#include <sys/types.h>

/* A part of a text. */
struct piece { const char *at; size_t size; };

/* What it printed; an end of text follows. All zeros hold nothing. */
struct printed { char *text; size_t size, room; };

/* Finds the program: beside this one, or else in the PATH. Ends the program with status 2 if it is nowhere. */
void find_ptpm_program(void);

/* What it is given to read: lines on standard input, and others in a file of this name, unless they are NULL. */
#define FILE_BESIDE "/proc/self/fd/3"
struct given { const struct piece *lines, *beside; };

/* Has it read this. Its words are `arguments`, whose first is left for its path, and whose last is NULL. Its status, or 1 if it did not end
   normally, which is said. `fault` gets the beginning of what it says on standard error, without the end of a line. */
enum { MOST_FAULT = 8192 };
int run_ptpm_program(char **arguments, const struct given *given, struct printed *printed, char fault[MOST_FAULT]);

/* Waits until a program has printed more there, and reads some of it. Whether it has, before its end, or before a signal asks this program to
   end. */
bool read_printed(int from, struct printed *printed);

/* One that goes on: what it reads is written to `to`, and what it prints is read from `from`. */
struct running { pid_t process; int to, from; };

/* Starts it with such words; whether it is started. */
bool start_ptpm_program(char **arguments, struct running *running);

/* Closes both ends and waits for it; its status as above. */
int end_ptpm_program(struct running *running);

/* Runs another program, without words. What it prints goes to standard error. Its status, or 1 if it did not end normally, which is said. */
int run_check_program(const char *path);
