/* What ptpm-clock prints: lines on standard output, and on standard error after the program's name. Once it has started, a
   thread for each writes them, so that a reader that hangs stops nothing else. A line for which there is no room is counted,
   and not printed. */
#pragma once

/* How many octets a line has at most. It says each port of a clock. */
enum { LINE = 4096 };

/* From now on lines are written by threads. No thread has more rights than the program has by then. */
void start_output(void);

/* A line on standard output. */
__attribute__((format(printf, 1, 2))) void print_line(const char *format, ...);

/* A line on standard error, after the program's name. */
__attribute__((format(printf, 1, 2))) void say(const char *format, ...);

/* Reports a fault that may come again and again: at most ten lines a second, and how many more there were. */
__attribute__((format(printf, 1, 2))) void say_at_times(const char *format, ...);

/* How many lines found no room. */
unsigned long lines_lost(void);

/* Waits for their readers, at most a second. */
void end_output(void);
