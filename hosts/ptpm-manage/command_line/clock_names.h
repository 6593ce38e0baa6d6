/* The names that a file gives to clocks: a line for each, with the clockIdentity and, after a space, the name. An empty line and one
   that begins with # count for nothing. */
#pragma once

#include <stdbool.h>
#include <stddef.h>
#include <stdint.h>

/* Reads the file. Ends the program with status 2 if it can't be read, or a line is none of these. */
void read_clock_names(const char *path);

/* How many names it has. */
size_t clock_name_count(void);

/* One of them as `ptpm site --name` takes it: aabbccfffeddee01=NAME. */
const char *clock_name(size_t place);

/* The clock of a name; whether there is one. Ends the program with status 2 if several clocks have the name. */
bool find_named_clock(const char *name, uint8_t identity[8]);
