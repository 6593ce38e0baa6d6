/* Numbers, octets, and identities of clocks, in the words of a command line or of a file. The library reads identities. */
#pragma once

#include <stdbool.h>
#include <stddef.h>
#include <stdint.h>

/* For getopt_long: an option that takes a value, and one that takes none. */
#define TAKES(name, option) { name, required_argument, NULL, option }
#define ALONE(name, option) { name, no_argument, NULL, option }

/* A number of only decimal digits, at most `most`; -1 if the text is none. A tenth of the greatest is the most that `most` may be. */
int64_t large_decimal(const char *text, int64_t most);

/* The same for a number that every long has room for. */
long decimal(const char *text, long most);

/* Reads octets of two hexadecimal digits each, in either case, at most `most`; how many octets they are. */
size_t read_octets(const char **text, uint8_t *octets, size_t most);

/* Whether a line has only printed characters of ASCII, blanks, tabs and returns. */
bool is_ascii(const char *line);

enum { IDENTITY_TEXT = 17 };

/* A clockIdentity as sixteen hexadecimal digits. The text is there until the call after the next. */
const char *identity_text(const uint8_t identity[8]);
