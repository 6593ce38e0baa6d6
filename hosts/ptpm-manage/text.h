/* Texts that are printed: times, and what came in from a network. */
#pragma once

#include <stddef.h>
#include <stdint.h>
#include <stdio.h>
#include <time.h>

/* A time in UTC, as strftime writes it; "" if it can't be. It is there until the next call. */
const char *utc_text(const char *format, time_t time);

/* Prints a text of UTF-8 so that it stays on its line and moves nothing on a terminal. A backslash is printed as \x and two
   hexadecimal digits. So is each octet that is not UTF-8, or of a character that controls, formats or fills. If the locale does
   not read UTF-8, so are the octets of each character with one that could be read there as a control character. */
void print_text(FILE *to, const uint8_t *octets, size_t size);

/* Prints lines of `ptpm site`, which have no control character of UTF-8. If the locale does not read UTF-8, characters whose
   octets could be read as one are printed as above. */
void print_lines(FILE *to, const char *text, size_t size);

/* Prints JSON of `ptpm site`, which has characters other than ASCII only in its strings. Those that a terminal does not show as
   they are come as \u and their number. */
void print_json(FILE *to, const char *text, size_t size);

/* Prints a text as a string of JSON, in quotes. Characters that a terminal does not show as they are come as \u and their number,
   and an octet that is not UTF-8 as U+FFFD. */
void print_json_text(FILE *to, const uint8_t *octets, size_t size);
