/* The members of a dataField (IEEE 1588-2019, 15.5.3) as texts: one after another, as the library writes them, and a TimeInterval
   among them in nanoseconds. */
#pragma once

#include "ptpm.h"
#include <stdbool.h>
#include <stdint.h>

/* A member: its name in the standard, and its value as a text. The only one is `value`, with the octets in hexadecimal, if they
   are not a dataField of the id or it has no member. */
struct member { const char *name, *value; };

struct field_lines { char text[PTPM_MOST_FIELD_TEXT + 1], *rest; };

/* Takes the members of a dataField. */
void start_lines(struct field_lines *lines, uint16_t id, const uint8_t *octets, size_t size);

/* Takes the members of an id of this profile, with the values of a dataField in which no bit is set. There is none if the id has no
   dataField. */
void start_members(struct field_lines *lines, uint16_t id);

/* The next member; whether there is one. Its texts stay until the lines are started again. */
bool next_member(struct field_lines *lines, struct member *member);

/* Whether the member has this name. */
bool is_named(const struct member *member, const char *name);

/* The value of the next member that has this name; NULL if there is none. */
const char *value_of(struct field_lines *lines, const char *name);

/* The TimeInterval (5.3.2), nanoseconds times 2^16, that is nearest to a text, such as 1.5. The text has digits, with at most sixteen more after a dot, and begins with a hyphen
   if it is below 0. Whether it is such a text, and in range. */
bool read_interval(const char *text, int64_t *interval);
