/* The dataField of a SET (IEEE 1588-2019, 15.5.3) from the words of a command line. */
#pragma once

#include "ptpm.h"
#include <stdbool.h>

enum {
    MOST_DESCRIPTION = 128,            /* octets of a userDescription */
    MOST_FIELD_WORDS = 20       /* names and values of members */
};

/* Whether an id has a text, and nothing else. */
bool has_text(uint16_t id);

/* Whether an id has one member, which is not a text, so that a SET takes its value as a word. */
bool takes_value(uint16_t id);

/* Whether a SET of the id takes several members, each by its name. */
bool takes_names(uint16_t id);

/* Whether the standard has only a GET of the id. */
bool can_only_be_read(uint16_t id);

/* Whether a SET of the id has a dataField without octets. */
bool has_no_member(uint16_t id);

/* Whether a word is the name of a member of the id, in either case. */
bool is_member(uint16_t id, const char *word);

/* How many words a SET of the id takes at most: one, or a name and a value for each member. The first of them decides. */
size_t most_words(uint16_t id, const char *first);

/* The dataField of a SET for words: each member's name and its value, or only the value of the one member. `named` is the id as
   it was typed. How many octets it has. Ends the program if the words are none, and says which member is at fault. */
size_t read_field(uint16_t id, const char *named, const char *const *words, size_t count, uint8_t octets[PTPM_MOST_READ]);

/* The same if the last word is a text as it is, in which a backslash stands for itself. */
size_t read_text_field(uint16_t id, const char *named, const char *const *words, size_t count, uint8_t octets[PTPM_MOST_READ]);
