#include "field_words.h"
#include "field_text.h"
#include "notices.h"
#include "program.h"
#include <stdio.h>
#include <stdlib.h>
#include <string.h>
#include <strings.h>

bool has_text(uint16_t id) { return id == PTPM_ID_USER_DESCRIPTION; }

bool can_only_be_read(uint16_t id) {
    return id == PTPM_ID_DEFAULT_DATA_SET || id == PTPM_ID_CURRENT_DATA_SET || id == PTPM_ID_PARENT_DATA_SET ||
           id == PTPM_ID_TIME_PROPERTIES_DATA_SET || id == PTPM_ID_PORT_DATA_SET;
}

/* Whether words of this size, each with a zero octet after it, are a dataField of an id. */
static bool is_field(uint16_t id, const char *words, size_t size) {
    uint8_t octets[PTPM_MOST_READ];
    size_t count, place;
    return ptpm_field_parse(id, words, size, octets, sizeof octets, &count, &place) == PTPM_PARSED;
}

bool has_no_member(uint16_t id) { return is_field(id, "", 0); }

static size_t count_members(uint16_t id) {
    struct field_lines lines;
    struct member member;
    size_t count = 0;
    for (start_members(&lines, id); next_member(&lines, &member);) count++;
    return count;
}

bool takes_value(uint16_t id) { return count_members(id) == 1 && !has_text(id); }

bool takes_names(uint16_t id) { return count_members(id) > 1 && !can_only_be_read(id); }

bool is_member(uint16_t id, const char *word) {
    struct field_lines lines;
    struct member member;
    for (start_members(&lines, id); next_member(&lines, &member);) {
        if (strcasecmp(word, member.name) == 0) return true;
    }
    return false;
}

size_t most_words(uint16_t id, const char *first) {
    size_t members = count_members(id);
    bool is_one_word = members == 0 || (!is_member(id, first) && is_field(id, first, strlen(first) + 1));
    return is_one_word ? 1 : 2 * members;
}

/* What an operator types: an id as it is named, and the words after it. */
struct typed { uint16_t id; const char *named, *const *words; size_t count; };

/* Says which value is none of its member. */
static _Noreturn void refuse_value(const struct typed *typed, size_t place) {
    const char *const *words = typed->words + 2 * place;
    char taken[PTPM_MOST_TAKES];
    int size = (int)ptpm_field_takes(typed->id, place, taken, sizeof taken);
    if (typed->count == 1) refuse("set %s %s: it takes %.*s", typed->named, typed->words[0], size, taken);
    refuse("set %s %s %s: it takes %.*s", typed->named, words[0], words[1], size, taken);
}

/* Says which members a SET of the id takes, each with its value. */
static _Noreturn void refuse_count(const struct typed *typed) {
    char names[PTPM_MOST_FIELD_TEXT + 1] = "";
    struct field_lines lines;
    struct member member;
    size_t size = 0;
    for (start_members(&lines, typed->id); next_member(&lines, &member);) {
        size += (size_t)snprintf(names + size, sizeof names - size, " %s VALUE", member.name);
    }
    refuse("set %s: it takes%s", typed->named, names);
}

/* Says what is wrong with words that are not a dataField. */
static _Noreturn void refuse_words(const struct typed *typed, enum ptpm_parsed why, size_t place) {
    struct field_lines lines;
    struct member member = { "", "" };
    start_members(&lines, typed->id);
    for (size_t i = 0; i <= place && next_member(&lines, &member); i++) continue;
    switch (why) {
    case PTPM_NO_VALUE: refuse_value(typed, place);
    case PTPM_OTHER_NAME: refuse("set %s %s: the member that comes next is %s", typed->named, typed->words[2 * place], member.name);
    case PTPM_WORD_COUNT: refuse_count(typed);
    default: refuse("%s: the value is not UTF-8", typed->named);
    }
}

/* Puts the words one after another, with a zero octet after each; how many octets they have. */
static size_t join(char **joined, const char *const *words, size_t count) {
    size_t size = 0;
    for (size_t i = 0; i < count; i++) size += strlen(words[i]) + 1;
    char *to = *joined = needed(malloc(size + 1), "the value of a set");
    for (size_t i = 0; i < count; i++) to = stpcpy(to, words[i]) + 1;
    return size;
}

size_t read_field(uint16_t id, const char *named, const char *const *words, size_t count, uint8_t octets[PTPM_MOST_READ]) {
    char *joined;
    size_t size = join(&joined, words, count), found, place;
    enum ptpm_parsed why = ptpm_field_parse(id, joined, size, octets, PTPM_MOST_READ, &found, &place);
    free(joined);
    if (why != PTPM_PARSED) refuse_words(&(struct typed){ id, named, words, count }, why, place);
    return found;
}

size_t read_text_field(uint16_t id, const char *named, const char *const *words, size_t count, uint8_t octets[PTPM_MOST_READ]) {
    char text[4 * MOST_DESCRIPTION + 1], *to = text;
    const char *taken[MOST_FIELD_WORDS], *typed = words[count - 1];
    if (strlen(typed) > MOST_DESCRIPTION) refuse("the text has over %d octets", MOST_DESCRIPTION);
    for (; *typed != '\0'; typed++) {
        if (*typed == '\\') to = stpcpy(to, "\\x5c");
        else *to++ = *typed;
    }
    *to = '\0';
    memcpy(taken, words, count * sizeof *words);
    taken[count - 1] = text;
    return read_field(id, named, taken, count, octets);
}
