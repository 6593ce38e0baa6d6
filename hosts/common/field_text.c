#include "field_text.h"
#include <string.h>

void start_lines(struct field_lines *lines, uint16_t id, const uint8_t *octets, size_t size) {
    lines->text[ptpm_field_text(id, octets, size, lines->text, PTPM_MOST_FIELD_TEXT)] = '\0';
    lines->rest = lines->text;
}

void start_members(struct field_lines *lines, uint16_t id) {
    char name[PTPM_MOST_NAME];
    *lines->text = '\0';
    lines->rest = lines->text;
    if (ptpm_id_name(id, name, sizeof name) == 0) return;
    static const uint8_t zeros[PTPM_MOST_READ];
    for (size_t size = 2; size < sizeof zeros; size += 2) {
        start_lines(lines, id, zeros, size);
        if (strncmp(lines->text, "value ", 6) != 0) return;
    }
    *lines->text = '\0';
}

bool next_member(struct field_lines *lines, struct member *member) {
    char *space = strchr(lines->rest, ' '), *end = strchr(lines->rest, '\n');
    if (space == NULL || end == NULL) return false;
    *space = *end = '\0';
    *member = (struct member){ .name = lines->rest, .value = space + 1 };
    lines->rest = end + 1;
    return true;
}

bool is_named(const struct member *member, const char *name) { return strcmp(member->name, name) == 0; }

const char *value_of(struct field_lines *lines, const char *name) {
    struct member member;
    while (next_member(lines, &member)) {
        if (is_named(&member, name)) return member.value;
    }
    return NULL;
}

/* Bits of a fraction, as many digits as all its values have, and 10 to that power. */
enum { FRACTION_BITS = 16, FRACTION_DIGITS = 16 };
static const uint64_t whole_fraction = 10000000000000000;

/* Reads up to `most` digits, one at least; how many there are, 0 if none or too many. */
static int read_digits(const char **text, int most, uint64_t *number) {
    int count = 0;
    for (*number = 0; **text >= '0' && **text <= '9'; (*text)++) {
        if (++count > most) return 0;
        *number = *number * 10 + (uint64_t)(**text - '0');
    }
    return count;
}

/* A fraction with this many digits in units of 2^-16; half a unit counts as one. */
static uint64_t units_of(uint64_t fraction, int digits) {
    uint64_t units = 0;
    for (; digits < FRACTION_DIGITS; digits++) fraction *= 10;
    for (int bit = 0; bit < FRACTION_BITS; bit++) {
        fraction *= 2;
        units = units << 1 | (fraction >= whole_fraction);
        if (fraction >= whole_fraction) fraction -= whole_fraction;
    }
    return units + (2 * fraction >= whole_fraction);
}

bool read_interval(const char *text, int64_t *interval) {
    enum { MOST_DIGITS = 15 };      /* 2^47 nanoseconds have as many */
    uint64_t whole, fraction = 0;
    bool is_below = *text == '-';
    int digits = 0;
    text += is_below;
    if (read_digits(&text, MOST_DIGITS, &whole) == 0) return false;
    if (*text == '.') {
        text++;
        if ((digits = read_digits(&text, FRACTION_DIGITS, &fraction)) == 0) return false;
    }
    if (*text != '\0' || whole > (uint64_t)1 << 47) return false;
    uint64_t size = (whole << FRACTION_BITS) + units_of(fraction, digits);
    if (size > (uint64_t)INT64_MAX + (uint64_t)is_below) return false;
    *interval = is_below ? (int64_t)-size : (int64_t)size;
    return true;
}
