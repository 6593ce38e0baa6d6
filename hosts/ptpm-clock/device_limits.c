#include "device.h"
#include "message_places.h"
#include "names.h"
#include "output.h"
#include "words.h"
#include <stdarg.h>
#include <stdio.h>
#include <stdlib.h>
#include <string.h>

/* The line that is read, and where. */
struct reading {
    const char *name;
    int line;
    bool is_wrong;
    char *rest;                         /* the words that are left */
};

/* Says what is wrong with the line. */
__attribute__((format(printf, 2, 3))) static void fault(struct reading *reading, const char *format, ...) {
    char why[200];
    va_list values;
    va_start(values, format);
    vsnprintf(why, sizeof why, format, values);
    va_end(values);
    say_at_times("%s: line %d: %s", reading->name, reading->line, why);
    reading->is_wrong = true;
}

static const char *next_word(struct reading *reading) { return strtok_r(NULL, " \t\r", &reading->rest); }

/* The octet of a value of an id with a single one; whether the word is such a value. */
static bool read_octet(uint16_t id, const char *word, uint8_t *octet) {
    uint8_t octets[PTPM_MOST_READ];
    size_t count, member;
    if (id == PTPM_ID_USER_DESCRIPTION) return false;           /* a text */
    enum ptpm_parsed answer = ptpm_field_parse(id, word, strlen(word) + 1, octets, sizeof octets, &count, &member);
    if (answer != PTPM_PARSED || count == 0) return false;
    *octet = octets[0];
    return true;
}

/* The number of a value; whether the word is one that is written as a number. */
static bool read_number(uint16_t id, const char *word, int *number) {
    uint8_t octet;
    char *end;
    long found = strtol(word, &end, strncasecmp(word, "0x", 2) == 0 ? 16 : 10);
    *number = (int)found;
    return read_octet(id, word, &octet) && *end == '\0';
}

static void add_values(struct ptpm_limit *limit, int least, int most) {
    struct ptpm_limit range;
    ptpm_limit_range(&range, least, most);
    for (size_t i = 0; i < sizeof range.values; i++) limit->values[i] |= range.values[i];
}

/* Adds the values of a word; whether it has some. */
static bool add_word(struct ptpm_limit *limit, const char *word) {
    char least_word[32], *most_word;
    uint8_t octet;
    int least, most;
    if (read_octet(limit->id, word, &octet)) {
        add_values(limit, octet, octet);
        return true;
    }
    snprintf(least_word, sizeof least_word, "%s", word);
    most_word = strstr(least_word, "..");
    if (most_word == NULL || strlen(word) >= sizeof least_word) return false;
    *most_word = '\0';
    if (!read_number(limit->id, least_word, &least) || !read_number(limit->id, most_word + 2, &most) || least > most) return false;
    add_values(limit, least, most);
    return true;
}

/* The values of an id: the words that are left. */
static void read_values(struct reading *reading, struct ptpm_limit *limit, const char *id) {
    const char *word = next_word(reading);
    bool is_never = word != NULL && strcasecmp(word, "never") == 0;
    memset(limit->values, 0, sizeof limit->values);
    if (word == NULL) fault(reading, "%s: it takes values, or never", id);
    if (is_never) word = next_word(reading);
    if (is_never && word != NULL) fault(reading, "%s never %s: nothing goes with never", id, word);
    for (; word != NULL && !is_never; word = next_word(reading)) {
        if (add_word(limit, word)) continue;
        fault(reading, "%s %s: it is neither a value of the id, nor a range such as -4..1, nor never", id, word);
    }
}

/* Which line an id has at that port already; 0 if none. */
static int line_of(const struct device_limits *limits, const struct ptpm_limit *limit) {
    for (size_t i = 0; i < limits->count; i++) {
        if (limits->all[i].id == limit->id && limits->all[i].port == limit->port) return limits->lines[i];
    }
    return 0;
}

/* The port that a line names, and then the word after it; the word itself if it names none. NULL if it is wrong. */
static const char *read_port(struct reading *reading, const char *word, uint16_t *port) {
    *port = EVERY_PORT;
    if (strcmp(word, "port") != 0) return word;
    const char *number = next_word(reading), *id = next_word(reading);
    if (id == NULL) {
        fault(reading, "it takes port PORT ID VALUE..");
        return NULL;
    }
    long found = decimal(number, (long)clock_ports());
    *port = (uint16_t)found;
    if (found >= 1) return id;
    fault(reading, "port %s: it takes a number from 1 to %zu, of a port of the clock", number, clock_ports());
    return NULL;
}

static void read_line(struct reading *reading, struct device_limits *limits, char *line) {
    struct ptpm_limit *limit = &limits->all[limits->count];
    if (line[strspn(line, " \t\r")] == '#') return;
    if (!is_ascii(line)) {
        fault(reading, "it has an octet that is not ASCII");
        return;
    }
    const char *word = strtok_r(line, " \t\r", &reading->rest), *id = NULL;
    if (word != NULL) id = read_port(reading, word, &limit->port);
    if (id == NULL) return;
    long found = id_named(id);
    limit->id = (uint16_t)found;
    if (found < 0 || id_name(limit->id) == NULL) {
        fault(reading, "%s: no such id of the profile", id);
        return;
    }
    int earlier = line_of(limits, limit);
    if (earlier > 0) fault(reading, "%s: line %d has it already", id, earlier);
    read_values(reading, limit, id);
    if (earlier > 0) return;
    limits->lines[limits->count] = reading->line;
    limits->count++;
}

bool read_device_limits(struct device_limits *limits, const char *name, char *text) {
    struct reading reading = { .name = name };
    limits->count = 0;
    for (char *line; (line = strsep(&text, "\n")) != NULL && limits->count < MOST_LIMITS;) {
        reading.line++;
        read_line(&reading, limits, line);
    }
    if (limits->count == 0 && !reading.is_wrong) {
        say_at_times("%s: there is no limit in it", name);
        return false;
    }
    return !reading.is_wrong;
}
