#include "observation.h"
#include "field_text.h"
#include "output.h"
#include "words.h"
#include <errno.h>
#include <stdarg.h>
#include <stdio.h>
#include <stdlib.h>
#include <string.h>

/* How a member is written. */
enum kind { UNSIGNED, SIGNED, INTERVAL, FLAG, IDENTITY, STATE, SOURCE };

enum { MOST_LINE_WORDS = 5, MOST_PRINTED = 64, NO_FLAG = 0xffff, INTERVAL_TEXT = 64 };

/* A member of a struct. It has its name there, and the standard's name, by which ptpm-manage prints it. It has its place, and the
   place of the flag that says that it is given. */
struct observed_member { const char *name, *printed; size_t at, size, flag; enum kind kind; };

#define PLACE(what, name) offsetof(struct what, name), sizeof ((struct what *)0)->name
#define OF_CLOCK(name, printed, kind) \
    { #name, printed, PLACE(ptpm_observed_clock, name), offsetof(struct ptpm_observed_clock, has_##name), kind }
#define OF_GRANDMASTER(name, printed, kind) { #name, printed, PLACE(ptpm_observed_clock, name), NO_FLAG, kind }
#define OF_PORT(name, printed, kind) \
    { #name, printed, PLACE(ptpm_observed_port, name), offsetof(struct ptpm_observed_port, has_##name), kind }

static const struct observed_member members_of_clock[] = {
    OF_CLOCK(clock_class, "clockQuality.clockClass", UNSIGNED), OF_CLOCK(clock_accuracy, "clockQuality.clockAccuracy", UNSIGNED),
    OF_CLOCK(variance, "clockQuality.offsetScaledLogVariance", UNSIGNED), OF_CLOCK(steps_removed, "stepsRemoved", UNSIGNED),
    OF_CLOCK(offset_from_master, "offsetFromMaster", INTERVAL), OF_CLOCK(mean_path_delay, "meanDelay", INTERVAL),
    OF_CLOCK(parent_stats, "parentStats", FLAG), OF_CLOCK(observed_variance, "observedParentOffsetScaledLogVariance", UNSIGNED),
    OF_CLOCK(observed_rate, "observedParentClockPhaseChangeRate", SIGNED), OF_CLOCK(utc_offset, "currentUtcOffset", SIGNED),
    OF_CLOCK(leap61, "leap61", FLAG), OF_CLOCK(leap59, "leap59", FLAG), OF_CLOCK(utc_valid, "currentUtcOffsetValid", FLAG),
    OF_CLOCK(ptp_timescale, "ptpTimescale", FLAG), OF_CLOCK(time_traceable, "timeTraceable", FLAG),
    OF_CLOCK(frequency_traceable, "frequencyTraceable", FLAG), OF_CLOCK(time_source, "timeSource", SOURCE),
    OF_GRANDMASTER(is_grandmaster, "", FLAG), { 0 },
};

/* These are given together, the last two also by the one parentPortIdentity. */
enum { PARENT_PORT_CLOCK = 6, PARENT_PORT_NUMBER };
static const struct observed_member members_of_grandmaster[] = {
    OF_GRANDMASTER(grandmaster, "grandmasterIdentity", IDENTITY),
    OF_GRANDMASTER(grandmaster_priority1, "grandmasterPriority1", UNSIGNED),
    OF_GRANDMASTER(grandmaster_class, "grandmasterClockQuality.clockClass", UNSIGNED),
    OF_GRANDMASTER(grandmaster_accuracy, "grandmasterClockQuality.clockAccuracy", UNSIGNED),
    OF_GRANDMASTER(grandmaster_variance, "grandmasterClockQuality.offsetScaledLogVariance", UNSIGNED),
    OF_GRANDMASTER(grandmaster_priority2, "grandmasterPriority2", UNSIGNED),
    OF_GRANDMASTER(parent_port_clock, "", IDENTITY), OF_GRANDMASTER(parent_port_number, "", UNSIGNED), { 0 },
};

static const struct observed_member members_of_port[] = {
    OF_PORT(state, "portState", STATE), OF_PORT(peer_delay, "meanLinkDelay", INTERVAL), { 0 },
};

/* The place of a member in its list, by either name; -1 if it is not there. */
static int place_of(const struct observed_member *members, const char *name) {
    for (int k = 0; members[k].name != NULL; k++) {
        if (strcmp(members[k].name, name) == 0 || strcmp(members[k].printed, name) == 0) return k;
    }
    return -1;
}

static bool is_observed(const char *name) {
    return place_of(members_of_clock, name) >= 0 || place_of(members_of_grandmaster, name) >= 0
           || place_of(members_of_port, name) >= 0 || strcmp(name, "portIdentity") == 0 || strcmp(name, "parentPortIdentity") == 0;
}

/* The names by which ptpm-manage prints the members of the data sets. The library is asked for them once. */
static const char *const *printed_names(void) {
    static const uint16_t data_sets[] = {
        PTPM_ID_DEFAULT_DATA_SET, PTPM_ID_CURRENT_DATA_SET, PTPM_ID_PARENT_DATA_SET, PTPM_ID_TIME_PROPERTIES_DATA_SET,
        PTPM_ID_PORT_DATA_SET,
    };
    static struct field_lines lines[sizeof data_sets / sizeof *data_sets];
    static const char *names[MOST_PRINTED + 1];
    struct member member;
    size_t count = *names == NULL ? 0 : MOST_PRINTED;
    for (size_t i = 0; count < MOST_PRINTED && i < sizeof data_sets / sizeof *data_sets; i++) {
        start_members(&lines[i], data_sets[i]);
        while (count < MOST_PRINTED && next_member(&lines[i], &member)) names[count++] = member.name;
    }
    return names;
}

/* Whether a name is of what ptpm-manage prints beside what is observed. Managers set it, or it stays as it is. */
static bool is_passed_over(const char *name) {
    const char *const *printed = printed_names();
    while (*printed != NULL && strcmp(*printed, name) != 0) printed++;
    return *printed != NULL && !is_observed(name);
}

/* Why a line is wrong. */
static char why[200];

__attribute__((format(printf, 1, 2))) static bool wrong(const char *format, ...) {
    va_list values;
    va_start(values, format);
    vsnprintf(why, sizeof why, format, values);
    va_end(values);
    return false;
}

/* A decimal number, or 0x and hexadecimal digits; whether the text is one from `least` to `most`. */
static bool read_integer(const char *text, long long least, long long most, long long *number) {
    const char *digits = text + (*text == '-');
    bool is_hexadecimal = digits[0] == '0' && (digits[1] == 'x' || digits[1] == 'X');
    char *end;
    if (*digits < '0' || *digits > '9') return false;
    errno = 0;
    *number = strtoll(text, &end, is_hexadecimal ? 16 : 10);
    return errno == 0 && *end == '\0' && *number >= least && *number <= most;
}

/* Writes an integer at a member, in as many octets as it has. */
static void put(void *at, size_t size, long long number) {
    switch (size) {
    case 1: memcpy(at, &(uint8_t){ (uint8_t)number }, size); break;
    case 2: memcpy(at, &(uint16_t){ (uint16_t)number }, size); break;
    case 4: memcpy(at, &(uint32_t){ (uint32_t)number }, size); break;
    default: memcpy(at, &(uint64_t){ (uint64_t)number }, size);
    }
}

static bool put_number(const struct observed_member *member, const char *name, const char *text, void *at) {
    unsigned bits = (unsigned)(8 * member->size);
    bool is_signed = member->kind != UNSIGNED;
    long long most = is_signed ? (long long)(UINT64_MAX >> (65 - bits)) : (1LL << bits) - 1;
    long long least = is_signed ? -most - 1 : 0, number;
    if (!read_integer(text, least, most, &number)) {
        const char *more = member->kind == INTERVAL ? ", or nanoseconds such as 1.5ns" : "";
        return wrong("%s %s: it takes a number from %lld to %lld%s", name, text, least, most, more);
    }
    put(at, member->size, number);
    return true;
}

/* In nanoseconds if the name is the one that is printed, or if the text says so, and otherwise in units of 2^-16 of them. */
static bool put_interval(const struct observed_member *member, const char *name, const char *text, void *at) {
    char digits[INTERVAL_TEXT];
    int64_t interval;
    size_t size = strlen(text);
    bool is_said = size > 2 && strcmp(text + size - 2, "ns") == 0;
    if (!is_said && strcmp(name, member->name) == 0) return put_number(member, name, text, at);
    snprintf(digits, sizeof digits, "%.*s", (int)(is_said ? size - 2 : size), text);
    if (size >= sizeof digits || !read_interval(digits, &interval)) {
        return wrong("%s %s: it takes nanoseconds, such as 1.5", name, text);
    }
    put(at, member->size, interval);
    return true;
}

/* Numbers of an octet that have names: what the library calls these, the numbers that are taken, and a name for an example. */
struct enumeration { uint32_t names; long long least, most; const char *example; };

static const struct enumeration states = { PTPM_PORT_STATES, 1, 9, "SLAVE" }, sources = { PTPM_TIME_SOURCES, 0, UINT8_MAX, "GNSS" };

static bool put_named(const struct enumeration *of, const char *name, const char *text, uint8_t *at) {
    long long number = ptpm_number_named(of->names, text, strlen(text));
    if (number == PTPM_NO_NUMBER && !read_integer(text, of->least, of->most, &number)) {
        return wrong("%s %s: it takes a number from %lld to %lld, or a name such as %s", name, text, of->least, of->most, of->example);
    }
    *at = (uint8_t)number;
    return true;
}

static bool put_flag(const char *name, const char *text, uint8_t *at) {
    bool is_true = strcmp(text, "true") == 0 || strcmp(text, "1") == 0;
    if (!is_true && strcmp(text, "false") != 0 && strcmp(text, "0") != 0) return wrong("%s %s: it takes true or false", name, text);
    *at = (uint8_t)is_true;
    return true;
}

static bool put_identity(const char *name, const char *text, uint8_t *at) {
    if (ptpm_identity_parse(text, strlen(text), at)) return true;
    return wrong("%s %s: it takes a clockIdentity, such as aabbccfffeddee01 or aabbcc.fffe.ddee01", name, text);
}

static bool put_kind(const struct observed_member *member, const char *name, const char *text, uint8_t *at) {
    switch (member->kind) {
    case FLAG: return put_flag(name, text, at);
    case IDENTITY: return put_identity(name, text, at);
    case STATE: return put_named(&states, name, text, at);
    case SOURCE: return put_named(&sources, name, text, at);
    case INTERVAL: return put_interval(member, name, text, at);
    default: return put_number(member, name, text, at);
    }
}

/* Writes a value, given by one of the member's names, at the member of a struct, and that it is given. */
static bool put_value(const struct observed_member *member, const char *name, const char *text, void *whole) {
    bool is_right = put_kind(member, name, text, (uint8_t *)whole + member->at);
    if (is_right && member->flag != NO_FLAG) ((uint8_t *)whole)[member->flag] = 1;
    return is_right;
}

static bool put_of_port(struct observation *observation, size_t port, const struct observed_member *member, char *const *words) {
    if (port > observation->port_count) observation->port_count = port;
    return put_value(member, words[0], words[1], &observation->ports[port - 1]);
}

static bool take_port(struct observation *observation, char **words, size_t count) {
    long long port;
    if (count != 4) return wrong("it takes port PORT MEMBER VALUE");
    if (!read_integer(words[1], 1, PTPM_MOST_PORTS, &port)) return wrong("port %s: it takes a number from 1 to %d", words[1], PTPM_MOST_PORTS);
    int place = place_of(members_of_port, words[2]);
    if (place < 0 && is_passed_over(words[2])) return true;
    if (place < 0) return wrong("%s: no such member of a port is observed", words[2]);
    return put_of_port(observation, (size_t)port, &members_of_port[place], words + 2);
}

/* It comes before the other members of a port, as ptpm-manage prints them. */
static bool take_port_identity(struct observation *observation, const char *text) {
    uint8_t clock[8];
    uint16_t port;
    bool is_observable = ptpm_port_identity_parse(text, strlen(text), clock, &port) && port >= 1 && port <= PTPM_MOST_PORTS;
    if (!is_observable) return wrong("portIdentity %s: it takes that of a port from 1 to %d", text, PTPM_MOST_PORTS);
    observation->printed_port = port;
    return true;
}

static bool take_parent_port(struct observation *observation, const char *text) {
    struct ptpm_observed_clock *clock = &observation->clock;
    if (!ptpm_port_identity_parse(text, strlen(text), clock->parent_port_clock, &clock->parent_port_number)) {
        return wrong("parentPortIdentity %s: it takes a clockIdentity and a port, such as aabbccfffeddee01/1", text);
    }
    observation->grandmaster |= 1u << PARENT_PORT_CLOCK | 1u << PARENT_PORT_NUMBER;
    return true;
}

/* A line that ptpm-manage prints, of what is not a member of the clock's struct. */
static bool take_printed(struct observation *observation, char **words, size_t count) {
    const char *name = words[0];
    bool is_port = strcmp(name, "portIdentity") == 0, is_parent = strcmp(name, "parentPortIdentity") == 0;
    int place = place_of(members_of_port, name);
    if (place >= 0 && strcmp(members_of_port[place].name, name) == 0) place = -1;
    if (!is_port && !is_parent && place < 0 && !is_passed_over(name)) {
        return wrong("%s: no such member of a clock is observed", name);
    }
    if (count != 2) return wrong("%s: it takes one value", name);
    if (is_port) return take_port_identity(observation, words[1]);
    if (is_parent) return take_parent_port(observation, words[1]);
    if (place < 0) return true;
    if (observation->printed_port == 0) return wrong("%s: it takes a portIdentity before it, or port PORT", name);
    return put_of_port(observation, observation->printed_port, &members_of_port[place], words);
}

static bool take_member(struct observation *observation, char **words, size_t count) {
    int place = place_of(members_of_clock, words[0]), of_grandmaster = place_of(members_of_grandmaster, words[0]);
    if (place < 0 && of_grandmaster < 0) return take_printed(observation, words, count);
    if (count != 2) return wrong("%s: it takes one value", words[0]);
    if (place >= 0) return put_value(&members_of_clock[place], words[0], words[1], &observation->clock);
    observation->grandmaster |= 1u << of_grandmaster;
    return put_value(&members_of_grandmaster[of_grandmaster], words[0], words[1], &observation->clock);
}

/* What one line says; whether it is right. */
static bool take_line(struct observation *observation, char *line) {
    char *words[MOST_LINE_WORDS], *place = NULL;
    size_t count = 0;
    if (line[strspn(line, " \t\r")] == '#') return true;
    if (!is_ascii(line)) return wrong("it has an octet that is not ASCII");
    for (char *word = strtok_r(line, " \t\r", &place); word != NULL; word = strtok_r(NULL, " \t\r", &place)) {
        if (count < MOST_LINE_WORDS) words[count++] = word;
    }
    if (count == 0) return true;
    return strcmp(words[0], "port") == 0 ? take_port(observation, words, count) : take_member(observation, words, count);
}

/* A grandmaster is given whole, or not at all. */
static bool take_grandmaster(struct observation *observation) {
    if (observation->grandmaster == 0) return true;
    for (int k = 0; members_of_grandmaster[k].name != NULL; k++) {
        if ((observation->grandmaster >> k & 1) == 0) {
            return wrong("a grandmaster is given whole: %s is missing", members_of_grandmaster[k].name);
        }
    }
    if (observation->clock.is_grandmaster) return wrong("is_grandmaster excludes the members of another grandmaster");
    observation->clock.has_grandmaster = 1;
    return true;
}

bool read_observation(struct observation *observation, const char *name, char *text) {
    int number = 0;
    bool is_right = true;
    *observation = (struct observation){ 0 };
    for (char *line; (line = strsep(&text, "\n")) != NULL;) {
        number++;
        if (take_line(observation, line)) continue;
        say_at_times("%s: line %d: %s", name, number, why);
        is_right = false;
    }
    if (is_right && !take_grandmaster(observation)) {
        say_at_times("%s: %s", name, why);
        is_right = false;
    }
    return is_right;
}
