#include "commands.h"
#include <stdlib.h>
#include <string.h>

/* How a member is written: a number, or octets. */
enum kind { NUMBER, OCTETS };

struct member { const char *name; size_t place, size, flag; enum kind kind; };

#define SIZE_OF(type, name) sizeof(((struct type *)0)->name)
#define NUMBER_OF(type, name) { #name, offsetof(struct type, name), SIZE_OF(type, name), 0, NUMBER }
#define OCTETS_OF(type, name) { #name, offsetof(struct type, name), SIZE_OF(type, name), 0, OCTETS }
#define FLAGGED(type, name) { #name, offsetof(struct type, name), SIZE_OF(type, name), offsetof(struct type, has_##name), NUMBER }
#define FLAGGED_OCTETS(type, name) { #name, offsetof(struct type, name), SIZE_OF(type, name), offsetof(struct type, has_##name), OCTETS }

#define START(name) NUMBER_OF(ptpm_clock_settings, name)
#define FLAGGED_START(name) FLAGGED(ptpm_clock_settings, name)
static const struct member of_start[] = {
    START(offset_from_master), START(mean_path_delay), START(observed_rate), START(variance), START(steps_removed),
    START(observed_variance), FLAGGED_START(grandmaster_variance), START(parent_port_number), START(utc_offset),
    OCTETS_OF(ptpm_clock_settings, identity), OCTETS_OF(ptpm_clock_settings, parent_port_clock),
    FLAGGED_OCTETS(ptpm_clock_settings, grandmaster), START(domain), START(two_step), START(priority1), START(clock_class),
    START(clock_accuracy), START(priority2), START(parent_stats), FLAGGED_START(grandmaster_priority1),
    FLAGGED_START(grandmaster_class), FLAGGED_START(grandmaster_accuracy), FLAGGED_START(grandmaster_priority2), START(leap61),
    START(leap59), START(utc_valid), START(ptp_timescale), START(time_traceable), START(frequency_traceable), START(time_source),
    START(has_parent_port), START(user_description_size), OCTETS_OF(ptpm_clock_settings, user_description), { 0 },
};

#define PORT(name) NUMBER_OF(ptpm_port_settings, name)
static const struct member of_port[] = {
    PORT(peer_delay), PORT(state), PORT(log_min_delay_req), PORT(log_announce), PORT(receipt_timeout), PORT(log_sync),
    PORT(delay_mechanism), PORT(log_min_pdelay), { 0 },
};

#define SEEN(name) FLAGGED(ptpm_observed_clock, name)
#define SEEN_NUMBER(name) NUMBER_OF(ptpm_observed_clock, name)
static const struct member of_observed_clock[] = {
    SEEN(offset_from_master), SEEN(mean_path_delay), SEEN(observed_rate), SEEN(variance), SEEN(steps_removed), SEEN(observed_variance),
    SEEN(utc_offset), SEEN(clock_class), SEEN(clock_accuracy), SEEN(parent_stats), SEEN(leap61), SEEN(leap59), SEEN(utc_valid),
    SEEN(ptp_timescale), SEEN(time_traceable), SEEN(frequency_traceable), SEEN(time_source), SEEN_NUMBER(is_grandmaster),
    FLAGGED_OCTETS(ptpm_observed_clock, grandmaster), SEEN_NUMBER(grandmaster_variance), SEEN_NUMBER(grandmaster_priority1),
    SEEN_NUMBER(grandmaster_class), SEEN_NUMBER(grandmaster_accuracy), SEEN_NUMBER(grandmaster_priority2),
    OCTETS_OF(ptpm_observed_clock, parent_port_clock), SEEN_NUMBER(parent_port_number), { 0 },
};

static const struct member of_observed_port[] = { FLAGGED(ptpm_observed_port, state), FLAGGED(ptpm_observed_port, peer_delay), { 0 } };

#define SESSION(name) NUMBER_OF(ptpm_session_settings, name)
static const struct member of_session[] = {
    SESSION(port), SESSION(target_ports), SESSION(first), OCTETS_OF(ptpm_session_settings, clock),
    OCTETS_OF(ptpm_session_settings, target), SESSION(domain), SESSION(hops), SESSION(attempts), { 0 },
};

#define ASKER(name) NUMBER_OF(ptpm_asker_settings, name)
#define ASKER_SESSION(name) { #name, offsetof(struct ptpm_asker_settings, session.name), SIZE_OF(ptpm_session_settings, name), 0, NUMBER }
#define ASKER_OCTETS(name) { #name, offsetof(struct ptpm_asker_settings, session.name), SIZE_OF(ptpm_session_settings, name), 0, OCTETS }
static const struct member of_asker[] = {
    ASKER_SESSION(port), ASKER_SESSION(target_ports), ASKER_SESSION(first), ASKER_OCTETS(clock), ASKER_OCTETS(target),
    ASKER_SESSION(hops), ASKER_SESSION(attempts), ASKER(nobody), ASKER(timeout), ASKER(wait), { 0 },
};

#define RECORD(name) NUMBER_OF(ptpm_journal_record, name)
static const struct member of_record[] = {
    RECORD(time), RECORD(count), RECORD(port), RECORD(id), RECORD(step), RECORD(number), RECORD(error), RECORD(kind), RECORD(flags),
    RECORD(together), RECORD(domain), RECORD(group), RECORD(what), OCTETS_OF(ptpm_journal_record, clock), { 0 },
};

#define SURVEY(name) NUMBER_OF(ptpm_survey_settings, name)
static const struct member of_survey[] = {
    SURVEY(port), SURVEY(number), SURVEY(id), OCTETS_OF(ptpm_survey_settings, clock), SURVEY(domain), SURVEY(hops), { 0 },
};

/* Writes an integer of this many octets, in the order of the processor. */
static void put_number(long long number, void *at, size_t size) {
    const uint8_t octet = (uint8_t)number;
    const uint16_t two = (uint16_t)number;
    const uint32_t four = (uint32_t)number;
    memcpy(at, size == 1 ? (const void *)&octet : size == 2 ? (const void *)&two : size == 4 ? (const void *)&four : &number, size);
}

/* Writes the member that the word `name=value` names. */
static void put_member(const struct member *members, const char *word, void *settings) {
    const char *value = strchr(word, '=');
    size_t length = value == NULL ? 0 : (size_t)(value - word);
    uint8_t *at = settings;
    while (members->name != NULL && (strlen(members->name) != length || strncmp(members->name, word, length) != 0)) members++;
    if (members->name == NULL || value == NULL) {
        say_misspelt(word);
        return;
    }
    if (members->flag != 0) at[members->flag] = 1;
    if (members->kind == NUMBER) put_number(strtoll(value + 1, NULL, 0), at + members->place, members->size);
    else read_exactly(value + 1, at + members->place, members->size);
}

/* Takes the words of one struct, up to a word without a value. */
static void read_members(char **words, const struct member *members, void *settings) {
    while (*words != NULL) {
        *words += strspn(*words, " ");
        if (strcspn(*words, "=") >= strcspn(*words, " ")) return;
        put_member(members, next_word(words), settings);
    }
}

/* Takes `WORD` or `N*WORD`; how many it says, and 0 if it does not come next. */
static size_t takes_times(char **words, const char *word) {
    size_t digits;
    char *rest = *words;
    if (takes_word(words, word)) return 1;
    if (rest == NULL) return 0;
    rest += strspn(rest, " ");
    digits = strspn(rest, "0123456789");
    size_t times = strtoul(rest, NULL, 10);
    if (digits == 0 || rest[digits] != '*') return 0;
    rest += digits + 1;
    if (!takes_word(&rest, word)) return 0;
    *words = rest;
    return times;
}

void read_managers(char **words, struct managers *managers) {
    managers->count = 0;
    for (size_t times; (times = takes_times(words, "manager")) > 0;) {
        struct ptpm_manager_settings manager;
        read_exactly(next_word(words), manager.clock, sizeof manager.clock);
        manager.port = next_hex(words);
        manager.rights = (uint8_t)next_number(words, 0);
        while (times-- > 0 && managers->count < MOST_MANAGERS) managers->of[managers->count++] = manager;
    }
}

void read_start(char **words, struct start *start) {
    ptpm_clock_defaults(&start->clock);
    start->port_count = 0;
    read_members(words, of_start, &start->clock);
    for (size_t times; (times = takes_times(words, "port")) > 0;) {
        struct ptpm_port_settings port;
        ptpm_port_defaults(&port);
        read_members(words, of_port, &port);
        while (times-- > 0 && start->port_count < MOST_PORTS) start->ports[start->port_count++] = port;
    }
    read_managers(words, &start->managers);
    if (*words != NULL) say_misspelt(*words);
}

void read_observation(char **words, struct observation *observation) {
    memset(observation, 0, sizeof *observation);
    read_members(words, of_observed_clock, &observation->clock);
    for (size_t times; (times = takes_times(words, "port")) > 0;) {
        struct ptpm_observed_port port = { 0 };
        read_members(words, of_observed_port, &port);
        while (times-- > 0 && observation->port_count < MOST_PORTS) observation->ports[observation->port_count++] = port;
    }
    if (*words != NULL) say_misspelt(*words);
}

void read_session(char **words, struct ptpm_session_settings *settings) {
    memset(settings, 0, sizeof *settings);
    read_members(words, of_session, settings);
}

void read_asker(char **words, struct ptpm_asker_settings *settings) {
    memset(settings, 0, sizeof *settings);
    read_members(words, of_asker, settings);
}

void read_record(char **words, struct ptpm_journal_record *record) {
    memset(record, 0, sizeof *record);
    read_members(words, of_record, record);
}

bool read_survey(char **words, struct ptpm_survey_settings *settings, uint8_t target[8]) {
    memset(settings, 0, sizeof *settings);
    read_members(words, of_survey, settings);
    if (!takes_word(words, "target")) return false;
    read_exactly(next_word(words), target, 8);
    return true;
}
