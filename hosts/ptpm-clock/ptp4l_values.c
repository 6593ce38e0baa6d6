#include "ptp4l.h"
#include "message_places.h"
#include "monotonic.h"
#include "names.h"
#include "network_limits.h"
#include <string.h>

/* Questions a second for others than managers, who have a rate of their own. */
enum { QUESTIONS = 200 };

/* Ids that the ptp4l is asked for. An unknown one may be long, or do something. Those that are not of a port are of the clock. */
static const struct { uint16_t id; bool is_of_port; } ids[] = {
    { CLOCK_DESCRIPTION, true }, { PTPM_ID_USER_DESCRIPTION, false }, { PTPM_ID_DEFAULT_DATA_SET, false },
    { PTPM_ID_CURRENT_DATA_SET, false }, { PTPM_ID_PARENT_DATA_SET, false }, { PTPM_ID_TIME_PROPERTIES_DATA_SET, false },
    { PTPM_ID_PORT_DATA_SET, true }, { PTPM_ID_PRIORITY1, false }, { PTPM_ID_PRIORITY2, false }, { PTPM_ID_DOMAIN, false },
    { PTPM_ID_SLAVE_ONLY, false }, { PTPM_ID_LOG_ANNOUNCE_INTERVAL, true }, { PTPM_ID_ANNOUNCE_RECEIPT_TIMEOUT, true },
    { PTPM_ID_LOG_SYNC_INTERVAL, true }, { PTPM_ID_VERSION_NUMBER, true }, { PTPM_ID_CLOCK_ACCURACY, false },
    { PTPM_ID_UTC_PROPERTIES, false }, { TRACEABILITY_PROPERTIES, false }, { TIMESCALE_PROPERTIES, false }, { PTPM_ID_DELAY_MECHANISM, true },
    { PTPM_ID_LOG_MIN_PDELAY_REQ_INTERVAL, true }, { TIME_STATUS_NP, false }, { GRANDMASTER_SETTINGS_NP, false },
    { PORT_DATA_SET_NP, true }, { SYNCHRONIZATION_UNCERTAIN_NP, false },
};
enum { IDS = sizeof ids / sizeof *ids };

static struct learned latest = { .place = IDS };

void start_ptp4l_values(void) {
    latest.size = offsetof(struct learned, at) + (1 + clock_ports()) * sizeof latest.at[0];
}

static bool is_own(const uint8_t *identity) { return memcmp(identity, options->settings.identity, CLOCK_IDENTITY) == 0; }

static uint16_t port_asked(const struct heard *heard) { return number_at(heard->octets + TARGET_AT + CLOCK_IDENTITY); }

/* Which of the ids a GET of this clock, or of every clock, names; IDS if it is none of them. A file of --give comes first. */
static size_t id_asked(const struct heard *heard) {
    const uint8_t *octets = heard->octets;
    if (heard->size < LEAST_MESSAGE || (octets[ACTION_AT] & LOWER_HALF) != PTPM_GET || octets[DOMAIN_AT] != ptp4l_domain()) return IDS;
    if (!is_own(octets + TARGET_AT) && memcmp(octets + TARGET_AT, every_clock, CLOCK_IDENTITY) != 0) return IDS;
    uint16_t port = port_asked(heard);
    if (port != EVERY_PORT && (port == 0 || port > clock_ports())) return IDS;
    uint16_t id = number_at(octets + ID_AT);
    for (size_t i = 0; i < options->value_count; i++) {
        if (options->values[i].id == id) return IDS;
    }
    size_t place = 0;
    while (place < IDS && ids[place].id != id) place++;
    return place;
}

/* How many answers there are of a port: one, or that of each. */
static size_t answers_of(size_t place, uint16_t port) { return ids[place].is_of_port && port == EVERY_PORT ? clock_ports() : 1; }

/* currentUtcOffset, and the flags that are UTC's of those of TIME_PROPERTIES_DATA_SET. A ptp4l lacks UTC_PROPERTIES. */
static void make_utc_properties(uint8_t octets[4]) {
    enum { FLAGS_AT = 2, UTC_FLAGS = 7 };
    octets[FLAGS_AT] &= UTC_FLAGS;
    octets[FLAGS_AT + 1] = 0;
}

static bool take_value(size_t place, const struct ptp4l_answer *answer) {
    size_t at = ids[place].is_of_port ? answer->port : 0;
    if (answer->error != 0 || answer->size > PTPM_MOST_READ || at > clock_ports()) return false;
    memcpy(latest.at[at].octets, answer->field, latest.at[at].size = answer->size);
    if (ids[place].id == PTPM_ID_UTC_PROPERTIES && answer->size == 4) make_utc_properties(latest.at[at].octets);
    return true;
}

/* Whether the ptp4l has answered. It may have refused: then it has no value. */
static bool ask_value(size_t place, uint16_t port) {
    uint16_t id = ids[place].id, number;
    int64_t end = milliseconds() + PTP4L_PATIENCE;
    struct ptp4l_answer answer;
    if (!get_from_ptp4l(id == PTPM_ID_UTC_PROPERTIES ? PTPM_ID_TIME_PROPERTIES_DATA_SET : id, port, &number)) return false;
    for (size_t left = answers_of(place, port); left > 0; left--) {
        if (!hear_ptp4l(number, end, &answer)) return false;
        if (!take_value(place, &answer)) return id_name(id) == NULL;
    }
    return true;
}

static bool admit_question(struct heard *heard) {
    static struct ptpm_rate rate;
    if (!admit_answer_ahead(heard)) return false;
    if (is_of_manager(heard)) return true;
    if (rate.rate == 0) ptpm_rate_start(&rate, QUESTIONS, (uint64_t)milliseconds());
    return ptpm_rate_take(&rate, (uint64_t)milliseconds());
}

bool learn_value(struct heard *heard) {
    latest.place = id_asked(heard);
    if (latest.place == IDS) return true;
    for (size_t i = 0; i <= clock_ports(); i++) latest.at[i].size = 0;
    latest.is_known = admit_question(heard) && ask_value(latest.place, port_asked(heard));
    return latest.is_known || !is_own(heard->octets + TARGET_AT);
}

const struct learned *value_learned(void) { return &latest; }

/* The place of the value for an answer of this port. */
static size_t place_of(const struct learned *value, uint16_t port) { return ids[value->place].is_of_port && port <= clock_ports() ? port : 0; }

const struct ptpm_say *learned_to_give(const struct ptpm_clock *clock, const struct heard *heard) {
    static struct ptpm_say say;
    struct ptpm_question asked;
    if (latest.place == IDS || !latest.is_known || id_name(ids[latest.place].id) != NULL) return NULL;
    if (ptpm_clock_ask(clock, ingress_of(heard), heard->octets, heard->size, &asked) != PTPM_ASKED_VALUE) return NULL;
    size_t place = place_of(&latest, asked.port == EVERY_PORT ? ingress_of(heard) : asked.port);
    if (latest.at[place].size == 0) return NULL;
    say = (struct ptpm_say){ .kind = PTPM_GIVES, .size = (uint16_t)latest.at[place].size };
    memcpy(say.octets, latest.at[place].octets, latest.at[place].size);
    return &say;
}

/* Puts what was learned into an answer; whether it may be sent. An error stays as it is. */
static bool fill_answer(const struct learned *value, struct ptpm_sent *answer) {
    if (number_at(answer->octets + TLV_AT) == ERROR_TLV) return true;
    size_t place = place_of(value, number_at(answer->octets + SOURCE_PORT_AT)), size = value->at[place].size;
    if (size == 0) return false;
    memcpy(answer->octets + FIELD_AT, value->at[place].octets, size);
    put_number(answer->octets + TLV_AT + 2, size + 2);
    put_number(answer->octets + LENGTH_AT, LEAST_MESSAGE + size);
    answer->size = (uint16_t)(LEAST_MESSAGE + size);
    return true;
}

size_t show_value(const struct learned *value, const struct heard *heard, struct ptpm_sent *sent, size_t count) {
    size_t left = 0;
    if (value->place == IDS) return count;
    for (size_t i = 0; i < count; i++) {
        bool is_answer = sent[i].port == ingress_of(heard) && is_own(sent[i].octets + SOURCE_AT);
        if (is_answer && !(value->is_known && fill_answer(value, &sent[i]))) continue;
        if (left != i) sent[left] = sent[i];
        left++;
    }
    return left;
}
