#include "commands.h"
#include <string.h>

enum { HEAD = 54, CLOCK_OCTETS = 8, PORT_OCTETS = 10, SOURCE = 20, NUMBER = 30, TARGET = 34, HOPS = 44, ACTION = 46, TLV = 48, ID = 52 };
enum { GET = 0, RESPONSE = 2, COMMAND = 3, ACKNOWLEDGE = 4, MANAGEMENT = 1, ERROR_STATUS = 2, EVERY_PORT = 0xffff };

/* An answer, and whether it is due unless one before it is. */
struct judgement { bool holds; uint32_t answer; };

static const uint8_t every_clock[CLOCK_OCTETS] = { 0xff, 0xff, 0xff, 0xff, 0xff, 0xff, 0xff, 0xff };

static unsigned octet_at(const struct octets *octets, size_t place) { return place < octets->size ? octets->at[place] : 0; }

/* Octets past the last are 0. */
static unsigned number_at(const struct octets *octets, size_t place) { return 256 * octet_at(octets, place) + octet_at(octets, place + 1); }

static unsigned action_of(const struct octets *octets) { return octet_at(octets, ACTION) % 16; }
static bool is_reply(const struct octets *octets) { return action_of(octets) == RESPONSE || action_of(octets) == ACKNOWLEDGE; }

static bool has_clock(const struct octets *octets, size_t place, const uint8_t *clock) {
    return memcmp(octets->at + place, clock, CLOCK_OCTETS) == 0;
}

static uint32_t first_that_holds(const struct judgement *judgements) {
    while (!judgements->holds) judgements++;
    return judgements->answer;
}

uint32_t refusal_of(const struct octets *octets) {
    unsigned length = number_at(octets, 2), type = number_at(octets, TLV), field = number_at(octets, TLV + 2);
    bool is_fault = type == ERROR_STATUS;
    unsigned least = is_fault ? 8 : 2, text = octet_at(octets, 60);
    const struct judgement judgements[] = {
        { octets->size < HEAD, PTPM_TOO_SHORT },
        { octet_at(octets, 0) % 16 != 13, PTPM_NOT_MANAGEMENT },
        { octet_at(octets, 1) % 16 != 2, PTPM_BAD_VERSION },
        { length < HEAD || length > octets->size || length > PTPM_MOST_OCTETS, PTPM_BAD_LENGTH },
        { action_of(octets) > ACKNOWLEDGE, PTPM_BAD_ACTION },
        { type != MANAGEMENT && !(is_fault && is_reply(octets)), PTPM_BAD_TLV_TYPE },
        { field % 2 == 1 || field < least || TLV + 4 + field != length, PTPM_BAD_TLV_LENGTH },
        { is_fault && field != 8 && field != 8 + (text + 2) / 2 * 2, PTPM_BAD_TEXT },
        { true, 0 },
    };
    return first_that_holds(judgements);
}

static bool is_for_this(const struct start *clock, const struct octets *octets) {
    return has_clock(octets, TARGET, clock->clock.identity);
}

/* Whether its target is a port of the clock, or every port. */
static bool is_addressed(const struct start *clock, const struct octets *octets) {
    unsigned port = number_at(octets, TARGET + CLOCK_OCTETS);
    return (is_for_this(clock, octets) || has_clock(octets, TARGET, every_clock)) &&
           (port == EVERY_PORT || (port >= 1 && port <= clock->port_count));
}

static bool is_of_a_manager(const struct start *clock, const struct octets *octets) {
    for (size_t i = 0; i < clock->managers.count; i++) {
        const struct ptpm_manager_settings *manager = &clock->managers.of[i];
        if (has_clock(octets, SOURCE, manager->clock) && number_at(octets, SOURCE + CLOCK_OCTETS) == manager->port) return true;
    }
    return false;
}

/* Whether it asks what another request asks: action, target port, id and dataField. */
static bool asks_the_same(const struct octets *octets, const struct octets *other) {
    unsigned length = number_at(octets, 2);
    return action_of(octets) == action_of(other) && length == number_at(other, 2) &&
           number_at(octets, TARGET + CLOCK_OCTETS) == number_at(other, TARGET + CLOCK_OCTETS) &&
           memcmp(octets->at + ID, other->at + ID, length - ID) == 0;
}

uint32_t due_answer(const struct start *clock, const struct octets *taken, const struct octets *octets) {
    uint32_t cause = refusal_of(octets);
    if (cause != 0) return cause;
    bool is_numbered = is_for_this(clock, octets) && is_of_a_manager(clock, octets), was_taken = taken->size > 0;
    unsigned ahead = (number_at(octets, NUMBER) - number_at(taken, NUMBER)) & 0xffff;
    bool is_repeat = was_taken && is_numbered && is_addressed(clock, octets) && !is_reply(octets) && ahead == 0 &&
                     asks_the_same(octets, taken);
    const struct judgement judgements[] = {
        { octet_at(octets, 0) >= 16 || octet_at(octets, 5) != 0, PTPM_OTHER_DOMAIN },
        { is_repeat, PTPM_ANSWERED_REPEAT },
        { octet_at(octets, 4) != 0, PTPM_OTHER_DOMAIN },
        { has_clock(octets, SOURCE, clock->clock.identity), PTPM_OWN_MESSAGE },
        { !is_addressed(clock, octets), PTPM_NOT_ADDRESSED },
        { is_reply(octets), PTPM_NOT_A_REQUEST },
        { !is_numbered, PTPM_ANSWERED_UNNUMBERED },
        { was_taken && ahead == 0, PTPM_DROPPED_CONFLICT },
        { was_taken && ahead >= 0x8000, PTPM_DROPPED_OLD },
        { true, PTPM_ANSWERED_NEW },
    };
    return first_that_holds(judgements);
}

/* Whether this is the message with boundaryHops decremented, and nothing after it, at port 2. */
static bool is_copy(const struct octets *octets, const struct ptpm_sent *sent) {
    size_t length = number_at(octets, 2), hops = HOPS + 1;
    return sent->port == 2 && sent->size == length && memcmp(sent->octets, octets->at, hops) == 0 &&
           sent->octets[hops] == octets->at[hops] - 1 && memcmp(sent->octets + hops + 1, octets->at + hops + 1, length - hops - 1) == 0;
}

/* Whether this is a reply of the clock to the request, at port 1. It goes to its source, in its domain, with its number and id, and
   with as many hops as it has lost. */
static bool is_reply_to(const struct start *clock, const struct octets *octets, const struct ptpm_sent *sent) {
    unsigned starting = octet_at(octets, HOPS), hops = octet_at(octets, HOPS + 1), lost = starting > hops ? starting - hops : 0;
    unsigned action = action_of(octets) == COMMAND ? ACKNOWLEDGE : RESPONSE;
    const uint8_t *reply = sent->octets;
    size_t id = reply[TLV + 1] == MANAGEMENT ? ID : ID + 2;
    return sent->port == 1 && sent->size >= HEAD && memcmp(reply + SOURCE, clock->clock.identity, CLOCK_OCTETS) == 0 &&
           memcmp(reply + TARGET, octets->at + SOURCE, PORT_OCTETS) == 0 && reply[4] == octets->at[4] &&
           memcmp(reply + NUMBER, octets->at + NUMBER, 2) == 0 && reply[HOPS] == lost && reply[HOPS + 1] == lost &&
           reply[ACTION] == action && memcmp(reply + id, octets->at + ID, 2) == 0;
}

bool are_due(const struct start *clock, const struct octets *octets, uint32_t answer, const struct ptpm_sent *sent, size_t count) {
    bool is_message = refusal_of(octets) == 0 && octet_at(octets, 0) < 16 && octet_at(octets, 4) == 0 && octet_at(octets, 5) == 0;
    bool is_passed_on = is_message && !has_clock(octets, SOURCE, clock->clock.identity) && !is_for_this(clock, octets) &&
                        octet_at(octets, HOPS + 1) != 0;
    bool is_answered = answer == PTPM_ANSWERED_NEW || answer == PTPM_ANSWERED_REPEAT || answer == PTPM_ANSWERED_UNNUMBERED;
    if (is_passed_on) {
        if (count == 0 || !is_copy(octets, sent)) return false;
        sent++;
        count--;
    }
    for (size_t i = 0; i < count; i++) {
        if (!is_reply_to(clock, octets, &sent[i])) return false;
    }
    return (count > 0) == is_answered;
}
