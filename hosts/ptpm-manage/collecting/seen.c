#include "seen.h"
#include "random.h"
#include <string.h>

/* Half of the places stay free. */
enum { CLOCK_PLACES = 2 * (MOST_CLOCKS + MOST_EXPECTED), ANSWER_PLACES = 2 * MOST_KEPT };

/* A clock that answered in this many collections has room in the next one, and so have this many answers of it. */
enum { KNOWN_AFTER = 2, ANSWERS_OF_KNOWN = MOST_KEPT / MOST_CLOCKS };

/* A clock that is in none of this many censuses heeds only requests to one clock. */
enum { LEAST_CENSUSES = 3 };

/* The first answer of a clock's port to an id. */
struct first_answer {
    uint64_t sum;
    uint32_t clock;                     /* its place plus one; 0 in a place that is free */
    uint16_t port;
    uint8_t id;
    bool is_different;                  /* another answer that differs came */
};

static struct seen_clock clocks[MOST_CLOCKS];
static struct expected_clock { uint8_t identity[8]; struct domain domain; uint32_t collections; } expected[MOST_EXPECTED];
static uint32_t clock_places[CLOCK_PLACES];         /* of a clock, plus one; past MOST_CLOCKS of an expected one that has not answered */
static struct first_answer answers[ANSWER_PLACES];
static size_t clock_count, answer_count, expected_count;
static size_t known_count, known_to_come, answers_of_known;     /* expected clocks that have room; those that have not answered */
static size_t first_of_rounds;                      /* the place of the first clock of these rounds */
static bool is_later_round;
static unsigned long not_kept;
static uint64_t seed;                               /* which nobody else knows, so that nobody fills one place again and again */

static uint64_t mix(uint64_t word) {
    word ^= seed;
    word = (word ^ (word >> 30)) * 0xbf58476d1ce4e5b9;
    word = (word ^ (word >> 27)) * 0x94d049bb133111eb;
    return word ^ (word >> 31);
}

/* Whether a place with this number has the clock. */
static bool is_of(uint32_t number, struct domain domain, const uint8_t identity[8]) {
    if (number <= MOST_CLOCKS) {
        const struct seen_clock *seen = &clocks[number - 1];
        return is_same_domain(seen->domain, domain) && memcmp(seen->identity, identity, 8) == 0;
    }
    const struct expected_clock *one = &expected[number - MOST_CLOCKS - 1];
    return is_same_domain(one->domain, domain) && memcmp(one->identity, identity, 8) == 0;
}

/* The place that a clock has, or may take. */
static size_t place_of_clock(struct domain domain, const uint8_t clock[8]) {
    uint64_t identity;
    memcpy(&identity, clock, sizeof identity);
    size_t place = mix(mix(identity) + ((uint64_t)domain.sdo << 8 | domain.number)) % CLOCK_PLACES;
    while (clock_places[place] != 0 && !is_of(clock_places[place], domain, clock)) place = (place + 1) % CLOCK_PLACES;
    return place;
}

void see_none(bool has_expected) {
    if (seed == 0) draw_octets((uint8_t *)&seed, sizeof seed);
    memset(clock_places, 0, sizeof clock_places);
    memset(answers, 0, sizeof answers);
    clock_count = answer_count = known_count = answers_of_known = 0;
    not_kept = 0;
    for (size_t i = 0; has_expected && i < expected_count; i++) {
        clock_places[place_of_clock(expected[i].domain, expected[i].identity)] = (uint32_t)(MOST_CLOCKS + 1 + i);
        known_count += known_count < MOST_CLOCKS && expected[i].collections >= KNOWN_AFTER;
    }
    known_to_come = known_count;
}

/* A clock that was expected has answered in more collections than this one. */
void expect_seen(bool is_also) {
    if (!is_also) expected_count = 0;
    for (size_t place = 0; place < clock_count && expected_count < MOST_EXPECTED; place++) {
        const struct seen_clock *clock = &clocks[place];
        if (is_also && clock->collections > 1) continue;
        expected[expected_count] = (struct expected_clock){ .domain = clock->domain, .collections = clock->collections };
        memcpy(expected[expected_count++].identity, clock->identity, 8);
    }
}

const uint8_t *expected_clock(size_t place, struct domain *domain) {
    if (place >= expected_count) return NULL;
    *domain = expected[place].domain;
    return expected[place].identity;
}

/* The number of a clock, which is a new one if it wasn't seen yet: from 1 on; 0 if there is no room. */
static uint32_t number_of_clock(struct domain domain, const uint8_t identity[8]) {
    uint32_t *number = &clock_places[place_of_clock(domain, identity)];
    if (*number != 0 && *number <= MOST_CLOCKS) return *number;
    uint32_t collections = *number == 0 ? 0 : expected[*number - MOST_CLOCKS - 1].collections;
    if (known_to_come > 0 && collections >= KNOWN_AFTER) known_to_come--;
    else if (clock_count + known_to_come == MOST_CLOCKS) return 0;
    struct seen_clock *clock = &clocks[clock_count++];
    *clock = (struct seen_clock){ .domain = domain, .collections = collections + 1 };
    memcpy(clock->identity, identity, 8);
    return *number = (uint32_t)clock_count;
}

static struct first_answer *place_of_answer(uint32_t clock, const struct seen_answer *answer) {
    size_t place = mix((uint64_t)clock << 32 | (uint32_t)answer->id << 16 | answer->port) % ANSWER_PLACES;
    for (; answers[place].clock != 0; place = (place + 1) % ANSWER_PLACES) {
        const struct first_answer *one = &answers[place];
        if (one->clock == clock && one->id == answer->id && one->port == answer->port) break;
    }
    return &answers[place];
}

static void note(struct seen_clock *clock, const struct seen_answer *answer) {
    uint16_t bit = (uint16_t)(1 << answer->id);
    clock->answered |= bit;
    clock->answers++;
    clock->late += is_later_round;
    if (answer->is_refusal) clock->refused |= bit;
    else if (answer->is_of_port && answer->port != 0) clock->ports[answer->id]++;
    if (answer->port_count != 0) clock->port_count = answer->port_count;
}

/* Whether there is room for one more answer. */
static bool has_room(bool is_of_known) {
    return answer_count < MOST_KEPT && (is_of_known || answer_count - answers_of_known + ANSWERS_OF_KNOWN * known_count < MOST_KEPT);
}

enum seen see_answer(const struct seen_answer *answer) {
    uint32_t clock = number_of_clock(answer->domain, answer->clock);
    struct first_answer *kept = clock == 0 ? NULL : place_of_answer(clock, answer);
    bool is_of_known = clock != 0 && clocks[clock - 1].collections > KNOWN_AFTER;
    if (kept == NULL || (kept->clock == 0 && !has_room(is_of_known))) {
        not_kept++;
        return NO_PLACE;
    }
    if (kept->clock == 0) {
        answer_count++;
        answers_of_known += is_of_known;
        *kept = (struct first_answer){ .sum = answer->sum, .clock = clock, .port = answer->port, .id = (uint8_t)answer->id };
        note(&clocks[clock - 1], answer);
        return FIRST_SEEN;
    }
    if (kept->is_different || kept->sum == answer->sum) return SEEN_BEFORE;
    kept->is_different = true;
    return DIFFERENT;
}

bool is_seen(struct domain domain, const uint8_t clock[8]) {
    uint32_t number = clock_places[place_of_clock(domain, clock)];
    return number != 0 && number <= MOST_CLOCKS;
}

size_t seen_count(void) { return clock_count; }

const struct seen_clock *seen_clock(size_t place) { return &clocks[place]; }

size_t answered_in(struct domain domain) {
    size_t count = 0;
    for (const struct seen_clock *clock = clocks; clock < clocks + clock_count; clock++) {
        count += is_same_domain(clock->domain, domain) && clock->answered != 0;
    }
    return count;
}

bool is_lacking(const struct seen_clock *clock, unsigned id, bool is_of_port) {
    if (clock->is_let_go) return false;
    if ((clock->answered >> id & 1) == 0) return true;
    return is_of_port && (clock->refused >> id & 1) == 0 && clock->ports[id] < clock->port_count;
}

void note_asked(size_t place) {
    struct seen_clock *clock = &clocks[place];
    if (clock->is_asked) return;
    clock->is_asked = clock->was_asked = true;
    clock->answers_before = clock->answers;
}

static bool is_silent(const struct seen_clock *clock) {
    return clock->is_asked && clock->answers == clock->answers_before;
}

size_t let_go_of_silent(size_t most) {
    size_t silent = 0;
    for (size_t place = 0; place < clock_count; place++) silent += is_silent(&clocks[place]);
    for (size_t place = 0; place < clock_count; place++) {
        if (silent > most && is_silent(&clocks[place])) clocks[place].is_let_go = true;
        clocks[place].is_asked = false;
    }
    return silent > most ? silent : 0;
}

void begin_rounds(void) {
    first_of_rounds = clock_count;
    is_later_round = false;
}

void begin_round(void) {
    is_later_round = true;
    for (size_t place = first_of_rounds; place < clock_count; place++) {
        clocks[place].is_expected = true;
        clocks[place].in_round = 0;
    }
}

void end_round(unsigned censuses) {
    for (size_t place = first_of_rounds; place < clock_count; place++) {
        struct seen_clock *clock = &clocks[place];
        if (!clock->is_expected) continue;
        clock->censuses = (uint16_t)(clock->censuses + censuses);
        clock->in_censuses = (uint16_t)(clock->in_censuses + __builtin_popcount(clock->in_round));
    }
}

bool see_present(struct domain domain, const uint8_t clock[8], unsigned census) {
    size_t count_before = clock_count;
    uint32_t number = number_of_clock(domain, clock);
    if (number == 0) not_kept++;
    else clocks[number - 1].in_round |= (uint8_t)(1 << census);
    return clock_count > count_before;
}

size_t late_answers(void) {
    size_t late = 0;
    for (size_t place = first_of_rounds; place < clock_count; place++) late += clocks[place].late;
    return late;
}

/* Whether it heeds what every clock is asked, as far as is known: some heed only requests to one clock. */
static bool answers_all(const struct seen_clock *clock) {
    return !clock->is_let_go && (clock->in_censuses > 0 || clock->censuses < LEAST_CENSUSES);
}

bool are_all_present(void) {
    for (size_t place = first_of_rounds; place < clock_count; place++) {
        const struct seen_clock *clock = &clocks[place];
        if (clock->is_expected && answers_all(clock) && clock->in_round == 0) return false;
    }
    return true;
}

double lost_share(void) {
    size_t asked = 0, lost = 0;
    for (size_t place = first_of_rounds; place < clock_count; place++) {
        const struct seen_clock *clock = &clocks[place];
        if (!answers_all(clock)) continue;
        asked += clock->answers + clock->censuses;
        lost += clock->late + clock->censuses - clock->in_censuses;
    }
    return asked == 0 ? 0 : (double)lost / (double)asked;
}

unsigned long unseen_answers(void) { return not_kept; }

void add_unseen(unsigned long count) { not_kept += count; }
