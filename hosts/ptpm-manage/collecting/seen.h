/* Which clocks answered in a collection, and what each of them still lacks. Strangers may answer without end. So there is room
   for a number of clocks and answers, and what comes after that is counted. A clock that answered in two collections has room in the
   next one, even if others come before it. */
#pragma once

#include "domains.h"
#include <stdbool.h>
#include <stddef.h>
#include <stdint.h>

/* How many ids are collected at most. An id is named here by its place among them. */
enum { MOST_COLLECTED = 16, MOST_CLOCKS = 4096, MOST_EXPECTED = 2 * MOST_CLOCKS, MOST_KEPT = 65536 };

/* A clock that answered. */
struct seen_clock {
    uint8_t identity[8];
    struct domain domain;
    uint32_t collections;               /* in how many it answered, one after the other */
    uint16_t answered, refused;         /* a bit for each id: an answer or a refusal came; a refusal came */
    uint16_t port_count;                /* numberPorts, 0 until it is known */
    uint16_t ports[MOST_COLLECTED];     /* of an id of a port, how many ports answered */
    uint32_t answers, answers_before;   /* all of these answers; those that it had given when it was last asked by itself */
    bool is_asked, was_asked;           /* it was asked by itself since the last look at who was silent; it was ever */
    bool is_let_go;                     /* it is asked no more */
    uint32_t late;                      /* answers that came after the first round */
    uint16_t censuses, in_censuses;     /* in how many it was to answer; in how many it did */
    uint8_t in_round;                   /* a bit for each census of this round that it answered */
    bool is_expected;                   /* it was seen before this round */
};

/* An answer: who gave it, to what, and its content. Copies of it have the same sum. */
struct seen_answer {
    const uint8_t *clock;
    struct domain domain;
    unsigned id;                        /* its place */
    bool is_of_port;                    /* each port of the clock answers it */
    uint16_t port;                      /* that gave it, or of a PORT_DATA_SET the port that it describes */
    bool is_refusal;
    uint16_t port_count;                /* of a DEFAULT_DATA_SET; 0 otherwise */
    uint64_t sum;
};

/* FNV-1a of octets, from a sum on. */
static inline uint64_t sum_of(uint64_t sum, const void *octets, size_t size) {
    for (size_t i = 0; i < size; i++) sum = (sum ^ ((const uint8_t *)octets)[i]) * 0x100000001b3;
    return sum;
}

/* What an answer is. It is the first of its clock, id and port; or one that differs from that first; or a copy, or one more
   that differs. Or there is no room for it. */
enum seen { FIRST_SEEN, DIFFERENT, SEEN_BEFORE, NO_PLACE };

/* From now on no clock was seen. Those that are expected have room, if they are to have it. */
void see_none(bool has_expected);

/* From now on the clocks of the latest collection are expected; also those that are so by now, if they are to stay. */
void expect_seen(bool is_also);

/* The clock at a place among those that are expected; NULL after the last. */
const uint8_t *expected_clock(size_t place, struct domain *domain);

/* Notes an answer. */
enum seen see_answer(const struct seen_answer *answer);

/* Whether a clock was seen in a domain. */
bool is_seen(struct domain domain, const uint8_t clock[8]);

/* The clocks, in the order in which they came. */
size_t seen_count(void);
const struct seen_clock *seen_clock(size_t place);

/* How many clocks of a domain have answered more than a census. */
size_t answered_in(struct domain domain);

/* Whether it lacks an answer: one to the id at this place, or, to an id of a port, that of one of its ports. One that is asked no
   more lacks none. */
bool is_lacking(const struct seen_clock *clock, unsigned id, bool is_of_port);

/* Notes that a clock is asked by itself. */
void note_asked(size_t place);

/* Looks which of the clocks that were asked by themselves have given no new answer since. If they are more than `most`, they are
   asked no more; how many these are. */
size_t let_go_of_silent(size_t most);

/* Begins the rounds of domains that were not asked before. What comes before `begin_round` is of the first round. */
void begin_rounds(void);

/* Begins a later round, in which every clock is asked in a number of censuses whether it is there. Then ends it. */
void begin_round(void);
void end_round(unsigned censuses);

/* Notes that a clock answered this census of the round; whether it was not seen before. */
bool see_present(struct domain domain, const uint8_t clock[8], unsigned census);

/* Whether each clock that was seen before this round has answered a census of it, unless it heeds none. */
bool are_all_present(void);

/* Of these rounds, how many answers came after the first, and which share of what every clock was asked had no answer in its round. */
size_t late_answers(void);
double lost_share(void);

/* How many answers found no room, here or where they are kept otherwise. */
unsigned long unseen_answers(void);
void add_unseen(unsigned long count);
