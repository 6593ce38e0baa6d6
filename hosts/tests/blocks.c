/* blocks: clocks, sessions, surveys and askers in a block of the host's own (ptpm_memory.h). Each has the room that the header says, in any
   order of calls. One octet less is refused by PTPM_NO_MEMORY, and changes nothing. What is stopped is given back whole, whatever was
   left in it, and so is what a refused start was for. Prints what does not hold and `blocks: N passed, M failed`; its status is 1 if one
   failed. */
#include "checking.h"
#include "ptpm.h"
#include "ptpm_memory.h"
#include <stdbool.h>
#include <stdlib.h>
#include <string.h>

enum { CLOCKS = 3, FEW_PORTS = 8, FEW_MANAGERS = 16, TIMES = 10000, MOST_FIELD = 1418, HEAD = 54 };
enum { ROOM = CLOCKS * PTPM_CLOCK_MEMORY_OF(PTPM_MOST_PORTS, PTPM_MOST_MANAGERS) + 4 * PTPM_SESSION_MEMORY + PTPM_SURVEY_MEMORY(PTPM_MOST_ANSWERS, 1418) };

static const uint8_t manager[8] = { 0x00, 0x11, 0x22, 0x33, 0x44, 0x55, 0x66, 0x77 };
static const uint8_t target[8] = { 0xaa, 0xbb, 0xcc, 0xff, 0xfe, 0xdd, 0xee, 0x01 };
static const uint8_t field[MOST_FIELD];
static __attribute__((aligned(16))) uint8_t block[ROOM];
static uint8_t octets[PTPM_MOST_OCTETS], image[PTPM_CLOCK_IMAGE_BOUND(PTPM_MOST_PORTS, PTPM_MOST_MANAGERS)];
static struct ptpm_clock clocks[CLOCKS];
static struct ptpm_session session;
static struct ptpm_survey survey;
static struct ptpm_asker asker;
static uint16_t next_number;            /* of the session's next request */

static unsigned below(unsigned limit) { return (unsigned)rand() % limit; }

/* An answer of this many octets of USER_DESCRIPTION, to the manager, from port 1 of a clock (IEEE 1588-2019, 15.4.1). */
static size_t answer_of(uint16_t number, uint16_t source, size_t size) {
    size_t whole = HEAD + size;
    memset(octets, 0, sizeof octets);
    memcpy(octets, (const uint8_t[]){ 0x0d, 0x12, (uint8_t)(whole >> 8), (uint8_t)whole }, 4);
    memcpy(octets + 20, target, 6);
    memcpy(octets + 26, (const uint8_t[]){ (uint8_t)(source >> 8), (uint8_t)source, 0, 1, (uint8_t)(number >> 8), (uint8_t)number }, 6);
    memcpy(octets + 34, manager, 8);
    memcpy(octets + 42, (const uint8_t[]){ 0, 1, 0, 0, 2, 0, 0, 1, (uint8_t)((size + 2) >> 8), (uint8_t)(size + 2), 0, 2 }, 12);
    return whole;
}

static struct ptpm_manager_settings managers[PTPM_MOST_MANAGERS];
static size_t clock_ports = FEW_PORTS, clock_managers = FEW_MANAGERS;   /* how many a clock has */

static size_t clock_room(void) { return PTPM_CLOCK_MEMORY_OF(clock_ports, clock_managers); }

static enum ptpm_started start_clock(struct ptpm_clock *clock) {
    struct ptpm_clock_settings settings;
    struct ptpm_port_settings ports[PTPM_MOST_PORTS];
    ptpm_clock_defaults(&settings);
    memcpy(settings.identity, target, 8);
    for (size_t i = 0; i < clock_ports; i++) ptpm_port_defaults(&ports[i]);
    return ptpm_clock_start(clock, &settings, ports, clock_ports, managers, clock_managers);
}

static enum ptpm_restored restore_clock(struct ptpm_clock *clock, const struct ptpm_clock *from) {
    size_t size, gone;
    if (ptpm_clock_image(from, image, sizeof image, &size) != PTPM_SAVED) return PTPM_NOT_AN_IMAGE;
    return ptpm_clock_restore(clock, target, clock_ports, managers, clock_managers, image, size, &gone);
}

static bool holds_clock(const struct ptpm_clock *clock) {
    size_t size;
    return ptpm_clock_read(clock, PTPM_ID_PRIORITY1, 0, octets, sizeof octets, &size) == PTPM_READ && octets[0] == 128;
}

static struct ptpm_session_settings of_session(void) {
    struct ptpm_session_settings settings = { .port = 1, .target_ports = 1, .first = 7, .hops = 1, .attempts = 2 };
    memcpy(settings.clock, manager, 8);
    memcpy(settings.target, target, 8);
    return settings;
}

static enum ptpm_started start_session(void) {
    struct ptpm_session_settings settings = of_session();
    next_number = 7;
    return ptpm_session_start(&session, &settings);
}

/* The power fails, and the session goes on from its image. */
static enum ptpm_restored restart_session(void) {
    struct ptpm_session_settings settings = of_session();
    size_t size;
    if (ptpm_session_image(&session, image, sizeof image, &size) != PTPM_SAVED) return PTPM_NOT_AN_IMAGE;
    ptpm_session_stop(&session);
    return ptpm_session_restore(&session, &settings, image, size);
}

static enum ptpm_begun begin(size_t size) {
    enum ptpm_begun answer = ptpm_session_begin(&session, PTPM_SET, PTPM_ID_USER_DESCRIPTION, 0, field, size);
    if (answer == PTPM_BEGUN) next_number++;
    return answer;
}

/* Has the session's request answered by this many octets. */
static enum ptpm_session_received receive(size_t size) {
    size_t whole = answer_of((uint16_t)(next_number - 1), 0xee01, size);
    return ptpm_session_receive(&session, octets, whole);
}

static struct ptpm_survey_settings of_survey(void) {
    struct ptpm_survey_settings settings = { .port = 1, .number = 7, .id = PTPM_ID_USER_DESCRIPTION, .hops = 1 };
    memcpy(settings.clock, manager, 8);
    return settings;
}

static enum ptpm_started start_survey(void) {
    struct ptpm_survey_settings settings = of_survey();
    return ptpm_survey_start(&survey, &settings);
}

static enum ptpm_survey_received survey_receive(uint16_t source, size_t size) {
    size_t whole = answer_of(7, source, size);
    return ptpm_survey_receive(&survey, octets, whole);
}

static const uint8_t drawn[26];

static struct ptpm_asker_settings of_asker(void) {
    return (struct ptpm_asker_settings){ .session = of_session(), .nobody = 61440, .timeout = 200, .wait = 3000 };
}

static enum ptpm_started start_asker(void) {
    struct ptpm_asker_settings settings = of_asker();
    return ptpm_asker_start(&asker, &settings, drawn);
}

/* The power fails, and the asker goes on from its image: with the request that it has, if there is one. */
static enum ptpm_asked restart_asker(uint64_t now, struct ptpm_handed *next) {
    struct ptpm_asker_settings settings = of_asker();
    size_t size;
    uint8_t there;
    next->what = PTPM_NOTHING;
    ptpm_asker_image(&asker, image, sizeof image, &size);
    ptpm_asker_stop(&asker);
    if (ptpm_asker_restore(&asker, &settings, drawn, image, size) != PTPM_ASKER_RESTORED) return PTPM_ASK_NO_MEMORY;
    return ptpm_asker_earlier(&asker, 0, &there) < PTPM_GET_LEFT ? PTPM_ASKED : ptpm_asker_settle(&asker, now, 1, 0, next);
}

/* Has the message that the asker handed out answered by this many octets of its id. */
static enum ptpm_asked answer_it(size_t field_size, struct ptpm_handed *next) {
    size_t size;
    uint8_t id[2];
    ptpm_asker_message(&asker, octets, sizeof octets, &size);
    memcpy(id, octets + 52, 2);
    size = answer_of((uint16_t)(octets[30] << 8 | octets[31]), 0xee01, field_size);
    memcpy(octets + 52, id, 2);
    return ptpm_asker_hear(&asker, octets, size, next);
}

/* Has the asker ask this many octets, and has what it sends answered by others. At some saves the power fails. */
static enum ptpm_asked ask(size_t size, uint64_t *now) {
    struct ptpm_handed next;
    bool is_answered = false;
    enum ptpm_asked answer = ptpm_asker_ask(&asker, *now, 1, PTPM_SET, PTPM_ID_USER_DESCRIPTION, 0, field, size, 0, &next);
    while (answer == PTPM_ASKED && !(is_answered && next.what == PTPM_NOTHING)) {
        switch (next.what) {
        case PTPM_NOTE_ANSWER: is_answered = true; /* fall through */
        case PTPM_NOTE_BEGUN: answer = ptpm_asker_noted(&asker, &next); continue;
        case PTPM_SAVE_IT:
            if (below(6) > 0) answer = ptpm_asker_saved(&asker, *now, &next);
            else answer = restart_asker(*now, &next), is_answered = next.what == PTPM_NOTHING;
            continue;
        case PTPM_SEND_IT: answer = answer_it(2 * below(MOST_FIELD / 2 + 1), &next); continue;
        default: *now += 3000;
        }
        answer = ptpm_asker_wake(&asker, *now, &next);
    }
    return answer;
}

static void stop_all(void) {
    for (int i = 0; i < CLOCKS; i++) ptpm_clock_stop(&clocks[i]);
    ptpm_session_stop(&session);
    ptpm_survey_stop(&survey);
    ptpm_asker_stop(&asker);
    check(ptpm_memory_taken() == 0, "what is stopped is given back");
}

/* A message waits in a clock that is then started again. A start that is refused leaves nothing. */
static void left_clocks(void) {
    static const struct ptpm_say agrees;
    static struct ptpm_sent sent[PTPM_MOST_SENT_OF(FEW_PORTS)];
    uint8_t request[HEAD] = { 0x0d, 0x12, 0, HEAD, [29] = 1, [31] = 7, [42] = 0xff, 0xff, [49] = 1, [51] = 2, 0x20, 0x05 };
    struct ptpm_taken taken = { 0 };
    size_t size;
    uint64_t token;
    memcpy(request + 20, manager, 8);
    memcpy(request + 34, target, 8);
    ptpm_memory_give(block, ROOM);
    for (int times = 0; times < 2; times++) {
        check(start_clock(&clocks[0]) == PTPM_STARTED && ptpm_clock_saving(&clocks[0], PTPM_MOST_SENT) == PTPM_SAVING
              && ptpm_clock_image_of(&clocks[0], image, sizeof image, &size, &token) == PTPM_SAVED
              && ptpm_clock_saved(&clocks[0], token) == PTPM_SAVED, "a clock that saves");
        ptpm_clock_take(&clocks[0], 1, request, sizeof request, &agrees, 0, sent, PTPM_MOST_SENT_OF(FEW_PORTS), &taken);
        check(taken.waiting == 1, "a message that waits");
    }
    managers[1].port = managers[0].port;
    check(start_clock(&clocks[0]) == PTPM_MANAGER_TWICE && !holds_clock(&clocks[0]), "a start of a clock that is refused");
    managers[1].port = 2;
    check(ptpm_memory_taken() == 0, "what it was for is given back");
    stop_all();
}

/* The others are started again while they have a request or answers. A restore that is refused leaves the asker as it was. */
static void left_managers(void) {
    struct ptpm_survey_settings of_every = of_survey();
    struct ptpm_asker_settings settings = of_asker();
    struct ptpm_handed next;
    size_t size;
    ptpm_memory_give(block, ROOM);
    for (int times = 0; times < 2; times++) {
        check(start_session() == PTPM_STARTED && begin(128) == PTPM_BEGUN && receive(128) == PTPM_ANSWERED, "a session that was answered");
        check(begin(3) == PTPM_BAD_VALUE && begin(128) == PTPM_BEGUN && ptpm_session_give_up(&session) == PTPM_GIVEN_UP
              && begin(128) == PTPM_BEGUN, "a session that asks");
        check(start_survey() == PTPM_STARTED && survey_receive(1, 2) == PTPM_TAKEN && survey_receive(1, 2) == PTPM_AGAIN, "a survey with an answer");
        check(start_asker() == PTPM_STARTED && ptpm_asker_ask(&asker, 0, 1, PTPM_SET, PTPM_ID_USER_DESCRIPTION, 0, field, 128, 0, &next)
              == PTPM_ASKED && restart_asker(0, &next) == PTPM_ASKED, "an asker that asks");
    }
    ptpm_asker_image(&asker, image, sizeof image, &size);
    check((uint32_t)ptpm_asker_restore(&asker, &settings, drawn, image, size - 1) == PTPM_DAMAGED
          && ptpm_asker_image(&asker, image, sizeof image, &size) == PTPM_ASKED, "a restore of an asker that is refused");
    settings.session.target_ports = 0;
    memset(of_every.clock, 0xff, 8);
    check(ptpm_session_start(&session, &settings.session) == PTPM_NO_PORTS && ptpm_survey_start(&survey, &of_every) == PTPM_MANAGER_IS_EVERY
          && ptpm_asker_start(&asker, &settings, drawn) == PTPM_NO_PORTS && ptpm_memory_taken() == 0, "starts that are refused");
    stop_all();
}

static void nothing_given(void) {
    check(start_clock(&clocks[0]) == PTPM_START_NO_MEMORY && start_session() == PTPM_START_NO_MEMORY
          && start_survey() == PTPM_START_NO_MEMORY, "no start without a block");
    check(!ptpm_memory_give(block, 31) && !ptpm_memory_give(block + 1, 46), "a block that is too small");
    check(ptpm_memory_give(block + 1, 47), "a block that is just large enough");
    stop_all();
}

static void given_again(void) {
    check(ptpm_memory_give(block + 16, PTPM_CLOCK_MEMORY) && start_clock(&clocks[0]) == PTPM_STARTED, "a clock in its block");
    check(!ptpm_memory_give(block, ROOM) && holds_clock(&clocks[0]), "another block while one is used");
    check(ptpm_memory_taken() == PTPM_CLOCK_MEMORY, "what a clock takes");
    stop_all();
    check(ptpm_memory_most_taken() == PTPM_CLOCK_MEMORY, "what was taken at most");
    check(ptpm_memory_give(block, ROOM) && ptpm_memory_most_taken() == 0, "another block after it");
}

/* A clock takes what the header says of its managers, and no octet less. */
static void exact_managers(void) {
    for (clock_managers = 0; clock_managers <= PTPM_MOST_MANAGERS; clock_managers++) {
        ptpm_memory_give(block, clock_room() - 1);
        check(start_clock(&clocks[0]) == PTPM_START_NO_MEMORY, "a clock in one octet less than its managers take");
        stop_all();
        ptpm_memory_give(block, clock_room());
        check(start_clock(&clocks[0]) == PTPM_STARTED && ptpm_memory_taken() == clock_room(), "what a clock takes with its managers");
        stop_all();
    }
    clock_managers = FEW_MANAGERS;
    check(clock_room() == PTPM_CLOCK_MEMORY, "what a clock of few ports takes at most");
}

/* So many clocks in a block for them; and in one octet less one fewer, until another is stopped. */
static void exact_clocks(int all) {
    int last = all - 1;
    ptpm_memory_give(block, (size_t)all * clock_room());
    for (int i = 0; i < all; i++) check(start_clock(&clocks[i]) == PTPM_STARTED, "a clock in its share of a block");
    check(restore_clock(&clocks[0], &clocks[last]) == PTPM_RESTORE_NO_MEMORY && holds_clock(&clocks[0]), "no room for both clocks");
    stop_all();
    ptpm_memory_give(block, (size_t)all * clock_room() - 1);
    for (int i = 0; i < last; i++) check(start_clock(&clocks[i]) == PTPM_STARTED, "a clock in its share of a smaller block");
    check(start_clock(&clocks[last]) == PTPM_START_NO_MEMORY, "a clock in one octet less");
    for (int i = 0; i < last; i++) check(holds_clock(&clocks[i]), "the clocks beside one that was refused");
    ptpm_clock_stop(&clocks[0]);
    check(last == 0 || start_clock(&clocks[last]) == PTPM_STARTED, "a clock in the place of another");
    stop_all();
}

/* Clocks that are started, started again, restored and stopped without end, in a block for just this many. */
static void endless_clocks(int times) {
    unsigned refused = 0;
    ptpm_memory_give(block, CLOCKS * clock_room());
    for (int i = 0; i < times; i++) {
        struct ptpm_clock *one = &clocks[below(CLOCKS)], *other = &clocks[below(CLOCKS)];
        if (below(3) == 0) ptpm_clock_stop(one);
        else if (one->at == NULL && other->at != NULL) refused += restore_clock(one, other) != PTPM_RESTORED;
        else refused += start_clock(one) != PTPM_STARTED;
    }
    check(refused == 0, "no start is refused, whatever was stopped before it");
    stop_all();
}

/* A start of a clock of many ports in a block that grows by one unit each time until none of its blocks is refused. */
static size_t least_room(void) {
    size_t room = 32;
    for (;; room += 16) {
        ptpm_memory_give(block, room);
        enum ptpm_started answer = start_clock(&clocks[0]);
        check(answer == PTPM_STARTED || (answer == PTPM_START_NO_MEMORY && ptpm_memory_taken() == 0), "a start that is refused holds nothing");
        if (answer == PTPM_STARTED) return room;
    }
}

static void many_ports(void) {
    static const size_t ports[] = { 9, 24, 28, PTPM_MOST_PORTS }, counts[] = { 0, 1, 4, FEW_MANAGERS, PTPM_MOST_MANAGERS };
    for (size_t i = 0; i < sizeof ports / sizeof *ports; i++) {
        for (size_t k = 0; k < sizeof counts / sizeof *counts; k++) {
            clock_ports = ports[i];
            clock_managers = counts[k];
            check(least_room() <= clock_room() && holds_clock(&clocks[0]), "a clock of many ports in its block");
            stop_all();
            endless_clocks(TIMES / 10);
        }
    }
    clock_ports = FEW_PORTS;
    clock_managers = FEW_MANAGERS;
}

/* The order of requests and answers that leaves the least room. A restart has a request of 1,408 octets, and an answer of as many comes.
   Then come the largest of both, for which the places of the first two are too small. */
static uint32_t worst_order(void) {
    if (start_session() != PTPM_STARTED || begin(1408) != PTPM_BEGUN || restart_session() != PTPM_RESTORED) return PTPM_OTHER_SIZES;
    if (receive(1408) != PTPM_ANSWERED || begin(MOST_FIELD) != PTPM_BEGUN) return PTPM_OTHER_SIZES;
    return receive(MOST_FIELD);
}

static void exact_session(void) {
    unsigned refused = 0;
    ptpm_memory_give(block, PTPM_SESSION_MEMORY - 1);
    check(worst_order() == PTPM_NO_MEMORY, "an answer in one octet less than a session takes");
    check(ptpm_session_issued(&session) == 2 && receive(1408) == PTPM_ANSWERED, "a smaller answer after it");
    stop_all();
    ptpm_memory_give(block, PTPM_SESSION_MEMORY);
    check(worst_order() == PTPM_ANSWERED, "the largest requests of a session");
    for (int i = 0; i < TIMES; i++) {
        refused += below(100) == 0 && start_session() != PTPM_STARTED;
        refused += begin(2 * below(MOST_FIELD / 2 + 1)) != PTPM_BEGUN || (below(4) == 0 && restart_session() != PTPM_RESTORED)
                   || receive(2 * below(MOST_FIELD / 2 + 1)) != PTPM_ANSWERED;
    }
    check(refused == 0, "no request and no answer of a session is refused");
    stop_all();
}

static void roomy_asker(void) {
    unsigned refused = 0;
    uint64_t now = 0;
    ptpm_memory_give(block, PTPM_ASKER_MEMORY);
    check(start_asker() == PTPM_STARTED, "an asker in its block");
    for (int i = 0; i < TIMES; i++)
        refused += (below(100) == 0 && start_asker() != PTPM_STARTED) || ask(2 * below(MOST_FIELD / 2 + 1), &now) != PTPM_ASKED;
    check(refused == 0, "no request and no answer of an asker is refused");
    stop_all();
}

/* A survey that keeps each of this many answers. */
static void roomy_survey(unsigned answers, size_t size, size_t room) {
    unsigned kept = 0;
    ptpm_memory_give(block, room);
    check(start_survey() == PTPM_STARTED, "a survey in its block");
    for (unsigned i = 0; i < answers; i++) kept += survey_receive((uint16_t)i, size) == PTPM_TAKEN;
    check(kept == answers && ptpm_survey_count(&survey) == answers, "the answers that a survey's block is for");
    stop_all();
}

/* A survey keeps 16,384 of 17,000 answers. Of a thousand it keeps fewer in a small block, and each of these is read. */
static void many_answers(void) {
    unsigned full = 0, refused = 0;
    struct ptpm_source source;
    size_t size, kept, read = 0;
    uint16_t error;
    ptpm_memory_give(block, PTPM_SURVEY_MEMORY(PTPM_MOST_ANSWERS, 130));
    start_survey();
    for (uint16_t i = 0; i < 17000; i++) full += survey_receive(i, 130) == PTPM_FULL;
    check(full == 616 && ptpm_survey_count(&survey) == 16384, "16,384 of 17,000 answers are kept");
    stop_all();
    ptpm_memory_give(block, PTPM_SURVEY_MEMORY(20, 130));
    start_survey();
    for (uint16_t i = 0; i < 1000; i++) refused += survey_receive(i, 130) == PTPM_SURVEY_NO_MEMORY;
    kept = ptpm_survey_count(&survey);
    check(refused == 1000 - kept && kept >= 20 && kept < 100, "a thousand answers for which there is too little room");
    for (size_t i = 0; i < kept; i++)
        read += ptpm_survey_answer(&survey, i, &source, octets, sizeof octets, &size, &error) == PTPM_VALUE && size == 130
                && (source.clock[6] << 8 | source.clock[7]) == (int)i;
    check(read == kept, "the answers that are kept");
    stop_all();
}

/* Each call that takes memory, in a block that grows by one unit each time until none is refused. */
static void refused_in_turn(void) {
    uint32_t asked[7], counts[7] = { 0 }, kept = 0, lost = 0;
    for (size_t room = 32; asked[0] = 0, room < 3 * PTPM_CLOCK_MEMORY; room += 16) {
        ptpm_memory_give(block, room);
        asked[0] = start_session();
        asked[1] = begin(MOST_FIELD);
        asked[2] = receive(2);
        asked[3] = start_survey();
        asked[4] = survey_receive(1, 2);
        asked[5] = start_clock(&clocks[0]);
        asked[6] = asked[5] == PTPM_STARTED ? (uint32_t)restore_clock(&clocks[0], &clocks[0]) : PTPM_NO_CLOCK;
        for (int i = 0; i < 7; i++) counts[i] += asked[i] == PTPM_NO_MEMORY;
        lost += asked[6] == PTPM_NO_MEMORY && !holds_clock(&clocks[0]);
        ptpm_clock_stop(&clocks[0]);
        ptpm_session_stop(&session);
        ptpm_survey_stop(&survey);
        kept += ptpm_memory_taken() != 0;
    }
    for (int i = 0; i < 7; i++) check(counts[i] > 0, "each call that takes memory is refused in some block");
    for (int i = 0; i < 7; i++) check(asked[i] == 0 || asked[i] == PTPM_NOTHING_ASKED, "each call is done in a large block");
    check(kept == 0 && lost == 0, "what was refused keeps nothing, and leaves the clock");
}

static unsigned any_step(void) {
    static uint16_t source;
    switch (below(6)) {
    case 0: ptpm_clock_stop(&clocks[below(CLOCKS)]); return 0;
    case 1: return start_clock(&clocks[below(CLOCKS)]) != PTPM_STARTED;
    case 2: return below(20) == 0 && start_session() != PTPM_STARTED;
    case 3: return below(100) == 0 && (source = 0, start_survey() != PTPM_STARTED);
    case 4: return source < 200 && survey.at != NULL && survey_receive(source++, below(130)) == PTPM_SURVEY_NO_MEMORY;
    default:
        if (session.at == NULL) return 0;
        return begin(2 * below(MOST_FIELD / 2 + 1)) == PTPM_BEGIN_NO_MEMORY || receive(2 * below(700)) == PTPM_SESSION_NO_MEMORY;
    }
}

/* All three side by side in the sum of what each takes. */
static void side_by_side(void) {
    unsigned refused = 0;
    ptpm_memory_give(block, CLOCKS * clock_room() + PTPM_SESSION_MEMORY + PTPM_SURVEY_MEMORY(200, 130));
    for (int i = 0; i < 10 * TIMES; i++) refused += any_step();
    check(refused == 0, "nothing is refused in the sum of what each takes");
    stop_all();
}

int main(void) {
    static const unsigned answers[] = { 1, 8, 9, 16, 17, 100, 257, 512, 513, 5000, PTPM_MOST_ANSWERS };
    static const size_t sizes[] = { 0, 2, 130, MOST_FIELD };
    for (int i = 0; i < PTPM_MOST_MANAGERS; i++) {
        memcpy(managers[i].clock, manager, 8);
        managers[i].port = (uint16_t)(i + 1);
    }
    nothing_given();
    given_again();
    left_clocks();
    left_managers();
    exact_managers();
    for (clock_managers = 1; clock_managers <= FEW_MANAGERS; clock_managers += FEW_MANAGERS - 1) {
        for (int all = 1; all <= CLOCKS; all++) exact_clocks(all);
        endless_clocks(TIMES);
    }
    many_ports();
    exact_session();
    roomy_asker();
    for (size_t i = 0; i < sizeof answers / sizeof *answers; i++)
        for (size_t k = 0; k < sizeof sizes / sizeof *sizes; k++)
            roomy_survey(answers[i], sizes[k], PTPM_SURVEY_MEMORY(answers[i], sizes[k]));
    many_answers();
    refused_in_turn();
    side_by_side();
    clock_managers = 1;
    side_by_side();
    return print_checks("blocks");
}
