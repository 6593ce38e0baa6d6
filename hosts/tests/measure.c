/* measure: what a datagram costs a host in C. `./measure LIST COUNT [take]` starts a clock, and lets it answer a GET of its manager. Then it
   hands it the datagram of the list COUNT times at port 1, by ptpm_clock_handle, or with `take` by ptpm_clock_take. The lists `send`,
   `receive` and `ignore` are of a manager's session. In `send` a GET is sent, with an attempt more before it. In `receive` one is
   begun, and its answer is heard. In `ignore` an answer under an older number is heard. In `start` a clock of two ports is started and
   stopped. By the difference of two runs a counter of instructions (callgrind) shows what one of them costs. Prints the list, the
   answer to the last call, and its messages and their octets; for `start` only its name. Status 2 if the words are not understood, 1 if
   a clock or a session does not start. */
#include "ptpm.h"
#include <stdbool.h>
#include <stdio.h>
#include <stdlib.h>
#include <string.h>

enum { HEAD = 54, MOST = PTPM_MOST_OCTETS, FEW_PORTS = 8, MOST_MANAGERS = 16, PLACES = PTPM_MOST_SENT_OF(PTPM_MOST_PORTS) };
enum {
    GET = PTPM_GET, SET = PTPM_SET, RESPONSE = 2, PRIORITY1 = PTPM_ID_PRIORITY1, PORT_DATA_SET = PTPM_ID_PORT_DATA_SET,
    LOG_ANNOUNCE_INTERVAL = PTPM_ID_LOG_ANNOUNCE_INTERVAL, USER_DESCRIPTION = PTPM_ID_USER_DESCRIPTION
};
enum who { MANAGER, STRANGER };
enum whom { CLOCK, ANOTHER, EVERY };
enum how { PLAIN, IN_ANOTHER_DOMAIN, WITHOUT_HOPS, OLDER };

/* A list: the clock's ports and managers, and its datagram, whose sequenceId rises by `step` each time. The dataField has `data`
   octets. The first is `value`. The others are letters in a userDescription, and else 0. */
struct list {
    const char *name;
    size_t ports, managers;
    enum who from;
    enum whom to;
    uint8_t action;
    uint16_t id;
    size_t data;
    uint8_t value;
    uint16_t step;
    enum how how;
};

static const struct list lists[] = {
    { "get", 2, 1, MANAGER, CLOCK, GET, PRIORITY1, 0, 0, 1, PLAIN },
    { "last_manager", 2, MOST_MANAGERS, MANAGER, CLOCK, GET, PRIORITY1, 0, 0, 1, PLAIN },
    { "set", 2, 1, MANAGER, CLOCK, SET, PRIORITY1, 2, 100, 1, PLAIN },
    { "set_text", 2, 1, MANAGER, CLOCK, SET, USER_DESCRIPTION, 130, 128, 1, PLAIN },
    { "stranger", 2, 1, STRANGER, CLOCK, GET, PRIORITY1, 0, 0, 0, PLAIN },
    { "repeat", 2, 1, MANAGER, CLOCK, GET, PRIORITY1, 0, 0, 0, PLAIN },
    { "other_domain", 2, 1, MANAGER, CLOCK, GET, PRIORITY1, 0, 0, 0, IN_ANOTHER_DOMAIN },
    { "ports_get", FEW_PORTS, 1, MANAGER, CLOCK, GET, PORT_DATA_SET, 0, 0, 1, PLAIN },
    { "ports_set", FEW_PORTS, 1, MANAGER, CLOCK, SET, LOG_ANNOUNCE_INTERVAL, 2, 2, 1, PLAIN },
    { "ports_repeat", FEW_PORTS, 1, MANAGER, CLOCK, GET, PORT_DATA_SET, 0, 0, 0, PLAIN },
    { "ports_stranger", FEW_PORTS, 1, STRANGER, EVERY, GET, PORT_DATA_SET, 0, 0, 0, PLAIN },
    { "forward", 2, 1, MANAGER, ANOTHER, GET, PRIORITY1, 0, 0, 0, PLAIN },
    { "forward_seven", FEW_PORTS, 1, MANAGER, ANOTHER, GET, PRIORITY1, 0, 0, 0, PLAIN },
    { "forward_long", FEW_PORTS, 1, MANAGER, ANOTHER, SET, PRIORITY1, MOST - HEAD, 0, 0, PLAIN },
    { "switch_get", PTPM_MOST_PORTS, 1, MANAGER, CLOCK, GET, PRIORITY1, 0, 0, 1, PLAIN },
    { "switch_ports_get", PTPM_MOST_PORTS, 1, MANAGER, CLOCK, GET, PORT_DATA_SET, 0, 0, 1, PLAIN },
    { "switch_ports_set", PTPM_MOST_PORTS, 1, MANAGER, CLOCK, SET, LOG_ANNOUNCE_INTERVAL, 2, 2, 1, PLAIN },
    { "switch_ports_repeat", PTPM_MOST_PORTS, 1, MANAGER, CLOCK, GET, PORT_DATA_SET, 0, 0, 0, PLAIN },
    { "switch_forward", PTPM_MOST_PORTS, 1, MANAGER, ANOTHER, GET, PRIORITY1, 0, 0, 0, PLAIN },
    { "other_clock", 2, 1, MANAGER, ANOTHER, GET, PRIORITY1, 0, 0, 0, WITHOUT_HOPS },
    { "old", 2, 1, MANAGER, CLOCK, GET, PRIORITY1, 0, 0, 0, OLDER },
};

static const uint8_t manager[8] = { 0x00, 0x11, 0x22, 0x33, 0x44, 0x55, 0x66, 0x77 };
static const uint8_t stranger[8] = { 0x0a, 0x0b, 0x0c, 0x0d, 0x0e, 0x0f, 0x10, 0x11 };
static const uint8_t identity[8] = { 0xaa, 0xbb, 0xcc, 0xff, 0xfe, 0xdd, 0xee, 0x01 };
static const uint8_t another[8] = { 0xaa, 0xbb, 0xcc, 0xff, 0xfe, 0xdd, 0xee, 0x02 };
static const uint8_t every[8] = { 0xff, 0xff, 0xff, 0xff, 0xff, 0xff, 0xff, 0xff };
static struct ptpm_sent sent[PLACES];
static bool is_taken;                   /* by ptpm_clock_take */

/* The number in two octets, the high one first. */
static void put(uint8_t *octets, uint16_t number) {
    octets[0] = (uint8_t)(number >> 8);
    octets[1] = (uint8_t)number;
}

/* Writes the list's datagram, and answers its size (IEEE 1588-2019, 15.4.1 and table 58). */
static size_t request(const struct list *list, uint8_t octets[MOST]) {
    size_t size = HEAD + list->data;
    uint8_t hops = list->how == WITHOUT_HOPS ? 0 : 1;
    memset(octets, 0, MOST);
    memcpy(octets, (const uint8_t[]){ 0x0d, 0x12 }, 2);
    put(octets + 2, (uint16_t)size);
    octets[4] = list->how == IN_ANOTHER_DOMAIN ? 5 : 0;
    memcpy(octets + 20, list->from == MANAGER ? manager : stranger, 8);
    octets[29] = 1;
    octets[31] = list->how == OLDER ? 6 : 7;
    memcpy(octets + 32, (const uint8_t[]){ 4, 0x7f }, 2);
    memcpy(octets + 34, list->to == CLOCK ? identity : list->to == ANOTHER ? another : every, 8);
    memcpy(octets + 42, (const uint8_t[]){ 0xff, 0xff, hops, hops, list->action, 0, 0, 1 }, 8);
    put(octets + 50, (uint16_t)(list->data + 2));
    put(octets + 52, list->id);
    if (list->id == USER_DESCRIPTION) memset(octets + HEAD, 'a', list->value + 1);
    octets[HEAD] = list->value;
    return size;
}

/* The clock of the list: ports that are MASTER, and managers that may change everything. The last is `manager`. */
static bool start(const struct list *list, struct ptpm_clock *clock) {
    struct ptpm_clock_settings settings;
    struct ptpm_port_settings ports[PTPM_MOST_PORTS];
    struct ptpm_manager_settings managers[MOST_MANAGERS];
    ptpm_clock_defaults(&settings);
    memcpy(settings.identity, identity, 8);
    for (size_t i = 0; i < list->ports; i++) ptpm_port_defaults(&ports[i]);
    for (size_t i = 0; i < list->managers; i++) {
        memcpy(managers[i].clock, manager, 8);
        managers[i].port = (uint16_t)(list->managers - i);
        managers[i].rights = PTPM_CLOCK_SET | PTPM_PORT_SET | PTPM_PORT_COMMAND;
    }
    return ptpm_clock_start(clock, &settings, ports, list->ports, managers, list->managers) == PTPM_STARTED;
}

static enum ptpm_handled take(struct ptpm_clock *clock, const uint8_t *octets, size_t size, size_t *messages) {
    static const struct ptpm_say agrees;
    static struct ptpm_taken taken;
    enum ptpm_handled answer = ptpm_clock_take(clock, 1, octets, size, &agrees, 0, sent, PLACES, &taken);
    *messages = taken.count;
    return answer;
}

/* A GET under number 7, and then the datagram again and again, in two places that take turns. The answer to the last one. */
static enum ptpm_handled repeat(struct ptpm_clock *clock, const struct list *list, unsigned long count, size_t *messages) {
    static uint8_t places[2][MOST];
    struct list first = { .from = MANAGER, .to = CLOCK, .action = GET, .id = list->id, .how = PLAIN };
    size_t size = request(&first, places[0]);
    enum ptpm_handled answer = ptpm_clock_handle(clock, 1, places[0], size, sent, PLACES, messages);
    size = request(list, places[0]);
    memcpy(places[1], places[0], MOST);
    uint16_t number = list->how == OLDER ? 6 : 7;
    for (unsigned long i = 0; i < count; i++) {
        uint8_t *octets = places[i % 2];
        number = (uint16_t)(number + list->step);
        put(octets + 30, number);
        answer = is_taken ? take(clock, octets, size, messages) : ptpm_clock_handle(clock, 1, octets, size, sent, PLACES, messages);
    }
    return answer;
}

/* The list's datagram at its clock. */
static int measure(const struct list *list, unsigned long count) {
    struct ptpm_clock clock = { 0 };
    size_t messages = 0, octets = 0;
    if (!start(list, &clock)) return 1;
    enum ptpm_handled answer = repeat(&clock, list, count, &messages);
    for (size_t i = 0; i < messages; i++) octets += sent[i].size;
    printf("%s %u %zu %zu\n", list->name, answer, messages, octets);
    ptpm_clock_stop(&clock);
    return 0;
}

/* A clock that is started and stopped again and again. */
static int start_each(unsigned long count) {
    struct ptpm_clock clock = { 0 };
    for (unsigned long i = 0; i < count; i++) {
        if (!start(&lists[0], &clock)) return 1;
        ptpm_clock_stop(&clock);
    }
    printf("start\n");
    return 0;
}

/* A session of the manager, whose requests are numbered from 1. */
static bool open_session(struct ptpm_session *session) {
    struct ptpm_session_settings settings = { .port = 1, .target_ports = 2, .first = 1, .hops = 1, .attempts = 1 };
    memcpy(settings.clock, manager, 8);
    memcpy(settings.target, identity, 8);
    return ptpm_session_start(session, &settings) == PTPM_STARTED;
}

/* Writes the clock's answer to a GET of PRIORITY1 under number 0, which is 128. */
static size_t reply(uint8_t octets[MOST]) {
    static const struct list answer = { "", 2, 1, MANAGER, CLOCK, RESPONSE, PRIORITY1, 2, 128, 0, PLAIN };
    size_t size = request(&answer, octets);
    memcpy(octets + 20, identity, 8);
    memcpy(octets + 34, manager, 8);
    put(octets + 42, 1);
    put(octets + 30, 0);
    return size;
}

/* The GET is sent, with an attempt more before it. */
static unsigned send_once(struct ptpm_session *session, uint8_t *octets, size_t *size) {
    ptpm_session_resume(session, 1);
    return ptpm_session_send(session, octets, MOST, size);
}

/* A GET is begun, and its answer heard. */
static unsigned receive_once(struct ptpm_session *session, uint8_t *octets, size_t *size) {
    ptpm_session_begin(session, GET, PRIORITY1, 0, NULL, 0);
    put(octets + 30, (uint16_t)ptpm_session_issued(session));
    return ptpm_session_receive(session, octets, *size);
}

/* The answer with the number before is heard. */
static unsigned ignore_once(struct ptpm_session *session, uint8_t *octets, size_t *size) {
    return ptpm_session_receive(session, octets, *size);
}

/* What a session does again and again. All but `receive` have begun a request before. */
static const struct {
    const char *name;
    bool begun;
    unsigned (*once)(struct ptpm_session *session, uint8_t *octets, size_t *size);
} calls[] = { { "send", true, send_once }, { "receive", false, receive_once }, { "ignore", true, ignore_once } };

/* One of these calls again and again. */
static int call(size_t place, unsigned long count) {
    static uint8_t octets[MOST];
    struct ptpm_session session = { 0 };
    size_t size = reply(octets);
    unsigned answer = 0;
    if (!open_session(&session)) return 1;
    if (calls[place].begun) ptpm_session_begin(&session, GET, PRIORITY1, 0, NULL, 0);
    for (unsigned long i = 0; i < count; i++) answer = calls[place].once(&session, octets, &size);
    printf("%s %u 1 %zu\n", calls[place].name, answer, size);
    ptpm_session_stop(&session);
    return 0;
}

static bool is_asked(const char *word, const char *name) { return strcmp(word, name) == 0 || strcmp(word, "all") == 0; }

int main(int argc, char **argv) {
    char *end = "";
    is_taken = argc == 4 && strcmp(argv[3], "take") == 0;
    bool has_count = argc == 3 || is_taken;
    unsigned long count = has_count ? strtoul(argv[2], &end, 10) : 0;
    bool is_count = has_count && argv[2][0] >= '0' && argv[2][0] <= '9' && *end == '\0', is_known = false;
    int status = 0;
    for (size_t i = 0; is_count && i < sizeof lists / sizeof *lists; i++) {
        if (!is_asked(argv[1], lists[i].name)) continue;
        is_known = true;
        status |= measure(&lists[i], count);
    }
    for (size_t i = 0; is_count && i < sizeof calls / sizeof *calls; i++) {
        if (!is_asked(argv[1], calls[i].name)) continue;
        is_known = true;
        status |= call(i, count);
    }
    if (is_count && is_asked(argv[1], "start")) return status | start_each(count);
    if (is_known) return status;
    fprintf(stderr, "usage: measure LIST|all COUNT [take]\n");
    return 2;
}
