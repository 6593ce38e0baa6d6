/* A host with sockets on UDP port 320 of two interfaces (IPv4, annex C). The device provides the functions that are declared below;
   device.c is a simulated one. */
#define _DEFAULT_SOURCE
#include "udp_port.h"
#include <poll.h>
#include <ptpm.h>
#include <stdio.h>
#include <string.h>
#include <sys/random.h>

enum { PORTS = 2, PLACES = 2 * PORTS - 1, TICK = 125 };     /* milliseconds between two observations */
enum { NOTED = 1000, RATE = 100 };                          /* milliseconds in which a message is forwarded once, and messages a second */

/* What the servo, the states of the ports and the best master found since, over zeros. */
void observe_device(struct ptpm_observed_clock *clock, struct ptpm_observed_port ports[PORTS]);
void stop_port(int port);                                   /* a manager has disabled it; also if it is stopped already */
void start_port(int port);                                  /* a manager has enabled it: from LISTENING on */
void take_precedence(uint8_t priority1, uint8_t priority2); /* into its Announce messages and its choice of a master */
void tell_operator(uint32_t answer);                        /* its name is that of ptpm_answer_name */

static struct ptpm_clock device;                            /* all zeros: no clock is held yet */
static struct ptpm_sent sent[PLACES];
static struct ptpm_passed_on passed_on;                     /* what was forwarded last */
static struct ptpm_rate rates[PORTS];                       /* what each port still forwards */
static struct pollfd sockets[PORTS];

static enum ptpm_started start(const uint8_t identity[8], const struct ptpm_manager_settings *manager) {
    struct ptpm_clock_settings settings;
    struct ptpm_port_settings ports[PORTS];
    ptpm_clock_defaults(&settings);
    memcpy(settings.identity, identity, 8);
    for (int i = 0; i < PORTS; i++) ptpm_port_defaults(&ports[i]);
    return ptpm_clock_start(&device, &settings, ports, PORTS, manager, 1);
}

static uint8_t value_of(uint16_t id, int port, size_t place) {
    uint8_t octets[PTPM_MOST_READ];
    size_t size = 0;
    enum ptpm_read answer = ptpm_clock_read(&device, id, (uint16_t)port, octets, sizeof octets, &size);
    return answer == PTPM_READ && place < size ? octets[place] : 0;
}

/* What a manager changed: the library reports which members have another value, and the host reads these. */
static void act(const struct ptpm_changed *changed) {
    if (changed->clock & (PTPM_CHANGED_PRIORITY1 | PTPM_CHANGED_PRIORITY2))
        take_precedence(value_of(PTPM_ID_PRIORITY1, 0, 0), value_of(PTPM_ID_PRIORITY2, 0, 0));
    for (int port = 1; port <= PORTS; port++) {
        if ((changed->ports[port - 1] & PTPM_CHANGED_PORT_STATE) == 0) continue;
        if (value_of(PTPM_ID_PORT_DATA_SET, port, 10) == PTPM_STATE_DISABLED) stop_port(port);
        else start_port(port);
    }
}

/* Sends what the clock made of a datagram. What is for the port that it came in at answers it, and all else forwards it: once in
   a while, and not too much. */
static void send_messages(uint16_t port, const uint8_t *octets, size_t size, size_t count) {
    bool is_asked = false, is_first = false;
    uint64_t now = time_now();
    for (size_t i = 0; i < count; i++) {
        int at = sent[i].port - 1;
        if (sent[i].port != port) {
            if (!is_asked) is_first = ptpm_passed_on_is_first(&passed_on, octets, size, now, NOTED);
            is_asked = true;
            if (!is_first || !ptpm_rate_take(&rates[at], now)) continue;
        }
        sendto(sockets[at].fd, sent[i].octets, sent[i].size, MSG_DONTWAIT, (const struct sockaddr *)&group, sizeof group);
    }
}

static void come_in(uint16_t port) {
    static uint8_t octets[65536];
    static const struct ptpm_say agrees = { 0 };
    struct ptpm_taken taken;
    ssize_t size = recv(sockets[port - 1].fd, octets, sizeof octets, MSG_DONTWAIT);
    if (size < 0) return;
    enum ptpm_handled answer =
        ptpm_clock_take(&device, port, octets, (size_t)size, &agrees, 0, sent, PLACES, &taken);
    send_messages(port, octets, (size_t)size, taken.count);
    act(&taken.changed);
    if (answer == PTPM_DROPPED_OLD || answer == PTPM_DROPPED_CONFLICT || ptpm_is_refusal(answer)) tell_operator(answer);
}

static void observe(void) {
    struct ptpm_observed_clock observed;
    struct ptpm_observed_port ports[PORTS];
    uint64_t left;
    memset(&observed, 0, sizeof observed);
    memset(ports, 0, sizeof ports);
    observe_device(&observed, ports);
    enum ptpm_observed answer = ptpm_clock_observe(&device, &observed, ports, PORTS, &left);
    if (answer != PTPM_OBSERVED) tell_operator(answer);
    for (int i = 0; i < PORTS; i++)
        if (answer == PTPM_OBSERVED && (left >> i & 1)) stop_port(i + 1);
}

int run(const char *const interfaces[PORTS], const uint8_t identity[8], const struct ptpm_manager_settings *manager) {
    if (getrandom(&passed_on.seed, sizeof passed_on.seed, 0) != sizeof passed_on.seed) return 1;
    for (int i = 0; i < PORTS; i++) {
        ptpm_rate_start(&rates[i], RATE, time_now());
        sockets[i].fd = open_port(interfaces[i]);
        sockets[i].events = POLLIN;
        if (sockets[i].fd >= 0) continue;
        perror(interfaces[i]);                              /* for example without root */
        return 1;
    }
    enum ptpm_started answer = start(identity, manager);
    if (answer != PTPM_STARTED) tell_operator(answer);
    while (answer == PTPM_STARTED) {
        poll(sockets, PORTS, TICK);
        observe();
        for (int i = 0; i < PORTS; i++)
            if (sockets[i].revents != 0) come_in((uint16_t)(i + 1));
    }
    return 1;
}
