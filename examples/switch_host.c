/* An agent of a switch: its clock has a port at each interface that its words name, 1 to 64 of them (UDP over IPv4, annex C). It has a
   place for an answer of each port. What a manager changes is not acted on here, and nothing is kept across a restart. It is C, and C++
   too:
       cc switch_host.c $(pkg-config --cflags --libs ptpm) && sudo ./a.out swp1 swp2 swp3 */
#define _DEFAULT_SOURCE
#include "udp_port.h"
#include <ptpm.h>
#include <stdlib.h>
#include <string.h>
#include <sys/epoll.h>
#include <sys/random.h>
#include <unistd.h>

enum { NOTED = 1000, RATE = 100, EVENTS = 16 };     /* milliseconds in which a message is forwarded once, and messages a second */

static const uint8_t identity[8] = { 0xaa, 0xbb, 0xcc, 0xff, 0xfe, 0xdd, 0xee, 0x01 };
static const struct ptpm_manager_settings manager = {
    { 0x02, 0x00, 0x00, 0xff, 0xfe, 0x00, 0x00, 0x10 }, 1, PTPM_CLOCK_SET | PTPM_PORT_SET | PTPM_PORT_COMMAND
};
static struct ptpm_clock device;                    /* all zeros: no clock is held yet */
static size_t port_count;
static struct ptpm_answer *answers;                 /* as many places: they are used again for each datagram */
static int sockets[PTPM_MOST_PORTS];
static struct ptpm_rate rates[PTPM_MOST_PORTS];     /* what each port still forwards */
static struct ptpm_passed_on passed_on;             /* what was forwarded last */
static uint8_t datagram[65536];

/* The start takes all memory that the clock ever has, and the host all its places. */
static bool start(void) {
    struct ptpm_clock_settings settings;
    struct ptpm_port_settings ports[PTPM_MOST_PORTS];
    answers = (struct ptpm_answer *)calloc(port_count, sizeof *answers);
    ptpm_clock_defaults(&settings);
    memcpy(settings.identity, identity, sizeof identity);
    for (size_t i = 0; i < port_count; i++) ptpm_port_defaults(&ports[i]);
    return answers != NULL && ptpm_clock_start_sized(&device, &settings, ports, port_count, &manager, 1) == PTPM_STARTED;
}

static void send_at(size_t place, const uint8_t *octets, size_t size) {
    sendto(sockets[place], octets, size, MSG_DONTWAIT, (const struct sockaddr *)&group, sizeof group);
}

/* Sends what the clock made of a datagram, each message at the socket of its port. The datagram itself is forwarded: once in a while, and
   not too much. */
static void send_messages(const struct ptpm_shared *shared) {
    uint64_t now = time_now();
    bool is_first = shared->size > 0 && ptpm_passed_on_is_first(&passed_on, datagram, (size_t)shared->size, now, NOTED);
    for (size_t i = 0; is_first && i < port_count; i++) {
        if ((shared->ports >> i & 1) && ptpm_rate_take(&rates[i], now)) send_at(i, datagram, (size_t)shared->size);
    }
    for (size_t i = 0; i < shared->count; i++) send_at(answers[i].port - 1u, answers[i].octets, answers[i].size);
}

static void come_in(uint16_t port) {
    struct ptpm_shared shared;
    ssize_t size = recv(sockets[port - 1], datagram, sizeof datagram, MSG_DONTWAIT);
    if (size < 0) return;
    ptpm_clock_handle_shared(&device, port, datagram, (size_t)size, answers, port_count, &shared);
    send_messages(&shared);
}

int main(int count_of_words, char **words) {
    struct epoll_event events[EVENTS];
    int polled = epoll_create1(0);
    port_count = (size_t)(count_of_words - 1);
    if (port_count < 1 || port_count > PTPM_MOST_PORTS) return 2;
    if (!start() || getrandom(&passed_on.seed, sizeof passed_on.seed, 0) != sizeof passed_on.seed) return 1;
    for (size_t i = 0; i < port_count; i++) {
        ptpm_rate_start(&rates[i], RATE, time_now());
        sockets[i] = open_port(words[i + 1]);
        memset(&events[0], 0, sizeof events[0]);
        events[0].events = EPOLLIN;
        events[0].data.u32 = (uint32_t)(i + 1);
        if (sockets[i] < 0 || epoll_ctl(polled, EPOLL_CTL_ADD, sockets[i], &events[0])) return 1;
    }
    for (int found; (found = epoll_wait(polled, events, EVENTS, -1)) > 0;)
        for (int i = 0; i < found; i++) come_in((uint16_t)events[i].data.u32);
    return 1;
}
