/* An agent for a device without malloc: its clock lives in a static block. It has a port at each of two interfaces (UDP over
   IPv4, annex C). What a manager changes is not acted on here, and nothing is kept across a restart. Its table of what was
   forwarded has 196,616 octets. A device that has no room for it forwards nothing: it sends only what answers. It is C, and C++ too:
       cc block_host.c $(pkg-config --cflags --libs ptpm_memory) && sudo ./a.out eth0 eth1 */
#define _DEFAULT_SOURCE
#include "udp_port.h"
#include <poll.h>
#include <ptpm.h>
#include <ptpm_memory.h>
#include <string.h>
#include <sys/random.h>
#include <unistd.h>

enum { PORTS = 2, PLACES = 2 * PORTS - 1, NOTED = 1000, RATE = 100 };   /* milliseconds in which a message is forwarded once, and messages a second */

static const uint8_t identity[8] = { 0xaa, 0xbb, 0xcc, 0xff, 0xfe, 0xdd, 0xee, 0x01 };
static const struct ptpm_manager_settings manager = {
    { 0x02, 0x00, 0x00, 0xff, 0xfe, 0x00, 0x00, 0x10 }, 1, PTPM_CLOCK_SET | PTPM_PORT_SET | PTPM_PORT_COMMAND
};
static __attribute__((aligned(16))) unsigned char block[PTPM_CLOCK_MEMORY_OF(PORTS, 1)];
static struct ptpm_clock device;                /* all zeros: no clock is held yet */
static struct ptpm_sent sent[PLACES];
static struct ptpm_passed_on passed_on;         /* what was forwarded last */
static struct ptpm_rate rates[PORTS];           /* what each port still forwards */
static uint8_t datagram[65536];
static struct pollfd sockets[PORTS];

/* Says why the agent does not start, with the name of the library's answer. */
static int refused(enum ptpm_started answer) {
    char name[PTPM_MOST_NAME + 1];
    size_t size = ptpm_answer_name(answer, name, PTPM_MOST_NAME);
    name[size++] = '\n';
    return write(2, name, size) < 0 ? 2 : 1;
}

/* The block is given before the first call that allocates memory. */
static enum ptpm_started start(void) {
    struct ptpm_clock_settings settings;
    struct ptpm_port_settings ports[PORTS];
    if (!ptpm_memory_give(block, sizeof block)) return PTPM_START_NO_MEMORY;
    ptpm_clock_defaults(&settings);
    memcpy(settings.identity, identity, sizeof identity);
    for (int i = 0; i < PORTS; i++) ptpm_port_defaults(&ports[i]);
    return ptpm_clock_start(&device, &settings, ports, PORTS, &manager, 1);
}

/* Sends what the clock made of a datagram. What is for the port that it came in at answers it, and all else forwards it: once in a
   while, and not too much. */
static void send_messages(int port, size_t size, size_t count) {
    bool is_asked = false, is_first = false;
    uint64_t now = time_now();
    for (size_t i = 0; i < count; i++) {
        int at = sent[i].port - 1;
        if (sent[i].port != port) {
            if (!is_asked) is_first = ptpm_passed_on_is_first(&passed_on, datagram, size, now, NOTED);
            is_asked = true;
            if (!is_first || !ptpm_rate_take(&rates[at], now)) continue;
        }
        sendto(sockets[at].fd, sent[i].octets, sent[i].size, MSG_DONTWAIT, (const struct sockaddr *)&group, sizeof group);
    }
}

static void come_in(int port) {
    size_t count;
    ssize_t size = recv(sockets[port - 1].fd, datagram, sizeof datagram, MSG_DONTWAIT);
    if (size < 0) return;
    ptpm_clock_handle(&device, (uint16_t)port, datagram, (size_t)size, sent, PLACES, &count);
    send_messages(port, (size_t)size, count);
}

int main(int count_of_words, char **words) {
    enum ptpm_started answer = start();
    if (answer != PTPM_STARTED) return refused(answer);
    if (count_of_words != PORTS + 1) return 2;
    if (getrandom(&passed_on.seed, sizeof passed_on.seed, 0) != sizeof passed_on.seed) return 1;
    for (int i = 0; i < PORTS; i++) {
        ptpm_rate_start(&rates[i], RATE, time_now());
        sockets[i].fd = open_port(words[i + 1]);
        sockets[i].events = POLLIN;
        if (sockets[i].fd < 0) return 1;
    }
    while (poll(sockets, PORTS, -1) > 0)
        for (int i = 0; i < PORTS; i++)
            if (sockets[i].revents != 0) come_in(i + 1);
    return 1;
}
