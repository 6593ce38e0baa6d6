#include "ptp4l.h"
#include "message_places.h"
#include "monotonic.h"
#include "output.h"
#include "socket_option.h"
#include "udp.h"
#include <stdio.h>
#include <string.h>
#include <unistd.h>

/* When a probe is judged, and after how many milliseconds the next one begins. */
enum { SETTLING = 100, WHILE_MUTE = 60000, WHILE_HEARD = 2000 };

/* The dataField of PORT_STATS_NP is a portIdentity and 64-bit counts of what was received, of each messageType, the least octet first. */
enum { COUNTS_AT = PORT_IDENTITY, COUNT = 8, TYPES = 16 };

enum { MOST_READS = 8 };                /* until what waited at the ports of the ptp4l is taken */

static unsigned probed_life;
static uint64_t counts[PORTS];          /* as they were last */
static int64_t due;
static bool is_sent, is_mute, is_told;

static uint64_t count_in(const struct ptp4l_answer *answer, int type) {
    uint64_t count = 0;
    for (int i = COUNT - 1; i >= 0; i--) count = count << 8 | answer->field[COUNTS_AT + COUNT * type + i];
    return count;
}

/* How many management messages each port of the ptp4l has heard, and how many of all types all have; whether it says that. */
static bool read_counts(uint64_t heard[PORTS], uint64_t *all) {
    struct ptp4l_answer answer;
    int64_t end = milliseconds() + PTP4L_PATIENCE;
    uint16_t number;
    *all = 0;
    if (!get_from_ptp4l(PORT_STATS_NP, EVERY_PORT, &number)) return false;
    for (size_t i = 0; i < clock_ports(); i++) {
        if (!hear_ptp4l(number, end, &answer)) return false;
        if (answer.size < COUNTS_AT + TYPES * COUNT || answer.port == 0 || answer.port > clock_ports()) return false;
        heard[answer.port - 1] = count_in(&answer, MANAGEMENT_TYPE);
        for (int type = 0; type < TYPES; type++) *all += count_in(&answer, type);
    }
    return true;
}

/* The same, once nothing waits at the ports of the ptp4l. It takes one message of each before it answers, so two counts are the same then. */
static bool read_all_counts(uint64_t heard[PORTS]) {
    uint64_t before, all;
    if (!read_counts(heard, &before)) return false;
    for (int reads = 1; reads < MOST_READS; reads++) {
        if (!read_counts(heard, &all)) return false;
        if (all == before) return true;
        before = all;
    }
    return false;
}

static const char *advice(void) {
    return diverted_port != 0 ? "nft list table inet ptpm shows whether they are diverted"
           : transport == ETHERNET ? "it was started without libptpm_mute.so" : "network_management of its configuration is not 0";
}

/* Compares what each port has heard by now with what it had heard before. If nothing is diverted that is nothing, in all its life: a message
   that it hears comes here too. */
enum compared { NOT_KNOWN, ARE_SAME, HAVE_RISEN };
static enum compared compare_counts(void) {
    uint64_t now[PORTS], all;
    bool is_read = diverted_port == 0 ? read_all_counts(now) : read_counts(now, &all);
    if (!is_read || ptp4l_life() != probed_life) return NOT_KNOWN;
    size_t port = 0;
    while (port < clock_ports() && now[port] == counts[port]) port++;
    if (diverted_port != 0) memcpy(counts, now, sizeof counts);
    if (port == clock_ports()) return ARE_SAME;
    if (!is_told) say("the ptp4l still hears management messages at %s, and no change is taken: %s", options->interfaces[port], advice());
    is_told = true;
    return HAVE_RISEN;
}

/* A GET of no clock, by nobody, with no hops. Its TTL is 0, so only this host hears it. */
static void send_probe_at(const struct port *port) {
    static const uint8_t nobody[PORT_IDENTITY] = { 0xff, 0xfe, 0xff, 0xfe, 0xff, 0xfe, 0xff, 0xfe, 0xff, 0xfe };
    uint8_t octets[LEAST_MESSAGE] = { [TYPE_AT] = MANAGEMENT_TYPE, [VERSION_AT] = 2, [LENGTH_AT + 1] = LEAST_MESSAGE, [DOMAIN_AT] = ptp4l_domain(),
                                      [32] = 4, [INTERVAL_AT] = 0x7f, [TLV_AT + 1] = 1, [TLV_AT + 3] = 2 };
    bool is_six = transport == UDP_IPV6;
    struct sockaddr_storage to;
    const struct ip_mreqn way = { .imr_ifindex = (int)port->index };
    memcpy(octets + SOURCE_AT, nobody, sizeof nobody);
    memcpy(octets + TARGET_AT, nobody, sizeof nobody);
    int from = socket(is_six ? AF_INET6 : AF_INET, SOCK_DGRAM | SOCK_CLOEXEC, 0);
    if (from < 0) return;
    bool is_set = is_six ? set_number(from, IPPROTO_IPV6, IPV6_MULTICAST_IF, (int)port->index)
                               && set_number(from, IPPROTO_IPV6, IPV6_MULTICAST_HOPS, 0)
                         : setsockopt(from, IPPROTO_IP, IP_MULTICAST_IF, &way, sizeof way) == 0
                               && set_number(from, IPPROTO_IP, IP_MULTICAST_TTL, 0);
    if (is_set) sendto(from, octets, sizeof octets, MSG_DONTWAIT, (struct sockaddr *)&to, group(&to, is_six));
    close(from);
}

static void begin_probe(int64_t now) {
    uint64_t all;
    is_sent = read_counts(counts, &all);
    due = now + (is_sent ? SETTLING : WHILE_HEARD);
    for (size_t i = 0; i < port_count && is_sent; i++) send_probe_at(&ports[i]);
}

static void end_probe(int64_t now) {
    is_mute = compare_counts() == ARE_SAME;
    is_sent = false;
    due = now + (is_mute ? WHILE_MUTE : WHILE_HEARD);
    if (is_mute && is_told) {
        say("the ptp4l %s, and changes are taken",
            diverted_port != 0 ? "hears no management messages any more" : "was started again, and has heard no management message since then");
    }
    if (is_mute) is_told = false;
}

void watch_mute(int64_t now) {
    if (find_ptp4l() != IS_OURS) {
        due = now + WHILE_HEARD;
        return;
    }
    if (ptp4l_life() != probed_life) {
        probed_life = ptp4l_life();
        is_sent = is_mute = false;
        due = now;
    }
    if (now < due) return;
    if (is_sent || diverted_port == 0) end_probe(now);
    else begin_probe(now);
}

int64_t mute_due(void) { return due; }

bool is_probing(void) { return is_sent; }

bool is_ptp4l_mute(void) {
    if (!is_mute || ptp4l_life() != probed_life) return false;
    enum compared compared = compare_counts();
    if (compared == HAVE_RISEN) {
        is_mute = false;
        due = milliseconds() + WHILE_HEARD;
    }
    return compared == ARE_SAME;
}

/* A table that replaces the one before. At a hook after prerouting the kernel has chosen the ptp4l's socket already. What is routed to other
   hosts stays as it is. A datagram without a checksum gets none. Fragments come whole only after the hook, and nobody hears them. */
static const char *const rules[] = {
    "table inet ptpm\n",
    "delete table inet ptpm\n",
    "table inet ptpm {\n",
    "    chain divert {\n",
    "        type filter hook prerouting priority raw; policy accept;\n",
    "        fib daddr type { local, multicast } udp dport 320 @th,64,8 & 0x0f == 0x0d jump to_agent\n",
    "    }\n",
    "    chain to_agent {\n",
    "        udp checksum 0 counter udp dport set %u udp checksum set 0 return\n",
    "        counter udp dport set %u\n",
    "    }\n",
    "    chain mute {\n",
    "        type filter hook input priority filter; policy accept;\n",
    "        udp dport 320 exthdr frag exists counter drop\n",
    "        udp dport 320 @th,64,8 & 0x0f == 0x0d counter drop\n",
    "    }\n",
    "}\n",
};

bool print_rules(uint16_t port) {
    for (size_t i = 0; i < sizeof rules / sizeof *rules; i++) printf(rules[i], port);
    return fflush(stdout) == 0 && !ferror(stdout);
}
