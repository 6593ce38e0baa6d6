/* noise INTERFACE junk|announce|foreign|all RATE SECONDS [ADDRESS]

   For trials: sends RATE datagrams a second to the group of PTP, over UDP and IPv4, at even times. Prints how many went out. They
   are random octets, Announce messages of one master, GETs for clocks that are not there, or GETs for every clock. No manager sends
   these. They come from that address of the interface, or from its first. It reads nothing. */
#include "message_places.h"
#include "monotonic.h"
#include "program.h"
#include "udp.h"
#include "words.h"
#include <arpa/inet.h>
#include <net/if.h>
#include <stdbool.h>
#include <stdio.h>
#include <stdlib.h>
#include <string.h>

enum kind { JUNK, ANNOUNCE, FOREIGN, ALL, KINDS };
static const char *const kinds[KINDS] = { "junk", "announce", "foreign", "all" };

enum { MOST_AT_ONCE = 16, MOST_SIZE = 64 };

const char program[] = "noise";

/* What is sent of each kind (IEEE 1588-2019, 13.3, 13.5 and 15.4); a GET is one of PRIORITY1. */
struct message { uint8_t size, octets[MOST_SIZE]; };
#define SOURCE 0x0a, 0x0b, 0x0c, 0x0d, 0x0e, 0x0f, 0x20, 0x21
#define GET MANAGEMENT_TYPE, 2, 0, LEAST_MESSAGE, [SOURCE_AT] = SOURCE, 0, 1, [32] = 4, 0x7f
#define OF_PRIORITY1 0xff, 0xff, 1, 1, 0, 0, 0, 1, 0, 2, 0x20, 0x05
static const struct message messages[KINDS] = {
    [JUNK] = { 64, { 0 } },
    [ANNOUNCE] = { 64, { ANNOUNCE_TYPE, 2, 0, 64, [SOURCE_AT] = SOURCE, 0, 1, [32] = 5, 1,
                         [45] = 37, 0, 100, 6, 0x21, 0x4e, 0x5d, 128, SOURCE, 0, 0, 0x20 } },
    [FOREIGN] = { LEAST_MESSAGE, { GET, [TARGET_AT] = 0x00, 0x11, 0x22, 0xff, 0xfe, 0x44, 0x55, 0x66, OF_PRIORITY1 } },
    [ALL] = { LEAST_MESSAGE, { GET, [TARGET_AT] = 0xff, 0xff, 0xff, 0xff, 0xff, 0xff, 0xff, 0xff, OF_PRIORITY1 } },
};

_Noreturn static void usage(void) {
    fputs("noise INTERFACE junk|announce|foreign|all RATE SECONDS [ADDRESS]\n", stderr);
    exit(2);
}

/* The n-th message of a kind: another number, and of a GET for one clock another clock each time. */
static size_t write_message(enum kind kind, int64_t n, uint8_t octets[MOST_SIZE]) {
    memcpy(octets, messages[kind].octets, MOST_SIZE);
    octets[SEQUENCE_AT] = (uint8_t)(n >> 8);
    octets[SEQUENCE_AT + 1] = (uint8_t)n;
    if (kind == FOREIGN) octets[TARGET_AT + 7] = (uint8_t)n;
    for (int i = 0; kind == JUNK && i < MOST_SIZE; i++) octets[i] = (uint8_t)random();
    return messages[kind].size;
}

/* Sends the next messages, which are due; how many went out. */
static int send_due(int socket, enum kind kind, int64_t sent, unsigned count) {
    static uint8_t octets[MOST_AT_ONCE][MOST_SIZE];
    struct mmsghdr out[MOST_AT_ONCE];
    struct iovec parts[MOST_AT_ONCE];
    struct sockaddr_storage to;
    socklen_t size = group(&to, false);
    for (unsigned i = 0; i < count; i++) {
        parts[i] = (struct iovec){ octets[i], write_message(kind, sent + i, octets[i]) };
        out[i].msg_hdr = (struct msghdr){ .msg_name = &to, .msg_namelen = size, .msg_iov = &parts[i], .msg_iovlen = 1 };
    }
    int gone = sendmmsg(socket, out, count, 0);
    if (gone < 0) give_up("sendmmsg");
    return gone;
}

static enum kind kind_named(const char *name) {
    for (int i = 0; i < KINDS; i++) {
        if (strcmp(name, kinds[i]) == 0) return (enum kind)i;
    }
    usage();
}

/* What the socket sends to the group comes from this address. */
static void send_from(int socket, const char *interface, const char *address) {
    struct ip_mreqn from = { .imr_ifindex = (int)if_nametoindex(interface) };
    if (inet_pton(AF_INET, address, &from.imr_address) != 1) usage();
    if (setsockopt(socket, IPPROTO_IP, IP_MULTICAST_IF, &from, sizeof from)) give_up(address);
}

int main(int argc, char **argv) {
    const char *what;
    if (argc != 5 && argc != 6) usage();
    enum kind kind = kind_named(argv[2]);
    int64_t rate = decimal(argv[3], 1000000), seconds = decimal(argv[4], 1000), sent = 0;
    if (rate < 1 || seconds < 1) usage();
    int port_socket = open_udp(argv[1], false, HEARS_GROUP, &what);
    if (port_socket < 0) give_up(what);
    if (argc == 6) send_from(port_socket, argv[1], argv[5]);
    int64_t begin = nanoseconds(), end = begin + seconds * 1000000000;
    for (int64_t now; (now = nanoseconds()) < end;) {
        int64_t due = (now - begin) / 1000 * rate / 1000000 - sent;
        if (due > 0) sent += send_due(port_socket, kind, sent, due < MOST_AT_ONCE ? (unsigned)due : MOST_AT_ONCE);
    }
    printf("sent %lld\n", (long long)sent);
    return 0;
}
