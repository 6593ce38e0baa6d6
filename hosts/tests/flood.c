/* flood INTERFACE IDENTITY RATE SECONDS

   For trials: asks a clock for PRIORITY1 RATE times a second, over UDP and IPv4, at even times. Prints how many GETs were
   answered, and in how many microseconds the middle one and 99 of a hundred were. With a RATE of 0 it waits for each answer
   before it asks again. */
#include "message_places.h"
#include "monotonic.h"
#include "program.h"
#include "ptpm.h"
#include "udp.h"
#include "words.h"
#include <stdbool.h>
#include <stdio.h>
#include <stdlib.h>
#include <string.h>

enum { NUMBERS = 65536, MOST_TIME = 1000000, IDENTITY = 8 };

const char program[] = "flood";

/* A GET of PRIORITY1 by 0a0b0c0d0e0f1011/1 to every port (IEEE 1588-2019, 13.3 and 15.4). */
static uint8_t request[LEAST_MESSAGE] = {
    MANAGEMENT_TYPE, 2, 0, LEAST_MESSAGE, [SOURCE_AT] = 0x0a, 0x0b, 0x0c, 0x0d, 0x0e, 0x0f, 0x10, 0x11, 0, 1, [32] = 4, 0x7f,
    [TARGET_AT + IDENTITY] = 0xff, 0xff, 1, 1, 0, 0, 0, 1, 0, 2, 0x20, 0x05,
};
static int64_t sent_at[NUMBERS];                /* nanoseconds; 0: answered, or not asked */
static unsigned long answered, times[MOST_TIME + 1];         /* how many answers took this many microseconds */

_Noreturn static void usage(void) {
    fputs("flood INTERFACE IDENTITY RATE SECONDS\n", stderr);
    exit(2);
}

static int port_socket;
static struct sockaddr_storage to;
static socklen_t to_size;
static int64_t sent;

/* Asks with the next number. */
static uint16_t ask(void) {
    uint16_t number = (uint16_t)sent++;
    request[SEQUENCE_AT] = (uint8_t)(number >> 8);
    request[SEQUENCE_AT + 1] = (uint8_t)number;
    sent_at[number] = nanoseconds();
    sendto(port_socket, request, sizeof request, 0, (struct sockaddr *)&to, to_size);
    return number;
}

static bool is_answer(const uint8_t *octets, ssize_t size) {
    return size >= LEAST_MESSAGE && memcmp(octets + SOURCE_AT, request + TARGET_AT, IDENTITY) == 0
           && memcmp(octets + TARGET_AT, request + SOURCE_AT, IDENTITY) == 0;
}

/* Whether something came in. If it is an answer it is counted. */
static bool take_answer(int flags) {
    uint8_t octets[2048];
    ssize_t size = recv(port_socket, octets, sizeof octets, flags);
    if (!is_answer(octets, size)) return size >= 0;
    int64_t *asked = &sent_at[octets[SEQUENCE_AT] << 8 | octets[SEQUENCE_AT + 1]];
    if (*asked == 0) return true;
    int64_t took = (nanoseconds() - *asked) / 1000;
    times[took < MOST_TIME ? took : MOST_TIME]++;
    answered++;
    *asked = 0;
    return true;
}

/* At even times, and 0.2 seconds for the last answers. */
static void ask_at_rate(int64_t rate, int64_t seconds) {
    int64_t begin = nanoseconds(), end = begin + seconds * 1000000000;
    for (int64_t now; (now = nanoseconds()) < end + 200000000;) {
        if (now < end && now >= begin + sent * 1000000000 / rate) ask();
        take_answer(MSG_DONTWAIT);
    }
}

/* One after the other; 0.2 seconds for each answer. */
static void ask_in_turn(int64_t seconds) {
    const struct timeval most = { .tv_usec = 200000 };
    int64_t end = nanoseconds() + seconds * 1000000000;
    setsockopt(port_socket, SOL_SOCKET, SO_RCVTIMEO, &most, sizeof most);
    while (nanoseconds() < end) {
        uint16_t number = ask();
        while (sent_at[number] != 0 && take_answer(0)) continue;
    }
}

/* In how many microseconds N of a hundred were answered. */
static long part(unsigned long percent) {
    unsigned long count = 0;
    long time = 0;
    while (time < MOST_TIME && (count += times[time]) * 100 < answered * percent) time++;
    return time;
}

int main(int argc, char **argv) {
    const char *what;
    int room = 1 << 24;
    if (argc != 5 || !ptpm_identity_parse(argv[2], strlen(argv[2]), request + TARGET_AT)) usage();
    long rate = decimal(argv[3], 1000000), seconds = decimal(argv[4], 1000);
    if (rate < 0 || seconds < 1) usage();
    port_socket = open_udp(argv[1], false, HEARS_GROUP, &what);
    if (port_socket < 0) give_up(what);
    setsockopt(port_socket, SOL_SOCKET, SO_RCVBUFFORCE, &room, sizeof room);
    to_size = group(&to, false);
    if (rate > 0) ask_at_rate(rate, seconds);
    else ask_in_turn(seconds);
    printf("sent %lld answered %lu median %ld p99 %ld\n", (long long)sent, answered, part(50), part(99));
    return 0;
}
