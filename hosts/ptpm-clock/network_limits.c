#include "network_limits.h"
#include "counts.h"
#include "message_places.h"
#include "monotonic.h"
#include "netlink.h"
#include "options.h"
#include "output.h"
#include "program.h"
#include <errno.h>
#include <string.h>
#include <sys/random.h>

/* For how many milliseconds a message is not forwarded again, and an address keeps its place at least. */
enum { NOTED = 1000, KEPT = 1000 };

/* How many addresses have tokens of their own, and how many of managers; and how many octets one has at most. */
enum { MOST_SHARES = 32, MANAGERS_HEARD = 8, ADDRESS = 16 };

/* The tokens of one address, which was heard at this time last; 0 if the place is free. */
struct share { uint8_t address[ADDRESS]; uint64_t heard; struct ptpm_rate own; };

/* A rate that those who send share. All of them have its tokens together, and the latest addresses have a few of their own besides.
   So one address that sends without end leaves others theirs. A sender with many addresses may still take the places of others. */
struct shares {
    struct ptpm_rate all;
    struct share places[MOST_SHARES];
    size_t count;                   /* of the places that are used */
    uint64_t own;                   /* tokens of an address a second */
};

static struct ptpm_passed_on passed_on;
static struct shares copies[PORTS], answers[PORTS], requests[PORTS];

static uint64_t time_now(void) { return (uint64_t)milliseconds(); }

/* All have this many tokens a second together. Each of `count` addresses has as many that together they have half as many again,
   but at least `least` a second. */
static void start_shares(struct shares *shares, long rate, size_t count, size_t least) {
    uint64_t own = (uint64_t)rate / (2 * count);
    *shares = (struct shares){ .count = count, .own = own > least ? own : least };
    ptpm_rate_start(&shares->all, (uint64_t)rate, time_now());
}

/* The address that a datagram came from; whether it came from one. */
static bool read_address(uint8_t address[ADDRESS], const struct heard *heard) {
    size_t size = STATION;
    const uint8_t *octets = heard->station != NULL ? heard->station : address_octets(&heard->sender.any, &size);
    memset(address, 0, ADDRESS);
    memcpy(address, octets, size);
    return size > 0;
}

/* The place of an address. A new one gets the place whose address was heard longest ago, unless that was just now: NULL then. */
static struct share *place_of(struct shares *shares, const uint8_t address[ADDRESS], uint64_t now) {
    struct share *oldest = &shares->places[0];
    for (struct share *one = shares->places; one < shares->places + shares->count; one++) {
        if (one->heard != 0 && memcmp(one->address, address, ADDRESS) == 0) return one;
        if (one->heard < oldest->heard) oldest = one;
    }
    if (oldest->heard != 0 && now < oldest->heard + KEPT) return NULL;
    memcpy(oldest->address, address, ADDRESS);
    ptpm_rate_start(&oldest->own, shares->own, now);
    return oldest;
}

/* Takes a token of a datagram's sender, or else one of those of all; whether there is one. A program of this host has only those of
   all. */
static bool take_share(struct shares *shares, const struct heard *heard, uint64_t now) {
    uint8_t address[ADDRESS];
    struct share *place = read_address(address, heard) ? place_of(shares, address, now) : NULL;
    if (place != NULL) place->heard = now;
    return (place != NULL && ptpm_rate_take(&place->own, now)) || ptpm_rate_take(&shares->all, now);
}

void start_limits(void) {
    if (getrandom(&passed_on.seed, sizeof passed_on.seed, 0) < 0) give_up("getrandom");
    for (size_t i = 0; i < port_count; i++) {
        start_shares(&copies[i], options->limits.rate, MOST_SHARES, 1);
        start_shares(&answers[i], options->limits.rate, MOST_SHARES, port_count);
        start_shares(&requests[i], options->limits.manager_rate, MANAGERS_HEARD, 1);
    }
}

void say_deaf_ports(void) {
    if (options->limits.is_any_source || transport != UDP_IPV4) return;
    if (!has_networks()) {
        say("the addresses of interfaces: %s: until they can be read, nobody is heard without --any-source", strerror(errno));
        return;
    }
    for (size_t i = 0; i < port_count; i++) {
        if (has_address(ports[i].index, AF_INET)) continue;
        say("%s has no address of IPv4: until it has one, nobody is heard there without --any-source", ports[i].name);
    }
}

bool admit_datagram(const struct heard *heard) {
    if (heard->port == NULL || transport == ETHERNET) return true;
    bool is_near = !options->limits.is_near || !heard->is_unicast || heard->own.ttl == FULL_TTL;
    bool is_of_link = !heard->is_passed_on && is_on_link(heard->port->index, &heard->sender.any);
    if (is_near && (options->limits.is_any_source || is_of_link)) return true;
    counts[NOT_ON_LINK]++;
    return false;
}

void lower_hops(struct heard *heard) {
    if (heard->size < LEAST_MESSAGE || heard->octets[HOPS_AT] <= options->limits.hops) return;
    uint8_t less = (uint8_t)(heard->octets[HOPS_AT] - options->limits.hops), starting = heard->octets[STARTING_HOPS_AT];
    heard->octets[HOPS_AT] = (uint8_t)options->limits.hops;
    heard->octets[STARTING_HOPS_AT] = starting > less ? (uint8_t)(starting - less) : 0;
}

bool is_of_manager(const struct heard *heard) {
    const uint8_t *own = options->settings.identity;
    if (heard->size < LEAST_MESSAGE || memcmp(heard->octets + TARGET_AT, own, CLOCK_IDENTITY) != 0) return false;
    const uint8_t *source = heard->octets + SOURCE_AT;
    uint16_t port = number_at(heard->octets + SOURCE_PORT_AT);
    for (size_t i = 0; i < options->manager_count; i++) {
        const struct ptpm_manager_settings *manager = &options->managers[i];
        if (memcmp(manager->clock, source, sizeof manager->clock) == 0 && manager->port == port) return true;
    }
    return false;
}

bool admit_manager(const struct heard *heard) {
    if (heard->port == NULL || take_share(&requests[ingress_of(heard) - 1], heard, time_now())) return true;
    counts[OVER_RATE_OF_MANAGERS]++;
    return false;
}

/* Whether a message is to be forwarded at all. It is asked once for each, since it is recorded. */
static bool admit_copies(const struct heard *heard, uint64_t now) {
    if (!options->limits.is_passed_on || options->limits.hops == 0) return false;
    if (heard->port == NULL && (heard->is_of_owner || !options->limits.is_passed_on_from_host)) return false;
    if (ptpm_passed_on_is_first(&passed_on, heard->octets, heard->size, now, NOTED)) return true;
    counts[NOT_PASSED_ON_AGAIN]++;
    return false;
}

/* Answers to programs of this host are not counted, nor those to requests of managers, which were counted as they came in. */
static bool admit_answer(const struct heard *heard, uint32_t answer, uint64_t now) {
    if (heard->port == NULL || answer != PTPM_ANSWERED_UNNUMBERED || heard->share == HAS_SHARE) return true;
    if (heard->share == NO_SHARE_ASKED && take_share(&answers[ingress_of(heard) - 1], heard, now)) return true;
    counts[OVER_RATE_ANSWERED]++;
    return false;
}

bool admit_answer_ahead(struct heard *heard) {
    if (heard->port == NULL || is_of_manager(heard)) return true;
    bool is_admitted = take_share(&answers[ingress_of(heard) - 1], heard, time_now());
    if (heard->share != HAS_SHARE) heard->share = is_admitted ? HAS_SHARE : OVER_RATE;
    return is_admitted;
}

size_t keep_back(const struct heard *heard, uint32_t answer, const struct ptpm_sent *sent, size_t count,
                 const struct ptpm_sent *kept[TURN]) {
    uint16_t ingress = ingress_of(heard);
    size_t left = 0;
    bool is_asked = false, is_going_on = false;
    uint64_t now = count > 0 ? time_now() : 0;
    for (size_t i = 0; i < count; i++) {
        if (sent[i].port == ingress) {
            if (admit_answer(heard, answer, now)) kept[left++] = &sent[i];
            continue;
        }
        if (!is_asked) is_going_on = admit_copies(heard, now);
        is_asked = true;
        if (!is_going_on) continue;
        if (take_share(&copies[sent[i].port - 1], heard, now)) kept[left++] = &sent[i];
        else counts[OVER_RATE_PASSED_ON]++;
    }
    return left;
}
