/* A domain of a site: its domainNumber and its sdoId (IEEE 1588-2019, 7.1.1 and 7.1.4). The library asks and judges only in sdoId 0. So
   another one is written into what it sends, and taken out of what it judges. And the domains in which a site is asked: those that the
   command line names, or in which clocks are heard. */
#pragma once

#include "message_places.h"
#include "task.h"
#include <stdbool.h>
#include <stddef.h>
#include <stdint.h>
#include <stdio.h>

/* The greatest sdoId, that of 802.1AS, and room for a domain as a text. */
enum { MOST_SDO = 0xfff, SDO_OF_GPTP = 0x100, DOMAIN_TEXT = 10 };

/* majorSdoId is the upper half of an octet, and the upper third of an sdoId (13.3.2.2). */
enum { MAJOR_SHIFT = 4, MINOR_BITS = 8, MINOR = 0xff };

struct domain { uint8_t number; uint16_t sdo; };

static inline bool is_same_domain(struct domain one, struct domain other) { return one.number == other.number && one.sdo == other.sdo; }

/* That of a message whose header is there. */
static inline struct domain domain_of(const uint8_t *message) {
    unsigned major = message[TYPE_AT] >> MAJOR_SHIFT;
    return (struct domain){ .number = message[DOMAIN_AT], .sdo = (uint16_t)(major << MINOR_BITS | message[SDO_AT]) };
}

/* Gives a message this sdoId. */
static inline void write_sdo(uint8_t *message, uint16_t sdo) {
    message[TYPE_AT] = (uint8_t)((message[TYPE_AT] & LOWER_HALF) | sdo >> MINOR_BITS << MAJOR_SHIFT);
    message[SDO_AT] = (uint8_t)(sdo & MINOR);
}

/* As users read it: `4`, or `4@0x100` if its sdoId is not 0. */
static inline void write_domain(char text[DOMAIN_TEXT], struct domain domain) {
    if (domain.sdo == 0) snprintf(text, DOMAIN_TEXT, "%u", domain.number);
    else snprintf(text, DOMAIN_TEXT, "%u@0x%03x", domain.number, domain.sdo & MOST_SDO);
}

/* Strangers may send in each of 4,096 sdoIds, so there is room for a number of them. Those that have none are left out. */
enum { MOST_SDOS = 8 };

struct domains { size_t sdo_count; uint16_t sdos[MOST_SDOS]; bool is_in[MOST_SDOS][DOMAINS], has_left_out; };

/* Finds them. It listens as long as the task says, and with `all` domains, or `all` sdoIds, adds those that are heard. With `all` domains it
   then asks once in each domain, and adds those in which a clock answers. On a Unix socket none comes in: there it takes each of the 256 of
   one sdoId. */
void find_domains(struct domains *domains, const struct task *task);

/* Hears what comes in for this many milliseconds, and with `all` adds the domains in which a clock sends. */
void listen_for_domains(struct domains *domains, const struct task *task, int64_t milliseconds);

/* Adds one. If there is no room for its sdoId that is said once. */
void add_domain(struct domains *domains, struct domain domain);

/* Whether it is asked in one of this sdoId. */
bool is_sdo_asked(const struct domains *domains, uint16_t sdo);

/* The domains, sdoId by sdoId, each time the one from this place on; and whether there is one. The place begins with 0. */
bool next_domain(const struct domains *domains, size_t *place, struct domain *domain);

/* The domains as a text, like that of `ptpm site`: `domain 5`, or `domain 0-7, 127, 4@0x100`. It is there until the next call. */
const char *domains_text(const struct domains *domains);
