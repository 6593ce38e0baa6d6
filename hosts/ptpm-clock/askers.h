/* Who is answered once the clock is saved. The clock gives the messages out in the order in which they were made, and that is the order
   of those who asked. */
#pragma once

#include "ethernet.h"
#include "message_places.h"
#include "ptp4l.h"
#include "ptpm.h"
#include "rounds.h"
#include <stdbool.h>
#include <stddef.h>

/* While fewer messages wait, another turn is taken. Requests at ports leave half of the places to programs of this host. */
enum { MOST_WAITING = 128, MOST_OF_PORTS = MOST_WAITING / 2 };

/* A request whose messages wait. Its octets are not kept, except for its sourcePortIdentity and sequenceId. */
struct asker {
    struct heard heard;
    uint8_t station[STATION], request[PORT_IDENTITY + 2];
    uint16_t port;                      /* at which it was handed in */
    size_t count;                       /* its messages that still wait */
    struct ptpm_changed changed;
    struct learned value;               /* what a ptp4l said of it, if there is one */
};

/* Adds one after the others, which was handed in at this port: `taken->waiting` messages, 1 or more, are for it. The value is NULL if no
   ptp4l is asked. */
void add_asker(const struct heard *heard, uint16_t port, const struct ptpm_taken *taken, const struct learned *value);

/* The one that the next message is for. That message waits no more. The asker stays until another one is added. */
const struct asker *next_asker(void);

/* Whether a copy of this request waits. */
bool is_asking(const struct heard *heard);

/* How many messages of requests at ports wait, and how many requests of programs of this host. */
size_t port_messages(void);
size_t peers_asking(void);
