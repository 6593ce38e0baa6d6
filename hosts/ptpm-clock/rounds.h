/* Datagrams in rounds: what has come in at a socket by now, up to 64 at once, and what goes out after a round. Nothing waits for a
   round to be full. They come in at the ports, and by unicast at UDP port 320 of this host, or at the port to which all is diverted. */
#pragma once

#include "ports.h"
#include "ptpm.h"
#include "udp.h"
#include <stdbool.h>
#include <stddef.h>
#include <sys/socket.h>
#include <sys/un.h>

/* How many datagrams a round has, how many octets of one are kept, and how many messages a turn makes at most. */
enum { ROUND = 64, MOST_HEARD = 2048, TURN = PTPM_MOST_SENT_OF(PORTS) };

/* Who sent a datagram. */
union sender {
    struct sockaddr any;
    struct sockaddr_in four;
    struct sockaddr_in6 six;
    struct sockaddr_un peer;            /* a program of this host, whose path may be 108 octets without an end */
    struct sockaddr_storage room;
};

/* A datagram. Octets past the first 2,048 belong to no message, and are not kept. */
struct heard {
    uint8_t *octets;
    size_t size, whole;                 /* the octets that are kept, and all that came in */
    union sender sender;
    socklen_t sender_size;
    const uint8_t *station;             /* its sender over Ethernet */
    const struct port *port;            /* that of the interface; NULL on the Unix socket */
    bool is_of_owner;                   /* it came in at the socket of the device's owner */
    bool is_of_earlier_run;             /* it came in at an earlier run of the program */
    bool is_unicast;                    /* it was sent only to this host, and the answer goes only to its sender */
    bool is_passed_on;                  /* such a datagram came from another neighbour than the one who has its sender's address */
    enum { NO_SHARE_ASKED, HAS_SHARE, OVER_RATE } share;     /* whether its answer is within the rate, if that was asked ahead */
    struct reported own;                /* the address that it was sent to, and its TTL, 0 if it isn't known */
};

/* The number of the port that it came in at, which is 1 on the Unix socket. */
static inline uint16_t ingress_of(const struct heard *heard) { return heard->port == NULL ? 1 : (uint16_t)(heard->port - ports + 1); }

/* Takes what has come in at a port, or, if there is none, on the Unix socket, but no more than this; how many datagrams. They stay
   until the next round. */
size_t hear_round(const struct port *port, int socket, size_t most, struct heard heard[ROUND]);

/* Opens what hears unicast: copies of it if the program may, and otherwise the port itself, if nobody else has it. Comes after the ports
   are open and before rights are dropped. */
void open_unicast(void);

/* Once a second: takes the port if nobody else has it any more, and says at which interface another program has it by now. */
void renew_unicast(void);

/* What is polled; -1 if nothing is heard. */
int unicast_socket(void);

/* Takes what has come in there, as hear_round does. What comes in at no interface of a port is left out. */
size_t hear_unicast(struct heard heard[ROUND]);

void close_unicast(void);

/* The places of a turn's messages, TURN of them. NULL if there are fewer: then what is to go out has to be sent first. */
struct ptpm_sent *places_to_send(void);

/* A message that is in the next place, or after others, is to go out at its port. It goes to the sender of what it answers, if
   that came by unicast, and otherwise to the group. */
void send_later(const struct ptpm_sent *message, const struct heard *answered);

/* The first `count` places are used. */
void use_places(size_t count);

/* Sends what is to go out. How many messages were dropped, since a socket didn't accept them at once. */
unsigned long send_round(void);
