/* What ptpm-clock keeps from the network of what its agent would send, and from its agent of what managers send. It limits how far
   messages are forwarded, which of them, and how many per second. So no message circulates forever, and a stranger that sends
   little can't cause much to be sent. Nor can anyone who claims to be a manager make the clock save without end. */
#pragma once

#include "ptpm.h"
#include "rounds.h"
#include <stdbool.h>

struct limits {
    long hops;                          /* how many clocks forward a message at most, this one included */
    long rate;                          /* how many messages a port forwards per second, and how many answers it sends there */
    long manager_rate;                  /* how many requests of managers a port takes per second */
    bool is_passed_on;                  /* messages are forwarded between the ports */
    bool is_passed_on_from_host;        /* and those of programs of this host */
    bool is_passed_on_unread;           /* and those that the library refuses for their TLVs */
    bool is_any_source;                 /* also from addresses that are not on the link */
    bool is_near;                       /* of unicast only what no router has passed on (RFC 5082) */
};

void start_limits(void);

/* Says at which interfaces nobody is heard, since they have no address whose network a sender could be in. */
void say_deaf_ports(void);

/* Whether a datagram is heard at all: it comes from a program of this host, from a neighbour at his own address, or any may. One that is not is counted. */
bool admit_datagram(const struct heard *heard);

/* Whether it is from a manager and only for this clock, so that it may be answered as a numbered request, and be saved. Nobody can
   know who sent it. */
bool is_of_manager(const struct heard *heard);

/* Whether such a datagram is taken: its sender has not sent too many, or is a program of this host. One that is not is counted. */
bool admit_manager(const struct heard *heard);

/* Whether the answer to a GET is within the rate, before its value is read. Then it is not asked again. */
bool admit_answer_ahead(struct heard *heard);

/* Lowers boundaryHops (octet 45) to the limit, and startingBoundaryHops (octet 44) by the same amount. So an answer has as many
   hops as it would have otherwise (15.4.1), and what is forwarded has fewer. */
void lower_hops(struct heard *heard);

/* Which of the messages that the agent made of a datagram are to go out. Those at the port that it came in at answer it, and the
   others forward it. Keeps them in their order at the head of the places; how many there are. */
size_t keep_back(const struct heard *heard, uint32_t answer, const struct ptpm_sent *sent, size_t count,
                 const struct ptpm_sent *kept[TURN]);
