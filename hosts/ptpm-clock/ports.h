/* The ports of ptpm-clock at this host's interfaces: a socket each, which stays with its interface's name. */
#pragma once

#include "ethernet.h"
#include "ptpm.h"
#include <stdbool.h>
#include <stddef.h>
#include <stdint.h>

enum { PORTS = PTPM_MOST_PORTS };

/* How messages go over the interfaces (IEEE 1588-2019, annexes C, D and E). */
enum transport { UDP_IPV4, UDP_IPV6, ETHERNET };

/* A port of the clock. While its interface is gone it has no socket, -1, and index 0. */
struct port {
    const char *name;
    int socket;
    unsigned index;             /* the kernel's number of the interface */
    uint8_t station[STATION];   /* its address on Ethernet */
    unsigned mtu, refused;      /* as the kernel reported last; the index at which it could not be opened */
    bool is_due;                /* it may not be in its group any more */
    unsigned long openings;     /* how many sockets it had */
};

extern struct port ports[PORTS];
extern size_t port_count;
extern enum transport transport;

/* The UDP port to which a rule of the firewall diverts what comes in for port 320, or 0. Then the ports join the group and send, and
   nothing is heard there. */
extern uint16_t diverted_port;

/* Opens the next port. If it can't be opened the program ends with status 2. */
void open_port(const char *interface);

/* The port at the interface of that index; NULL if there is none. */
const struct port *port_at(unsigned index);

/* Once a second, and when the kernel reports a change, sees which interface has the name of each port. If it is another one, it
   opens the port again. What can't be opened is said once, and tried again each second. */
void renew_ports(int64_t now);

/* Takes what the kernel has reported of interfaces. */
void hear_of_links(void);

void close_ports(void);
