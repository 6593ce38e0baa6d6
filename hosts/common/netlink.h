/* What the kernel reports of this host's interfaces (rtnetlink): that one went, came or has another MTU. And what it answers: which
   addresses are on a link, and which neighbour has one. */
#pragma once

#include "ethernet.h"
#include <linux/netlink.h>
#include <stdbool.h>
#include <stdint.h>
#include <sys/socket.h>

/* How many octets the kernel's answer to a question has, which is in *answer, as far as there is room; -1 if there is none. */
ssize_t ask_kernel(int protocol, const struct nlmsghdr *question, void *answer, size_t room);

/* The octets of an address of IPv4 or IPv6, and how many there are; none of another family. */
const uint8_t *address_octets(const struct sockaddr *address, size_t *size);

/* What became of the interface of an index, and the MTU that it has; 0 if it isn't known. */
enum link_event { LINK_GONE, LINK_CHANGED };
typedef void link_taker(unsigned index, enum link_event event, unsigned mtu);

/* What is to be polled. Ends the program with status 2 if the kernel reports nothing. */
int open_netlink(void);

/* Reads what the kernel has reported by now, and hands on each event of an interface. If it reported more than was kept, each
   interface may have changed: index 0. */
void read_netlink(link_taker *take);

/* Whether the kernel could be asked for the addresses of interfaces, as the next two calls do. If not, errno says why. */
bool has_networks(void);

/* Whether the interface has an address of that family. */
bool has_address(unsigned index, sa_family_t family);

/* Whether an address of IPv4 or IPv6 belongs to a network at the interface. That is one of its own addresses', or one to which a
   route that is not a default route leads there without a gateway. With IPv6 it may also be an address of the link. For routes the
   kernel is asked a hundred times a second at most; beyond that the answer is no. */
bool is_on_link(unsigned index, const struct sockaddr *address);

/* For a program that does not read what the kernel reports: the addresses of interfaces may have changed. */
void forget_networks(void);

/* Whether an address belongs to the neighbour at the interface who has this hardware address. What a router passes on has the
   router's. If the kernel doesn't know who has the address, the answer is no, and the kernel asks the link. */
bool is_station_of(unsigned index, const struct sockaddr *address, const uint8_t station[STATION]);
