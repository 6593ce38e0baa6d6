/* The sockets of a port over UDP: what comes to the group of PTP, and what is sent from here. */
#pragma once

#include <netinet/in.h>
#include <stdbool.h>
#include <sys/socket.h>

/* The UDP ports for event messages, and for all others. */
enum { EVENT_PORT = 319, GENERAL_PORT = 320 };

/* The TTL, or hop limit, with which all unicast is sent. No router passes it on with that one (RFC 5082). */
enum { FULL_TTL = 255 };

/* Has the kernel report the TTL of each datagram that comes in at a socket; whether it does. */
bool tell_ttl(int socket, bool is_six);

/* What the kernel was to report of a datagram, 0 if it does not. That is the address that it was sent to, the interface at which it came in,
   over IPv4 or IPv6, and its TTL. */
struct reported { struct in_pktinfo four; struct in6_pktinfo six; int ttl; };
struct reported reported_in(struct msghdr *head);

/* What a socket of an interface is for. One hears what comes to the group of PTP there, at UDP port 320: only management messages. Another
   hears a copy of each event message to the group, at port 319: Sync and Delay_Req. Neither takes anything that is sent to this host by
   unicast. The third asks from a port of its own, to which a unicast answer comes back (IEEE 1588-2019, annexes C and D). */
enum udp_use { HEARS_GROUP, HEARS_EVENTS, ASKS };

/* Opens one, in which nothing comes in of what this host sends. -1 if it can't be made: errno says why, and *what at which step. */
int open_udp(const char *interface, bool is_six, enum udp_use use, const char **what);

/* Has a socket hear only management messages, or every message; whether it does. The kernel drops the rest before the program
   wakes, and counts it as errors of UDP. */
bool filter_udp(int socket, bool is_management_alone);

/* Which right is needed to open such a socket, or one for Ethernet, as a text that follows that of errno. It is empty if errno is
   about no right. */
const char *right_needed(bool is_ethernet);

/* From now on the group of PTP over IPv6 is another one than ff0e::181, for example ff02::181, whose scope is the link. */
void use_group(const struct in6_addr *other);

/* The address of that group, and its size. */
socklen_t group(struct sockaddr_storage *to, bool is_six);

/* Joins that group once more at an interface whose memberships may be gone, for example since its MTU was too small. Whether it is
   done. */
bool join_again(int socket, unsigned interface, bool is_six);
