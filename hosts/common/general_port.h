/* What is sent by unicast to UDP port 320 of this host. Linux hands each such datagram to one socket, and a servo of this host, for
   example ptp4l, may wait for it. So it is taken only if nobody else has the port, or a copy of it is heard. */
#pragma once

#include <stdbool.h>
#include <stddef.h>
#include <stdint.h>
#include <sys/socket.h>

/* A socket that gets unicast datagrams to UDP port 320 of this host, at any interface, if no other socket may have them. It comes
   after every socket of IPv4 there, and after each of IPv6 that is bound to an interface, whichever was first. Only management
   messages come in; none if is_heard is false: then it only shows to anyone who asks that somebody is there. -1 and errno if it
   can't be made. */
int open_general_port(bool is_six, bool is_heard);

/* A socket that hears a copy of each management message that is sent by unicast to UDP port 320 of this host. It takes none away.
   It needs the capability CAP_NET_RAW. -1 and errno if it can't be made. */
int open_copies(bool is_six);

/* A socket at another UDP port, to which a rule of the firewall diverts management messages for port 320. They come by unicast, and to
   groups that other sockets have joined. -1 and errno as above. */
int open_diverted(bool is_six, uint16_t port);

/* Has a socket hear nothing from now on; whether it does. */
bool hear_none(int socket);

/* A socket that hears the packets with such datagrams as they come in from a link, with the hardware address of who sent them. -1
   and errno as above. */
int open_packets(bool is_six);

/* Whether a copy, as it was heard at an interface, was sent by the neighbour who has the sender's address. It counts as that if
   nobody knows: no packets are heard, the link has no hardware addresses, or the address is of no link. */
bool is_of_neighbour(int packets, unsigned index, const struct sockaddr *sender, const uint8_t *copy, size_t size);

/* The place of the message in such a copy, and its size in *size, which was that of the copy. 0 if there is none, or its UDP checksum is
   wrong. The sender gets the port that it was sent from. */
size_t message_in_copy(const uint8_t *octets, size_t *size, struct sockaddr *sender);

/* Who gets what comes in by unicast at an interface for UDP port 320 of this host: our socket, another program, or nobody. The
   kernel may report nobody although somebody is there. */
enum general_port { NOBODY_HAS_IT, WE_HAVE_IT, ANOTHER_HAS_IT };
enum general_port who_has_general_port(int ours, unsigned interface, bool is_six);
