/* The transport to the clocks that are asked, over UDP, over Ethernet or on a Unix socket: sockets, and where messages go from
   them. */
#pragma once

#include "task.h"
#include <stdbool.h>
#include <stddef.h>
#include <stdint.h>
#include <sys/socket.h>

/* Finds the transport that the task names. If the task names no manager, its settings get the transport's own. Over UDP and
   Ethernet that is the interface's hardware address with ff and fe in its middle, and its universal/local bit turned. On a Unix socket it is clock 0, like that of
   pmc. Its port is 1. What is in no session has a port of this process instead (port_of_nobody). Only a SET or a COMMAND has that
   of the manager, if one is named. Ends the program with status 2 if there is no transport. */
void find_transport(struct task *task);

/* Opens it. Ends the program with status 2 if it can't be opened. */
void open_transport(const struct task *task);

/* Whether a clock of this host has a Unix socket, and is not asked there. */
bool is_own_clock_left_out(const char *path);

/* Asks a clock of this host too, from now on, on its Unix socket. Whether it can. */
bool ask_own_clock(const char *path);

/* Gives its socket room for the answers of many clocks, 4 MiB as far as the system allows. */
void widen_transport(void);

/* Opens it again at each interface that was removed and made again under its name. What is sent at one that is gone says so. */
void renew_transport(void);

/* Over UDP and Ethernet, has messages of every type come in, or, as at first, only management messages. Of those to UDP port 319 it has
   come in what the program may hear. */
void receive_every_type(bool is_every);

/* Says which clock isn't heard, if the program may hear no copies of what comes by unicast to UDP port 320 of this host. Says too whose
   copies it did not take. */
void tell_deaf_port(void);

/* Says which of its interfaces are gone, are a part of a bridge or a bond, or have no address to ask from. */
void tell_unfit_interfaces(void);

/* What it is called in a notice. */
const char *transport_name(void);

/* What became of a message: of a request NONE_LEFT, if its attempts are used up. */
enum sending { OUT, NO_ROOM, NO_TRANSPORT, NONE_LEFT };

/* Passes a message to the socket, and does not wait for room there. If it answers NO_TRANSPORT, errno says why. */
enum sending send_message(const uint8_t *octets, size_t size);

/* Says by errno why nothing was sent. */
void say_not_sent(void);

/* At which interface the latest message went out: the first, the second and so on, as they were named; NULL after the last. On a
   Unix socket there is none. */
const char *sent_at(size_t place);

/* How many octets come in at once at most. */
enum { MOST_DATAGRAM = 65536 };

/* The next message that comes in before a time. It stays until the next call, and octets may follow it. NULL if none does, or a
   signal asks the program to end. */
const uint8_t *receive_message(size_t *size, int64_t end);

/* From now on each message that comes from off the link, and so is not taken, is handed to this; NULL is nobody. */
void hand_strangers(void (*take)(const uint8_t *message, size_t size));

/* The sender of the message that came in last, as a text: an address of IPv4 or IPv6, a MAC, or a path. "" if it is
   not known. And the interface that it came in at; NULL on a Unix socket. */
const char *sender_text(void);
const char *came_in_at(void);

/* How a message came in: at which socket, from whom, and whether no router had passed it on. */
struct way { int socket; struct sockaddr_storage sender; bool is_near; };

/* That of the message that came in last; and whether it came in by this one. */
struct way way_of_message(void);
bool came_by(const struct way *way);

/* If several interfaces were named, or one and a Unix socket: from now on no answer came at any of them. Then the message that came in last
   is one. */
void forget_ways(void);
void note_way(void);

/* The first of these ways, the second and so on, and whether an answer came at it; NULL after the last. */
const char *named_way(size_t place, bool *has_answer);

/* Says at which of them no answer came, though one did the time before. */
void tell_silent_ways(void);

/* Whether the clocks of one address are asked, by --udp, and not a group. */
bool asks_one_address(void);

/* Whether it came from whom is asked: from the address of --udp, or else from anybody. */
bool came_from_asked(void);

/* The identity that this host has at an interface by its hardware address: at the first, the second and so on. Whether there is
   one. */
bool own_identity(size_t place, uint8_t identity[8]);

/* Whether an interface of this host has the identity, which a clock of this host may have then. */
bool is_of_this_host(const uint8_t identity[8]);
