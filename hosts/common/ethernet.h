/* Management messages in frames of Ethernet (IEEE 1588-2019, annex E): Ethertype 0x88F7, to the group 01-1B-19-00-00-00. 802.1AS sends
   all its messages to the group of one link, 01-80-C2-00-00-0E, which no bridge passes on. */
#pragma once

#include <stdbool.h>
#include <stddef.h>
#include <stdint.h>
#include <sys/uio.h>

/* What comes before the message in a frame that is sent, how many octets that frame has at least, and how many parts. */
enum { STATION = 6, ETHERNET_HEAD = 14, ETHERNET_LEAST = 60, FRAME_PARTS = 3 };

/* A socket of an interface. Only frames with management messages come in there, to the group and to the interface's own
   address. It hears nothing of what this host sends. own gets the interface's address. -1 if it can't be made: errno says why,
   and *what at which step. */
int open_ethernet(const char *interface, uint8_t own[STATION], const char **what);

/* The group of one link. A socket joins it, also beside the other one; whether it could. */
extern const uint8_t link_group[STATION];
bool join_link_group(int socket, const char *interface);

/* Has a socket hear only frames with management messages, or frames with every message; whether it does. */
bool filter_ethernet(int socket, bool is_management_alone);

/* The place at which the message begins in a frame, after the tags of a VLAN. 0 if the frame has none for the group or this
   address. The frame may be padded after the message. */
size_t message_in(const uint8_t *frame, size_t size, const uint8_t own[STATION]);

/* The same in a frame to the group of one link. */
size_t message_to_link(const uint8_t *frame, size_t size);

/* Whether a frame is only to this address. */
bool is_to_station(const uint8_t *frame, const uint8_t own[STATION]);

/* Who sent a frame. */
const uint8_t *station_of(const uint8_t *frame);

/* Writes the head of a frame to a station or a group. If it is NULL, that is the group of all clocks. */
void write_head(uint8_t head[ETHERNET_HEAD], const uint8_t *to, const uint8_t own[STATION]);

/* The parts of a frame: a head, a message, and zeros after it if the frame would be too short. */
void join_frame(struct iovec parts[FRAME_PARTS], uint8_t head[ETHERNET_HEAD], const uint8_t *message, size_t size);
