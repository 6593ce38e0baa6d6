#include "ethernet.h"
#include "message_places.h"
#include "socket_option.h"
#include <arpa/inet.h>
#include <linux/filter.h>
#include <linux/if_packet.h>
#include <net/if.h>
#include <stdio.h>
#include <string.h>
#include <sys/ioctl.h>
#include <sys/socket.h>

enum { PTP = 0x88f7, TAG = 0x8100, SERVICE_TAG = 0x88a8, TAG_SIZE = 4, TYPE = 12 };

static const uint8_t group_station[STATION] = { 0x01, 0x1b, 0x19, 0x00, 0x00, 0x00 };
const uint8_t link_group[STATION] = { 0x01, 0x80, 0xc2, 0x00, 0x00, 0x0e };

/* Of frames with this Ethertype, after one tag or none, those whose messageType is 0xD. */
static const struct sock_filter wanted[] = {
    BPF_STMT(BPF_LD | BPF_H | BPF_ABS, TYPE),
    BPF_JUMP(BPF_JMP | BPF_JEQ | BPF_K, PTP, 6, 0),
    BPF_JUMP(BPF_JMP | BPF_JEQ | BPF_K, TAG, 1, 0),
    BPF_JUMP(BPF_JMP | BPF_JEQ | BPF_K, SERVICE_TAG, 0, 7),
    BPF_STMT(BPF_LD | BPF_H | BPF_ABS, TYPE + TAG_SIZE),
    BPF_JUMP(BPF_JMP | BPF_JEQ | BPF_K, PTP, 0, 5),
    BPF_STMT(BPF_LD | BPF_B | BPF_ABS, ETHERNET_HEAD + TAG_SIZE + TYPE_AT),
    BPF_JUMP(BPF_JMP | BPF_JA, 1, 0, 0),
    BPF_STMT(BPF_LD | BPF_B | BPF_ABS, ETHERNET_HEAD + TYPE_AT),
    LETS_IN_MANAGEMENT,
};

/* Reads the interface's own address; whether it could. */
static bool read_station(int socket, const char *interface, uint8_t own[STATION]) {
    struct ifreq request = { 0 };
    snprintf(request.ifr_name, sizeof request.ifr_name, "%s", interface);
    if (ioctl(socket, SIOCGIFHWADDR, &request)) return false;
    memcpy(own, request.ifr_hwaddr.sa_data, STATION);
    return true;
}

bool filter_ethernet(int socket, bool is_management_alone) {
    return set_filter(socket, is_management_alone ? wanted : NULL, sizeof wanted / sizeof *wanted);
}

static struct packet_mreq membership(unsigned index, const uint8_t group[STATION]) {
    struct packet_mreq join = { .mr_ifindex = (int)index, .mr_type = PACKET_MR_MULTICAST, .mr_alen = STATION };
    memcpy(join.mr_address, group, STATION);
    return join;
}

bool join_link_group(int socket, const char *interface) {
    struct packet_mreq join = membership(index_of(socket, interface), link_group);
    return setsockopt(socket, SOL_PACKET, PACKET_ADD_MEMBERSHIP, &join, sizeof join) == 0;
}

/* The socket hears nothing until it is bound, and by then it has its filter. */
static bool join_group(int socket, const char *interface, uint8_t own[STATION], const char **what) {
    const int one = 1;
    unsigned index = index_of(socket, interface);
    struct sockaddr_ll place = { .sll_family = AF_PACKET, .sll_protocol = htons(PTP), .sll_ifindex = (int)index };
    struct packet_mreq join = membership(index, group_station);
    *what = interface;
    if (index == 0 || !read_station(socket, interface, own)) return false;
    *what = "SO_ATTACH_FILTER";
    if (!filter_ethernet(socket, true) || !SET_OPTION(socket, SOL_PACKET, PACKET_IGNORE_OUTGOING, one, what)
        || !SET_OPTION(socket, SOL_PACKET, PACKET_ADD_MEMBERSHIP, join, what)) return false;
    *what = "Ethertype 0x88F7";
    return bind(socket, (struct sockaddr *)&place, sizeof place) == 0;
}

int open_ethernet(const char *interface, uint8_t own[STATION], const char **what) {
    *what = "a socket of Ethernet";
    int opened = socket(AF_PACKET, SOCK_RAW | SOCK_CLOEXEC, 0);
    return opened < 0 || join_group(opened, interface, own, what) ? opened : closed(opened);
}

bool is_to_station(const uint8_t *frame, const uint8_t own[STATION]) { return memcmp(frame, own, STATION) == 0; }

const uint8_t *station_of(const uint8_t *frame) { return frame + STATION; }

/* The place of the message in a frame that has a whole head. */
static size_t place_of_message(const uint8_t *frame, size_t size) {
    size_t place = TYPE;
    while (place + 2 + TAG_SIZE <= size && (number_at(frame + place) == TAG || number_at(frame + place) == SERVICE_TAG)) place += TAG_SIZE;
    return number_at(frame + place) == PTP ? place + 2 : 0;
}

size_t message_in(const uint8_t *frame, size_t size, const uint8_t own[STATION]) {
    if (size < ETHERNET_HEAD || (!is_to_station(frame, own) && !is_to_station(frame, group_station))) return 0;
    return place_of_message(frame, size);
}

size_t message_to_link(const uint8_t *frame, size_t size) {
    return size < ETHERNET_HEAD || !is_to_station(frame, link_group) ? 0 : place_of_message(frame, size);
}

void write_head(uint8_t head[ETHERNET_HEAD], const uint8_t *to, const uint8_t own[STATION]) {
    memcpy(head, to != NULL ? to : group_station, STATION);
    memcpy(head + STATION, own, STATION);
    put_number(head + TYPE, PTP);
}

void join_frame(struct iovec parts[FRAME_PARTS], uint8_t head[ETHERNET_HEAD], const uint8_t *message, size_t size) {
    static uint8_t zeros[ETHERNET_LEAST];
    size_t whole = ETHERNET_HEAD + size;
    parts[0] = (struct iovec){ head, ETHERNET_HEAD };
    parts[1] = (struct iovec){ (void *)message, size };
    parts[2] = (struct iovec){ zeros, whole < ETHERNET_LEAST ? ETHERNET_LEAST - whole : 0 };
}
