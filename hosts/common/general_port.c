#include "general_port.h"
#include "message_places.h"
#include "netlink.h"
#include "socket_option.h"
#include "udp.h"
#include <arpa/inet.h>
#include <linux/filter.h>
#include <linux/if_ether.h>
#include <linux/if_packet.h>
#include <linux/inet_diag.h>
#include <linux/sock_diag.h>
#include <net/if_arp.h>
#include <netinet/udp.h>
#include <string.h>
#include <sys/stat.h>

enum { FOUR_FROM_AT = 12, FOUR_TO_AT = 16, SIX_FROM_AT = 8, SIX_TO_AT = 24, SIX_HEAD = 40 };
enum { GROUPS_FOUR = 0xe0, GROUPS_SIX = 0xff, UPPER_HALF = 0xf0, PORT_AT = 2 };

/* Of copies over IPv4, which begin with their IP header: those to port 320 of no group whose messageType is 0xD. */
static const struct sock_filter wanted_of_four[] = {
    BPF_STMT(BPF_LDX | BPF_B | BPF_MSH, 0),
    BPF_STMT(BPF_LD | BPF_H | BPF_IND, PORT_AT),
    BPF_JUMP(BPF_JMP | BPF_JEQ | BPF_K, GENERAL_PORT, 0, 6),
    BPF_STMT(BPF_LD | BPF_B | BPF_ABS, FOUR_TO_AT),
    BPF_STMT(BPF_ALU | BPF_AND | BPF_K, UPPER_HALF),
    BPF_JUMP(BPF_JMP | BPF_JEQ | BPF_K, GROUPS_FOUR, 3, 0),
    BPF_STMT(BPF_LD | BPF_B | BPF_IND, sizeof(struct udphdr) + TYPE_AT),
    LETS_IN_MANAGEMENT,
};

/* The same over IPv6, by the places of the UDP header and of the address. */
#define WANTED_OF_SIX(udp_at, to_at) { \
    BPF_STMT(BPF_LD | BPF_H | BPF_ABS, (udp_at) + PORT_AT), \
    BPF_JUMP(BPF_JMP | BPF_JEQ | BPF_K, GENERAL_PORT, 0, 5), \
    BPF_STMT(BPF_LD | BPF_B | BPF_ABS, to_at), \
    BPF_JUMP(BPF_JMP | BPF_JEQ | BPF_K, GROUPS_SIX, 3, 0), \
    BPF_STMT(BPF_LD | BPF_B | BPF_ABS, (udp_at) + sizeof(struct udphdr) + TYPE_AT), \
    LETS_IN_MANAGEMENT, \
}

/* Copies begin with their UDP header, and packets with their IP header. */
static const struct sock_filter wanted_of_six[] = WANTED_OF_SIX(0, (uint32_t)SKF_NET_OFF + SIX_TO_AT);
static const struct sock_filter wanted_packets_of_six[] = WANTED_OF_SIX(SIX_HEAD, SIX_TO_AT);

/* Nothing at all. */
static const struct sock_filter wanted_of_none[] = { BPF_STMT(BPF_RET | BPF_K, 0) };

/* The kernel is to report of each datagram where it came in, which address it was sent to, and its TTL. */
static bool tell_places(int socket, bool is_six) {
    return tell_ttl(socket, is_six)
           && (is_six ? set_number(socket, IPPROTO_IPV6, IPV6_RECVPKTINFO, 1) : set_number(socket, IPPROTO_IP, IP_PKTINFO, 1));
}

/* Of the sockets at a port Linux prefers one of IPv4 for what comes by IPv4. Then it prefers one that is bound to an interface, and
   then the latest. So this one is of IPv6, but hears IPv4, and is bound to none. Groups that other sockets have joined are not its
   own. */
static bool bind_last(int socket, sa_family_t family, bool is_six) {
    struct sockaddr_in6 six = { .sin6_family = AF_INET6, .sin6_port = htons(GENERAL_PORT) };
    struct sockaddr_in four = { .sin_family = AF_INET, .sin_port = htons(GENERAL_PORT) };
    if (!tell_places(socket, is_six) || !set_number(socket, SOL_SOCKET, SO_REUSEADDR, 1)) return false;
    if (!is_six && !set_number(socket, IPPROTO_IP, IP_MULTICAST_ALL, 0)) return false;
    if (family == AF_INET) return bind(socket, (struct sockaddr *)&four, sizeof four) == 0;
    return set_number(socket, IPPROTO_IPV6, IPV6_V6ONLY, is_six) && set_number(socket, IPPROTO_IPV6, IPV6_MULTICAST_ALL, 0)
           && bind(socket, (struct sockaddr *)&six, sizeof six) == 0;
}

int open_general_port(bool is_six, bool is_heard) {
    sa_family_t family = AF_INET6;
    int opened = socket(family, SOCK_DGRAM | SOCK_CLOEXEC, 0);
    if (opened < 0 && !is_six) opened = socket(family = AF_INET, SOCK_DGRAM | SOCK_CLOEXEC, 0);      /* a kernel without IPv6 */
    if (opened < 0) return -1;
    bool is_filtered = is_heard ? filter_udp(opened, true) : SET_FILTER(opened, wanted_of_none);
    return is_filtered && bind_last(opened, family, is_six) ? opened : closed(opened);
}

int open_copies(bool is_six) {
    int opened = socket(is_six ? AF_INET6 : AF_INET, SOCK_RAW | SOCK_CLOEXEC, IPPROTO_UDP);
    if (opened < 0) return -1;
    bool is_filtered = is_six ? SET_FILTER(opened, wanted_of_six) : SET_FILTER(opened, wanted_of_four);
    bool is_checked = !is_six || set_number(opened, IPPROTO_IPV6, IPV6_CHECKSUM, offsetof(struct udphdr, uh_sum));
    return is_filtered && is_checked && tell_places(opened, is_six) ? opened : closed(opened);
}

int open_diverted(bool is_six, uint16_t port) {
    const struct sockaddr_in6 six = { .sin6_family = AF_INET6, .sin6_port = htons(port) };
    const struct sockaddr_in four = { .sin_family = AF_INET, .sin_port = htons(port) };
    int opened = socket(is_six ? AF_INET6 : AF_INET, SOCK_DGRAM | SOCK_CLOEXEC, 0);
    if (opened < 0) return -1;
    bool is_ready = filter_udp(opened, true) && tell_places(opened, is_six) && (!is_six || set_number(opened, IPPROTO_IPV6, IPV6_V6ONLY, 1));
    const struct sockaddr *place = is_six ? (const struct sockaddr *)&six : (const struct sockaddr *)&four;
    return is_ready && bind(opened, place, is_six ? sizeof six : sizeof four) == 0 ? opened : closed(opened);
}

bool hear_none(int socket) { return SET_FILTER(socket, wanted_of_none); }

int open_packets(bool is_six) {
    int opened = socket(AF_PACKET, SOCK_DGRAM | SOCK_CLOEXEC, htons(is_six ? ETH_P_IPV6 : ETH_P_IP));
    if (opened < 0) return -1;
    bool is_filtered = is_six ? SET_FILTER(opened, wanted_packets_of_six) : SET_FILTER(opened, wanted_of_four);
    return is_filtered && set_number(opened, SOL_PACKET, PACKET_IGNORE_OUTGOING, 1) ? opened : closed(opened);
}

/* The latest packets. The kernel hands each to this socket before it hears a copy of the datagram, but drops some in between. */
enum { PACKETS = 128, MOST_PACKET = 2048 };
static struct packet { struct sockaddr_ll from; size_t size; uint8_t octets[MOST_PACKET]; } latest[PACKETS];

/* Whether a packet has the octets of a copy. Those over IPv6 begin after the IP header; a short packet is padded. */
static bool has_copy(const struct packet *packet, unsigned index, const struct sockaddr *sender, const uint8_t *copy, size_t size) {
    const struct in6_addr *six = sender->sa_family == AF_INET6 ? &((const struct sockaddr_in6 *)sender)->sin6_addr : NULL;
    size_t place = six != NULL ? SIX_HEAD : 0;
    if ((unsigned)packet->from.sll_ifindex != index || packet->from.sll_pkttype != PACKET_HOST) return false;
    if (packet->size < place + size || memcmp(packet->octets + place, copy, size) != 0) return false;
    return six == NULL || memcmp(packet->octets + SIX_FROM_AT, six, sizeof *six) == 0;
}

/* The packet that a copy came in; NULL if there is none. */
static struct packet *packet_of(int packets, unsigned index, const struct sockaddr *sender, const uint8_t *copy, size_t size) {
    static size_t next;
    for (size_t i = 0; i < PACKETS; i++) {
        if (has_copy(&latest[i], index, sender, copy, size)) return &latest[i];
    }
    for (;;) {
        struct packet *packet = &latest[next++ % PACKETS];
        socklen_t room = sizeof packet->from;
        ssize_t found = recvfrom(packets, packet->octets, sizeof packet->octets, MSG_DONTWAIT, (struct sockaddr *)&packet->from, &room);
        packet->size = found < 0 ? 0 : (size_t)found;
        if (found < 0) return NULL;
        if (has_copy(packet, index, sender, copy, size)) return packet;
    }
}

bool is_of_neighbour(int packets, unsigned index, const struct sockaddr *sender, const uint8_t *copy, size_t size) {
    if (packets < 0 || !is_on_link(index, sender)) return true;
    struct packet *packet = packet_of(packets, index, sender, copy, size);
    if (packet == NULL) return false;
    packet->size = 0;
    return packet->from.sll_hatype != ARPHRD_ETHER || is_station_of(index, sender, packet->from.sll_addr);
}

/* The sum of the Internet protocols (RFC 1071), which goes on from `sum`. */
static uint32_t summed(uint32_t sum, const uint8_t *octets, size_t size) {
    for (size_t i = 0; i < size; i++) sum += i % 2 == 0 ? (uint32_t)octets[i] << 8 : octets[i];
    while (sum >> 16 != 0) sum = (sum & UINT16_MAX) + (sum >> 16);
    return sum;
}

/* Whether a datagram over IPv4 has the octets that its UDP checksum is of; it may have none. Of one that was sent on this machine only
   the addresses may be summed yet: the kernel leaves the rest to the interface. Over IPv6 the kernel compares it. */
static bool is_as_sent(const uint8_t *packet, const uint8_t *datagram, const struct udphdr *head) {
    size_t size = ntohs(head->uh_ulen);
    uint32_t addresses = summed(IPPROTO_UDP + (uint32_t)size, packet + FOUR_FROM_AT, 2 * sizeof(struct in_addr));
    uint32_t checksum = ntohs(head->uh_sum);
    return checksum == 0 || checksum == addresses || summed(addresses, datagram, size) == UINT16_MAX;
}

size_t message_in_copy(const uint8_t *octets, size_t *size, struct sockaddr *sender) {
    struct udphdr head;
    size_t place = sender->sa_family == AF_INET && *size > 0 ? (octets[0] & LOWER_HALF) * sizeof(uint32_t) : 0;
    if (*size < place + sizeof head) return 0;
    memcpy(&head, octets + place, sizeof head);
    size_t whole = ntohs(head.uh_ulen);
    if (whole < sizeof head || whole > *size - place) return 0;
    if (place != 0 && !is_as_sent(octets, octets + place, &head)) return 0;
    if (sender->sa_family == AF_INET) ((struct sockaddr_in *)sender)->sin_port = head.uh_sport;
    else ((struct sockaddr_in6 *)sender)->sin6_port = head.uh_sport;
    *size = whole - sizeof head;
    return place + sizeof head;
}

/* A question to the kernel, which socket gets a datagram (sock_diag(7)), and its answer. */
struct question { struct nlmsghdr head; struct inet_diag_req_v2 of; };
struct answer { struct nlmsghdr head; struct inet_diag_msg of; uint8_t more[1024]; };

static struct question question_of(unsigned interface, bool is_six) {
    struct question question = {
        .head = { .nlmsg_len = sizeof question, .nlmsg_type = SOCK_DIAG_BY_FAMILY, .nlmsg_flags = NLM_F_REQUEST },
        .of = { .sdiag_family = is_six ? AF_INET6 : AF_INET, .sdiag_protocol = IPPROTO_UDP, .idiag_states = UINT32_MAX },
    };
    struct inet_diag_sockid *id = &question.of.id;
    id->idiag_dport = htons(GENERAL_PORT);
    id->idiag_if = interface;
    memset(id->idiag_cookie, 0xff, sizeof id->idiag_cookie);       /* whichever it is */
    if (is_six) memcpy(id->idiag_dst, &in6addr_loopback, sizeof in6addr_loopback);
    else id->idiag_dst[0] = htonl(INADDR_LOOPBACK);
    return question;
}

/* The number of the socket's file; 0 if none gets it, or the kernel does not report it. */
static ino_t file_of_owner(unsigned interface, bool is_six) {
    struct question question = question_of(interface, is_six);
    struct answer answer = { .head = { 0 } };
    ssize_t size = ask_kernel(NETLINK_SOCK_DIAG, &question.head, &answer, sizeof answer);
    bool is_told = size >= (ssize_t)(sizeof answer.head + sizeof answer.of) && answer.head.nlmsg_type == SOCK_DIAG_BY_FAMILY;
    return is_told ? answer.of.idiag_inode : 0;
}

enum general_port who_has_general_port(int ours, unsigned interface, bool is_six) {
    struct stat file;
    ino_t owner = file_of_owner(interface, is_six);
    if (owner == 0) return NOBODY_HAS_IT;
    return ours >= 0 && fstat(ours, &file) == 0 && file.st_ino == owner ? WE_HAVE_IT : ANOTHER_HAS_IT;
}
