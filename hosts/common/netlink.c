#include "netlink.h"
#include "monotonic.h"
#include "program.h"
#include <errno.h>
#include <ifaddrs.h>
#include <linux/neighbour.h>
#include <linux/netlink.h>
#include <linux/rtnetlink.h>
#include <net/if.h>
#include <netinet/in.h>
#include <stddef.h>
#include <stdio.h>
#include <string.h>
#include <unistd.h>

enum { MOST_NETWORKS = 1024, OCTETS = 16384, SECOND = 1000, ADDRESS = 16 };
enum { MOST_QUESTIONS = 100, MOST_NEIGHBOUR_QUESTIONS = 1000, NEIGHBOURS = 1024, DISCARD_PORT = 9 };

/* The addresses whose first bits are those of one address of an interface. */
struct network { unsigned index; sa_family_t family; uint8_t address[ADDRESS], mask[ADDRESS]; };

static struct network networks[MOST_NETWORKS];
static size_t network_count;
static int netlink_socket;
static bool is_stale = true;

int open_netlink(void) {
    struct sockaddr_nl groups = { .nl_family = AF_NETLINK, .nl_groups = RTMGRP_LINK | RTMGRP_IPV4_IFADDR | RTMGRP_IPV6_IFADDR };
    netlink_socket = socket(AF_NETLINK, SOCK_RAW | SOCK_CLOEXEC | SOCK_NONBLOCK, NETLINK_ROUTE);
    if (netlink_socket < 0 || bind(netlink_socket, (struct sockaddr *)&groups, sizeof groups)) {
        give_up("the kernel's reports of interfaces");
    }
    return netlink_socket;
}

/* The MTU that the kernel reports for an interface; 0 if it reports none. */
static unsigned mtu_of(const struct nlmsghdr *message) {
    unsigned mtu = 0;
    const char *first = (const char *)message, *end = first + message->nlmsg_len;
    const char *next = first + NLMSG_LENGTH(sizeof(struct ifinfomsg));
    while (next + sizeof(struct rtattr) <= end) {
        const struct rtattr *attribute = (const void *)next;
        if (attribute->rta_len < sizeof *attribute) break;
        bool is_mtu = attribute->rta_type == IFLA_MTU && next + RTA_LENGTH(sizeof mtu) <= end;
        if (is_mtu) memcpy(&mtu, next + RTA_LENGTH(0), sizeof mtu);
        next += RTA_ALIGN(attribute->rta_len);
    }
    return mtu;
}

static void take_message(const struct nlmsghdr *message, link_taker *take) {
    const struct ifinfomsg *link = NLMSG_DATA(message);
    bool is_gone = message->nlmsg_type == RTM_DELLINK;
    is_stale = true;
    if (!is_gone && message->nlmsg_type != RTM_NEWLINK) return;
    if (message->nlmsg_len < NLMSG_LENGTH(sizeof *link) || link->ifi_family != AF_UNSPEC) return;    /* such as a bridge's of its ports */
    take((unsigned)link->ifi_index, is_gone ? LINK_GONE : LINK_CHANGED, mtu_of(message));
}

static void take_messages(const char *octets, size_t size, link_taker *take) {
    for (size_t place = 0; place + sizeof(struct nlmsghdr) <= size;) {
        const struct nlmsghdr *message = (const void *)(octets + place);
        if (message->nlmsg_len < sizeof *message || message->nlmsg_len > size - place) return;
        take_message(message, take);
        place += NLMSG_ALIGN(message->nlmsg_len);
    }
}

void read_netlink(link_taker *take) {
    static _Alignas(struct nlmsghdr) char octets[OCTETS];
    for (;;) {
        ssize_t size = recv(netlink_socket, octets, sizeof octets, MSG_DONTWAIT);
        if (size > 0) {
            take_messages(octets, (size_t)size, take);
        } else if (size < 0 && errno == ENOBUFS) {
            is_stale = true;
            take(0, LINK_CHANGED, 0);
        } else {
            return;
        }
    }
}

static void add_network(const struct ifaddrs *one) {
    size_t size, mask_size;
    char name[IF_NAMESIZE];
    if (one->ifa_addr == NULL || one->ifa_netmask == NULL || network_count == MOST_NETWORKS) return;
    bool is_pair = (one->ifa_flags & IFF_POINTOPOINT) && one->ifa_dstaddr != NULL;       /* whose other end is meant */
    const uint8_t *address = address_octets(is_pair ? one->ifa_dstaddr : one->ifa_addr, &size);
    const uint8_t *mask = address_octets(one->ifa_netmask, &mask_size);
    if (size == 0 || mask_size != size) return;
    snprintf(name, sizeof name, "%s", one->ifa_name);
    name[strcspn(name, ":")] = '\0';                    /* after which an address of IPv4 may have a label */
    struct network *network = &networks[network_count];
    network->index = if_nametoindex(name);
    network->family = one->ifa_addr->sa_family;
    memcpy(network->address, address, size);
    memcpy(network->mask, mask, size);
    if (network->index != 0) network_count++;
}

/* Whether the kernel could be asked. If not, what it reported before stays. */
static bool read_networks(void) {
    struct ifaddrs *all;
    if (getifaddrs(&all) != 0) return false;
    network_count = 0;
    for (const struct ifaddrs *one = all; one != NULL; one = one->ifa_next) add_network(one);
    freeifaddrs(all);
    return true;
}

/* What can't be read now, for example since no descriptor is left, is read again in a second. */
static void renew_networks(void) {
    static int64_t next;
    if (!is_stale || milliseconds() < next) return;
    is_stale = !read_networks();
    next = is_stale ? milliseconds() + SECOND : 0;
}

void forget_networks(void) { is_stale = true; }

static bool is_in(const struct network *network, const uint8_t *address, size_t size) {
    for (size_t i = 0; i < size; i++) {
        if ((network->address[i] ^ address[i]) & network->mask[i]) return false;
    }
    return true;
}

bool has_networks(void) {
    renew_networks();
    return !is_stale;
}

bool has_address(unsigned index, sa_family_t family) {
    renew_networks();
    for (size_t i = 0; i < network_count; i++) {
        if (networks[i].index == index && networks[i].family == family) return true;
    }
    return false;
}

/* Which route leads to an address over an interface (rtnetlink(7)), and the answer. */
struct question {
    struct nlmsghdr head;
    struct rtmsg route;
    struct rtattr over;
    uint32_t index;
    struct rtattr to;
    uint8_t address[ADDRESS];
};
struct answer { _Alignas(struct nlmsghdr) char octets[1024]; };

/* Which neighbour at an interface has an address. */
struct neighbour_question {
    struct nlmsghdr head;
    struct ndmsg neighbour;
    struct rtattr to;
    uint8_t address[ADDRESS];
};

/* Strangers shall not have the kernel asked again and again. */
struct second { int64_t begun; int asked; };

static bool may_ask(struct second *second, int most) {
    int64_t now = milliseconds();
    if (second->asked == 0 || now >= second->begun + SECOND) *second = (struct second){ .begun = now };
    return second->asked++ < most;
}

ssize_t ask_kernel(int protocol, const struct nlmsghdr *question, void *answer, size_t room) {
    int netlink = socket(AF_NETLINK, SOCK_RAW | SOCK_CLOEXEC, protocol);
    if (netlink < 0) return -1;
    bool is_sent = send(netlink, question, question->nlmsg_len, 0) >= 0;
    ssize_t size = is_sent ? recv(netlink, answer, room, MSG_DONTWAIT) : -1;
    close(netlink);
    return size;
}

const uint8_t *address_octets(const struct sockaddr *address, size_t *size) {
    *size = sizeof(struct in_addr);
    if (address->sa_family == AF_INET) return (const uint8_t *)&((const struct sockaddr_in *)address)->sin_addr;
    *size = address->sa_family == AF_INET6 ? ADDRESS : 0;
    return (const uint8_t *)&((const struct sockaddr_in6 *)address)->sin6_addr;
}

/* The route itself is asked for (RTM_F_FIB_MATCH). Otherwise the kernel treats an address to which no route leads as one of the
   link. */
static struct question question_of(unsigned index, sa_family_t family, const uint8_t *address, size_t size) {
    struct question question = {
        .head = { .nlmsg_type = RTM_GETROUTE, .nlmsg_flags = NLM_F_REQUEST },
        .route = { .rtm_family = (unsigned char)family, .rtm_dst_len = (unsigned char)(8 * size), .rtm_flags = RTM_F_FIB_MATCH },
        .over = { .rta_type = RTA_OIF, .rta_len = RTA_LENGTH(sizeof question.index) },
        .index = index,
        .to = { .rta_type = RTA_DST, .rta_len = (unsigned short)RTA_LENGTH(size) },
    };
    memcpy(question.address, address, size);
    question.head.nlmsg_len = (uint32_t)(offsetof(struct question, address) + size);
    return question;
}

/* Whether the route has a gateway, or next hops of its own. */
static bool has_gateway(const struct answer *answer, size_t size) {
    for (size_t place = NLMSG_LENGTH(sizeof(struct rtmsg)); place + sizeof(struct rtattr) <= size;) {
        const struct rtattr *attribute = (const void *)(answer->octets + place);
        if (attribute->rta_len < sizeof *attribute) return true;
        if (attribute->rta_type == RTA_GATEWAY || attribute->rta_type == RTA_VIA || attribute->rta_type == RTA_MULTIPATH) return true;
        place += RTA_ALIGN(attribute->rta_len);
    }
    return false;
}

static bool leads_to_link(const struct answer *answer, size_t size) {
    const struct nlmsghdr *head = (const void *)answer->octets;
    const struct rtmsg *route = NLMSG_DATA(head);
    if (size < NLMSG_LENGTH(sizeof *route) || head->nlmsg_type != RTM_NEWROUTE || head->nlmsg_len > size) return false;
    return route->rtm_type == RTN_UNICAST && route->rtm_dst_len > 0 && !has_gateway(answer, head->nlmsg_len);
}

/* Whether a route that is not a default route leads to an address over the interface without a gateway. Beyond a hundred questions a second
   the answer is no. */
static bool is_routed_to_link(unsigned index, const struct sockaddr *address) {
    static struct second second;
    struct answer answer;
    size_t octets;
    const uint8_t *first = address_octets(address, &octets);
    if (octets == 0 || !may_ask(&second, MOST_QUESTIONS)) return false;
    struct question question = question_of(index, address->sa_family, first, octets);
    ssize_t size = ask_kernel(NETLINK_ROUTE, &question.head, &answer, sizeof answer);
    return size > 0 && leads_to_link(&answer, (size_t)size);
}

bool is_on_link(unsigned index, const struct sockaddr *address) {
    size_t size;
    const uint8_t *octets = address_octets(address, &size);
    if (size == ADDRESS && octets[0] == 0xfe && (octets[1] & 0xc0) == 0x80) return true;
    renew_networks();
    for (size_t i = 0; i < network_count; i++) {
        const struct network *network = &networks[i];
        if (network->index == index && network->family == address->sa_family && is_in(network, octets, size)) return true;
    }
    return is_routed_to_link(index, address);
}

/* An address of a link, and who has it there. */
struct neighbour { unsigned index; size_t size; uint8_t address[ADDRESS], station[STATION]; int64_t end; };

/* What the kernel said within the last second, each in a place that its address has. */
static struct neighbour *place_of(const struct neighbour *wanted) {
    static struct neighbour neighbours[NEIGHBOURS];
    uint32_t sum = wanted->index;
    for (size_t i = 0; i < wanted->size; i++) sum = sum * 31 + wanted->address[i];
    return &neighbours[sum % NEIGHBOURS];
}

/* Reads the hardware address in the kernel's answer; whether there is one that it holds to be right. */
static bool read_station(uint8_t station[STATION], const struct answer *answer, size_t size) {
    enum { RIGHT = NUD_REACHABLE | NUD_STALE | NUD_DELAY | NUD_PROBE | NUD_PERMANENT };
    const struct nlmsghdr *head = (const void *)answer->octets;
    const struct ndmsg *found = NLMSG_DATA(head);
    if (size < NLMSG_LENGTH(sizeof *found) || head->nlmsg_type != RTM_NEWNEIGH || !(found->ndm_state & RIGHT)) return false;
    for (size_t place = NLMSG_LENGTH(sizeof *found); place + sizeof(struct rtattr) <= size;) {
        const struct rtattr *attribute = (const void *)(answer->octets + place);
        bool is_whole = attribute->rta_len == RTA_LENGTH(STATION) && place + RTA_LENGTH(STATION) <= size;
        bool is_station = attribute->rta_type == NDA_LLADDR && is_whole;
        if (is_station) memcpy(station, RTA_DATA(attribute), STATION);
        if (is_station || attribute->rta_len < sizeof *attribute) return is_station;
        place += RTA_ALIGN(attribute->rta_len);
    }
    return false;
}

/* Has the kernel ask the link who has an address: it sends an empty datagram there, for nobody (RFC 863). */
static void ask_link(unsigned index, const struct sockaddr *address) {
    struct sockaddr_storage to;
    const int interface = (int)index;
    bool is_six = address->sa_family == AF_INET6;
    socklen_t size = is_six ? sizeof(struct sockaddr_in6) : sizeof(struct sockaddr_in);
    memcpy(&to, address, size);
    if (is_six) ((struct sockaddr_in6 *)&to)->sin6_port = htons(DISCARD_PORT);
    else ((struct sockaddr_in *)&to)->sin_port = htons(DISCARD_PORT);
    int probe = socket(address->sa_family, SOCK_DGRAM | SOCK_CLOEXEC, 0);
    if (probe < 0) return;
    bool is_there = setsockopt(probe, SOL_SOCKET, SO_BINDTOIFINDEX, &interface, sizeof interface) == 0;
    if (is_there) sendto(probe, "", 0, MSG_DONTWAIT, (const struct sockaddr *)&to, size);
    close(probe);
}

/* Whether the kernel says who has the address. */
static bool find_neighbour(struct neighbour *wanted, const struct sockaddr *address) {
    struct answer answer;
    struct neighbour_question question = {
        .head = { .nlmsg_type = RTM_GETNEIGH, .nlmsg_flags = NLM_F_REQUEST },
        .neighbour = { .ndm_family = (uint8_t)address->sa_family, .ndm_ifindex = (int)wanted->index },
        .to = { .rta_type = NDA_DST, .rta_len = (unsigned short)RTA_LENGTH(wanted->size) },
    };
    memcpy(question.address, wanted->address, wanted->size);
    question.head.nlmsg_len = (uint32_t)(offsetof(struct neighbour_question, address) + wanted->size);
    ssize_t size = ask_kernel(NETLINK_ROUTE, &question.head, &answer, sizeof answer);
    return size > 0 && read_station(wanted->station, &answer, (size_t)size);
}

bool is_station_of(unsigned index, const struct sockaddr *address, const uint8_t station[STATION]) {
    static struct second second;
    struct neighbour wanted = { .index = index };
    const uint8_t *octets = address_octets(address, &wanted.size);
    if (wanted.size == 0) return false;
    memcpy(wanted.address, octets, wanted.size);
    struct neighbour *kept = place_of(&wanted);
    bool is_kept = kept->end > milliseconds() && kept->index == index && kept->size == wanted.size
                   && memcmp(kept->address, wanted.address, ADDRESS) == 0;
    if (is_kept) return memcmp(kept->station, station, STATION) == 0;
    if (!may_ask(&second, MOST_NEIGHBOUR_QUESTIONS)) return false;
    if (!find_neighbour(&wanted, address)) {
        ask_link(index, address);
        return false;
    }
    wanted.end = milliseconds() + SECOND;
    *kept = wanted;
    return memcmp(wanted.station, station, STATION) == 0;
}
