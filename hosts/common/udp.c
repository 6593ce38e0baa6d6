#include "udp.h"
#include "message_places.h"
#include "socket_option.h"
#include <arpa/inet.h>
#include <errno.h>
#include <linux/filter.h>
#include <string.h>

static struct in6_addr group_of_six = { .s6_addr = { 0xff, 0x0e, [14] = 0x01, 0x81 } };        /* ff0e::181 */
static const uint32_t group_of_four = 0xe0000181;                                               /* 224.0.1.129 */

void use_group(const struct in6_addr *other) { group_of_six = *other; }

/* The group at a port. */
static socklen_t group_at(struct sockaddr_storage *to, bool is_six, uint16_t port) {
    if (is_six) {
        struct sockaddr_in6 *six = (struct sockaddr_in6 *)to;
        *six = (struct sockaddr_in6){ .sin6_family = AF_INET6, .sin6_port = htons(port), .sin6_addr = group_of_six };
        return sizeof *six;
    }
    struct sockaddr_in *four = (struct sockaddr_in *)to;
    *four = (struct sockaddr_in){
        .sin_family = AF_INET, .sin_port = htons(port), .sin_addr.s_addr = htonl(group_of_four),
    };
    return sizeof *four;
}

socklen_t group(struct sockaddr_storage *to, bool is_six) { return group_at(to, is_six, GENERAL_PORT); }

enum { UDP_HEAD = 8 };

/* Of datagrams, which begin with their UDP header here, those whose messageType is 0xD. An empty one has none. */
static const struct sock_filter wanted[] = {
    BPF_STMT(BPF_LD | BPF_B | BPF_ABS, UDP_HEAD + TYPE_AT),
    LETS_IN_MANAGEMENT,
};

bool filter_udp(int socket, bool is_management_alone) {
    return set_filter(socket, is_management_alone ? wanted : NULL, sizeof wanted / sizeof *wanted);
}

bool tell_ttl(int socket, bool is_six) {
    return is_six ? set_number(socket, IPPROTO_IPV6, IPV6_RECVHOPLIMIT, 1) : set_number(socket, IPPROTO_IP, IP_RECVTTL, 1);
}

struct reported reported_in(struct msghdr *head) {
    struct reported found = { .ttl = 0 };
    for (struct cmsghdr *one = CMSG_FIRSTHDR(head); one != NULL; one = CMSG_NXTHDR(head, one)) {
        bool is_six = one->cmsg_level == IPPROTO_IPV6;
        if (!is_six && one->cmsg_level != IPPROTO_IP) continue;
        if (one->cmsg_type == (is_six ? IPV6_HOPLIMIT : IP_TTL)) memcpy(&found.ttl, CMSG_DATA(one), sizeof found.ttl);
        else if (is_six && one->cmsg_type == IPV6_PKTINFO) memcpy(&found.six, CMSG_DATA(one), sizeof found.six);
        else if (!is_six && one->cmsg_type == IP_PKTINFO) memcpy(&found.four, CMSG_DATA(one), sizeof found.four);
    }
    return found;
}

/* From here on what is sent goes out at the interface, and doesn't come back to this host. */
static bool send_at_four(int socket, unsigned interface, const char **what) {
    const int none = 0, full = FULL_TTL;
    const struct ip_mreqn at = { .imr_ifindex = (int)interface };
    return SET_OPTION(socket, IPPROTO_IP, IP_MULTICAST_IF, at, what) && SET_OPTION(socket, IPPROTO_IP, IP_MULTICAST_LOOP, none, what)
           && SET_OPTION(socket, IPPROTO_IP, IP_TTL, full, what);
}

static bool send_at_six(int socket, unsigned interface, const char **what) {
    const int one = 1, none = 0, full = FULL_TTL;
    return SET_OPTION(socket, IPPROTO_IPV6, IPV6_V6ONLY, one, what)
           && SET_OPTION(socket, IPPROTO_IPV6, IPV6_MULTICAST_IF, interface, what)
           && SET_OPTION(socket, IPPROTO_IPV6, IPV6_MULTICAST_LOOP, none, what)
           && SET_OPTION(socket, IPPROTO_IPV6, IPV6_UNICAST_HOPS, full, what);
}

/* Only management messages come in at the socket, which hears nothing until it is bound. */
static bool stay_at(int socket, const char *interface, bool is_six, const char **what) {
    unsigned index = index_of(socket, interface);
    if (index == 0) return false;
    *what = "SO_ATTACH_FILTER";
    return filter_udp(socket, true)
           && set_option(socket, SOL_SOCKET, SO_BINDTODEVICE, interface, strlen(interface) + 1, what, "SO_BINDTODEVICE")
           && (is_six ? send_at_six(socket, index, what) : send_at_four(socket, index, what));
}

/* Joins the group at an interface, or leaves it; whether it is done. */
static bool set_membership(int socket, bool is_six, unsigned interface, bool is_joined) {
    if (is_six) {
        const struct ipv6_mreq six = { .ipv6mr_multiaddr = group_of_six, .ipv6mr_interface = interface };
        return setsockopt(socket, IPPROTO_IPV6, is_joined ? IPV6_ADD_MEMBERSHIP : IPV6_DROP_MEMBERSHIP, &six, sizeof six) == 0;
    }
    const struct ip_mreqn four = { .imr_multiaddr.s_addr = htonl(group_of_four), .imr_ifindex = (int)interface };
    return setsockopt(socket, IPPROTO_IP, is_joined ? IP_ADD_MEMBERSHIP : IP_DROP_MEMBERSHIP, &four, sizeof four) == 0;
}

/* It is bound to the address of the group: nothing comes in there that is sent to this host by unicast. Linux hands that to one
   socket, and a servo may need it. */
static bool join_group(int socket, const char *interface, bool is_six, uint16_t port, const char **what) {
    const int one = 1;
    struct sockaddr_storage to;
    socklen_t size = group_at(&to, is_six, port);
    if (!stay_at(socket, interface, is_six, what) || !SET_OPTION(socket, SOL_SOCKET, SO_REUSEADDR, one, what)) return false;
    *what = port == EVENT_PORT ? "UDP port 319" : "UDP port 320";
    if (bind(socket, (const struct sockaddr *)&to, size)) return false;
    *what = is_six ? "IPV6_ADD_MEMBERSHIP" : "IP_ADD_MEMBERSHIP";
    return set_membership(socket, is_six, index_of(socket, interface), true);
}

/* At a port of its own, which the kernel chooses. */
static bool bind_alone(int socket, const char *interface, bool is_six, const char **what) {
    struct sockaddr_storage any = { .ss_family = is_six ? AF_INET6 : AF_INET };
    if (!stay_at(socket, interface, is_six, what)) return false;
    *what = "a UDP port";
    socklen_t size = is_six ? sizeof(struct sockaddr_in6) : sizeof(struct sockaddr_in);
    return tell_ttl(socket, is_six) && bind(socket, (const struct sockaddr *)&any, size) == 0;
}

static bool make_ready(int socket, const char *interface, bool is_six, enum udp_use use, const char **what) {
    switch (use) {
    case ASKS: return bind_alone(socket, interface, is_six, what);
    case HEARS_EVENTS: return join_group(socket, interface, is_six, EVENT_PORT, what) && filter_udp(socket, false);
    default: return join_group(socket, interface, is_six, GENERAL_PORT, what);
    }
}

int open_udp(const char *interface, bool is_six, enum udp_use use, const char **what) {
    *what = interface;
    int opened = socket(is_six ? AF_INET6 : AF_INET, SOCK_DGRAM | SOCK_CLOEXEC, 0);
    return opened < 0 || make_ready(opened, interface, is_six, use, what) ? opened : closed(opened);
}

const char *right_needed(bool is_ethernet) {
    if (errno != EACCES && errno != EPERM) return "";
    return is_ethernet ? ": it takes root, or the capability CAP_NET_RAW" : ": it takes root, or the capability CAP_NET_BIND_SERVICE";
}

bool join_again(int socket, unsigned interface, bool is_six) {
    set_membership(socket, is_six, interface, false);
    return set_membership(socket, is_six, interface, true);
}
