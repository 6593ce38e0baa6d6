/* What hosts over UDP and IPv4 (annex C) share: a socket at UDP port 320 of an interface, and the time. It is C, and C++ too. */
#include <arpa/inet.h>
#include <net/if.h>
#include <stdint.h>
#include <string.h>
#include <sys/socket.h>
#include <time.h>

/* Where messages come from, and go to. */
static struct sockaddr_in group;

/* A socket that hears and sends only there; -1 if it can't be opened. */
static int open_port(const char *interface) {
    const int one = 1, none = 0;
    struct ip_mreqn join;
    int at = socket(AF_INET, SOCK_DGRAM, 0);
    group.sin_family = AF_INET;
    group.sin_port = htons(320);
    group.sin_addr.s_addr = inet_addr("224.0.1.129");
    memset(&join, 0, sizeof join);
    join.imr_multiaddr = group.sin_addr;
    join.imr_ifindex = (int)if_nametoindex(interface);
    return at >= 0 && setsockopt(at, SOL_SOCKET, SO_REUSEADDR, &one, sizeof one) == 0
           && setsockopt(at, SOL_SOCKET, SO_BINDTODEVICE, interface, (socklen_t)strlen(interface) + 1) == 0
           && bind(at, (const struct sockaddr *)&group, sizeof group) == 0
           && setsockopt(at, IPPROTO_IP, IP_ADD_MEMBERSHIP, &join, sizeof join) == 0
           && setsockopt(at, IPPROTO_IP, IP_MULTICAST_IF, &join, sizeof join) == 0
           && setsockopt(at, IPPROTO_IP, IP_MULTICAST_LOOP, &none, sizeof none) == 0 ? at : -1;
}

/* Milliseconds, of a clock that nobody sets. */
static uint64_t time_now(void) {
    struct timespec now;
    clock_gettime(CLOCK_MONOTONIC, &now);
    return (uint64_t)now.tv_sec * 1000 + (uint64_t)now.tv_nsec / 1000000;
}
