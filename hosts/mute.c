/* libptpm_mute.so: preloaded into a ptp4l, it keeps management messages from its sockets of Ethernet, so that only the agent beside it answers
   them (docs/ptp4l.md). The kernel hands frames to a ptp4l before any rule of a firewall sees them. */
#include "message_places.h"
#include <linux/filter.h>
#include <string.h>
#include <sys/socket.h>
#include <sys/syscall.h>
#include <unistd.h>

enum { PTP = 0x88f7, TAG = 0x8100, SERVICE_TAG = 0x88a8, TAG_SIZE = 4, TYPE = 12, FRAME_HEAD = 14, ALL = 0xffff };

/* Ends with "not heard" at a frame of this Ethertype, after one tag or none, whose messageType is 0xD. At any other it goes on. */
static const struct sock_filter unwanted[] = {
    BPF_STMT(BPF_LD | BPF_H | BPF_ABS, TYPE),
    BPF_JUMP(BPF_JMP | BPF_JEQ | BPF_K, PTP, 6, 0),
    BPF_JUMP(BPF_JMP | BPF_JEQ | BPF_K, TAG, 1, 0),
    BPF_JUMP(BPF_JMP | BPF_JEQ | BPF_K, SERVICE_TAG, 0, 8),
    BPF_STMT(BPF_LD | BPF_H | BPF_ABS, TYPE + TAG_SIZE),
    BPF_JUMP(BPF_JMP | BPF_JEQ | BPF_K, PTP, 0, 6),
    BPF_STMT(BPF_LD | BPF_B | BPF_ABS, FRAME_HEAD + TAG_SIZE + TYPE_AT),
    BPF_JUMP(BPF_JMP | BPF_JA, 1, 0, 0),
    BPF_STMT(BPF_LD | BPF_B | BPF_ABS, FRAME_HEAD + TYPE_AT),
    BPF_STMT(BPF_ALU | BPF_AND | BPF_K, LOWER_HALF),
    BPF_JUMP(BPF_JMP | BPF_JEQ | BPF_K, MANAGEMENT_TYPE, 0, 1),
    BPF_STMT(BPF_RET | BPF_K, 0),
};
enum { UNWANTED = sizeof unwanted / sizeof *unwanted, MOST = 256 };

/* Attaches a filter with that one before it. */
static int attach(int socket, const struct sock_filter *filter, size_t count) {
    struct sock_filter both[MOST];
    struct sock_fprog whole = { .len = (unsigned short)(UNWANTED + count), .filter = both };
    memcpy(both, unwanted, sizeof unwanted);
    memcpy(both + UNWANTED, filter, count * sizeof *filter);
    return (int)syscall(SYS_setsockopt, socket, SOL_SOCKET, SO_ATTACH_FILTER, &whole, sizeof whole);
}

/* A ptp4l binds a socket before it gives that its own filter. */
int bind(int socket, const struct sockaddr *place, socklen_t size) {
    static const struct sock_filter every[] = { BPF_STMT(BPF_RET | BPF_K, ALL) };
    if (place->sa_family == AF_PACKET && attach(socket, every, 1) != 0) return -1;
    return (int)syscall(SYS_bind, socket, place, size);
}

static int is_of_frames(int socket) {
    int family = 0;
    socklen_t size = sizeof family;
    return getsockopt(socket, SOL_SOCKET, SO_DOMAIN, &family, &size) == 0 && family == AF_PACKET;
}

int setsockopt(int socket, int level, int option, const void *value, socklen_t size) {
    const struct sock_fprog *given = value;
    if (level == SOL_SOCKET && option == SO_ATTACH_FILTER && is_of_frames(socket) && given->len <= MOST - UNWANTED) {
        return attach(socket, given->filter, given->len);
    }
    return (int)syscall(SYS_setsockopt, socket, level, option, value, size);
}
