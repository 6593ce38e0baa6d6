/* What a socket is asked for, and its end if it is refused that. */
#pragma once

#include "message_places.h"
#include "program.h"
#include <linux/filter.h>
#include <net/if.h>
#include <stdbool.h>
#include <stddef.h>
#include <stdio.h>
#include <sys/ioctl.h>
#include <sys/socket.h>

/* Sets an option to the octets of a value, and leaves its name in *what. Whether it was set. */
#define SET_OPTION(socket, level, option, value, what) set_option(socket, level, option, &(value), sizeof(value), what, #option)

static inline bool set_option(int socket, int level, int option, const void *value, size_t size, const char **what,
                              const char *name) {
    *what = name;
    return setsockopt(socket, level, option, value, (socklen_t)size) == 0;
}

static inline bool set_number(int socket, int level, int option, int value) {
    return setsockopt(socket, level, option, &value, sizeof value) == 0;
}

/* The last steps of a filter that has loaded the octet with the messageType: management messages are let in, and nothing else. */
#define LETS_IN_MANAGEMENT \
    BPF_STMT(BPF_ALU | BPF_AND | BPF_K, LOWER_HALF), \
    BPF_JUMP(BPF_JMP | BPF_JEQ | BPF_K, MANAGEMENT_TYPE, 1, 0), \
    BPF_STMT(BPF_RET | BPF_K, 0), \
    BPF_STMT(BPF_RET | BPF_K, 65535)

/* Has a socket hear only what a filter of this many steps lets in, or all if it is NULL. Whether it does. */
#define SET_FILTER(socket, filter) set_filter(socket, filter, sizeof(filter) / sizeof *(filter))

static inline bool set_filter(int socket, const struct sock_filter *filter, size_t count) {
    const struct sock_fprog whole = { .len = (unsigned short)count, .filter = (struct sock_filter *)filter };
    return filter != NULL ? setsockopt(socket, SOL_SOCKET, SO_ATTACH_FILTER, &whole, sizeof whole) == 0
                          : set_number(socket, SOL_SOCKET, SO_DETACH_FILTER, 0);
}

/* Closes a socket that was refused something, and leaves errno as it says why; -1. */
static inline int closed(int socket) {
    close_quietly(socket);
    return -1;
}

/* The index of an interface; 0 if there is none, and then errno says why. That of if_nametoindex says something else if no descriptor is
   left, since it opens a socket of its own. */
static inline unsigned index_of(int socket, const char *interface) {
    struct ifreq request = { 0 };
    snprintf(request.ifr_name, sizeof request.ifr_name, "%s", interface);
    return ioctl(socket, SIOCGIFINDEX, &request) ? 0 : (unsigned)request.ifr_ifindex;
}
