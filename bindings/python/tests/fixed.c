/* Two programs under this library do the same with the same inputs: what they draw is all 7s, and their process has the number 7. One is
   killed right before it sends the message whose place KILLED_BEFORE has, counted from 1. */
#define _GNU_SOURCE
#include <dlfcn.h>
#include <signal.h>
#include <stdlib.h>
#include <string.h>
#include <sys/socket.h>
#include <unistd.h>

ssize_t getrandom(void *octets, size_t size, unsigned flags) {
    (void)flags;
    memset(octets, 7, size);
    return (ssize_t)size;
}

pid_t getpid(void) { return 7; }

static void count(void) {
    static int sent;
    const char *place = getenv("KILLED_BEFORE");
    if (place != NULL && ++sent == atoi(place)) raise(SIGKILL);
}

/* That of the C library. */
static void *usual(const char *name) { return dlsym(RTLD_NEXT, name); }

ssize_t sendmsg(int socket, const struct msghdr *message, int flags) {
    count();
    return ((ssize_t (*)(int, const struct msghdr *, int))usual("sendmsg"))(socket, message, flags);
}

ssize_t sendto(int socket, const void *octets, size_t size, int flags, const struct sockaddr *to, socklen_t room) {
    count();
    return ((ssize_t (*)(int, const void *, size_t, int, const struct sockaddr *, socklen_t))usual("sendto"))(socket, octets, size, flags, to, room);
}
