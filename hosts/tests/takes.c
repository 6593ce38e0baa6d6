/* takes.so, for hosts/tests/ptp4l: LD_PRELOAD of a ptp4l and of ptpm-clock. Of a ptp4l it writes a line to the file TAKEN at each start.
   It writes one for each SET or COMMAND on the Unix socket too, as the ptp4l takes that. So neither the agent nor a manager writes what
   was carried out. It kills ptpm-clock at a SET to a ptp4l. With DIES=noted that is right before the SET is sent, with DIES=asked right
   after that, and with DIES=answered once its answer is there. DIES_AFTER is how many SETs come before that one. With STOPS=PROCESS that
   process is stopped right before a SET is sent. */
#include <fcntl.h>
#include <signal.h>
#include <stdbool.h>
#include <stdint.h>
#include <stdio.h>
#include <stdlib.h>
#include <string.h>
#include <sys/socket.h>
#include <sys/syscall.h>
#include <unistd.h>

enum { LEAST = 54, NUMBER_AT = 30, ACTION_AT = 46, ID_AT = 52, VALUE_AT = 54, SET = 1, COMMAND = 3, RESPONSE = 2 };

static int taken = -1;
static uint8_t asked[2];        /* sequenceId of the latest SET that was sent */

__attribute__((constructor)) static void begin(void) {
    const char *path = getenv("TAKEN");
    if (path != NULL) taken = open(path, O_WRONLY | O_CREAT | O_APPEND | O_CLOEXEC, 0644);
    if (taken >= 0) dprintf(taken, "life\n");
}

static int action_of(const uint8_t *octets, ssize_t size) { return size < LEAST ? -1 : octets[ACTION_AT] & 15; }

ssize_t recvfrom(int socket, void *octets, size_t size, int flags, struct sockaddr *from, socklen_t *room) {
    ssize_t found = syscall(SYS_recvfrom, socket, octets, size, flags, from, room);
    const uint8_t *message = octets;
    int action = action_of(message, found);
    if (taken < 0 || from == NULL || from->sa_family != AF_UNIX || (action != SET && action != COMMAND)) return found;
    dprintf(taken, "%02x%02x %d\n", message[ID_AT], message[ID_AT + 1], found > LEAST ? message[VALUE_AT] : -1);
    return found;
}

static void die_at(const char *place) {
    static long left = -1;
    const char *at = getenv("DIES"), *after = getenv("DIES_AFTER");
    if (at == NULL || strcmp(at, place) != 0) return;
    if (left < 0) left = after == NULL ? 0 : atol(after);
    if (left-- == 0) kill(getpid(), SIGKILL);
}

ssize_t send(int socket, const void *octets, size_t size, int flags) {
    bool is_set = action_of(octets, (ssize_t)size) == SET;
    if (is_set) {
        memcpy(asked, (const uint8_t *)octets + NUMBER_AT, sizeof asked);
        die_at("noted");
        if (getenv("STOPS") != NULL) kill(atoi(getenv("STOPS")), SIGSTOP);
    }
    ssize_t sent = syscall(SYS_sendto, socket, octets, size, flags, NULL, 0);
    if (is_set) die_at("asked");
    return sent;
}

ssize_t recv(int socket, void *octets, size_t size, int flags) {
    ssize_t found = syscall(SYS_recvfrom, socket, octets, size, flags, NULL, NULL);
    if (action_of(octets, found) == RESPONSE && memcmp((const uint8_t *)octets + NUMBER_AT, asked, sizeof asked) == 0) die_at("answered");
    return found;
}
