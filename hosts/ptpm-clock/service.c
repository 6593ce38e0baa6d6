#include "service.h"
#include "words.h"
#include <limits.h>
#include <stddef.h>
#include <stdlib.h>
#include <string.h>
#include <sys/socket.h>
#include <sys/un.h>
#include <unistd.h>

static struct sockaddr_un service_manager = { .sun_family = AF_UNIX };
static socklen_t size;
static int service_socket = -1;
static int64_t every, next;        /* milliseconds; 0: nobody watches */

/* A path, or a name after @ that is in no folder. */
void open_service(void) {
    const char *name = getenv("NOTIFY_SOCKET"), *watched = getenv("WATCHDOG_USEC"), *process = getenv("WATCHDOG_PID");
    if (name == NULL || (*name != '/' && *name != '@') || strlen(name) >= sizeof service_manager.sun_path) return;
    strcpy(service_manager.sun_path, name);
    size = (socklen_t)(offsetof(struct sockaddr_un, sun_path) + strlen(name) + (*name == '/'));
    if (*name == '@') service_manager.sun_path[0] = '\0';
    service_socket = socket(AF_UNIX, SOCK_DGRAM | SOCK_CLOEXEC, 0);
    int64_t time = watched == NULL ? -1 : large_decimal(watched, INT64_MAX / 10 - 1);
    if (time > 0 && (process == NULL || decimal(process, INT_MAX) == getpid())) every = time / 2000 > 0 ? time / 2000 : 1;
}

void report_state(const char *state) {
    if (service_socket < 0) return;
    sendto(service_socket, state, strlen(state), MSG_DONTWAIT | MSG_NOSIGNAL, (const struct sockaddr *)&service_manager, size);
}

void report_alive(int64_t now) {
    if (every == 0 || now < next) return;
    next = now + every;
    report_state("WATCHDOG=1");
}

int64_t until_alive(int64_t now, int64_t most) {
    int64_t left = next - now;
    if (every == 0 || left > most) return most;
    return left > 0 ? left : 0;
}
