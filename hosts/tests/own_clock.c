/* own_clock.so, for hosts/tests/servo: LD_PRELOAD of a ptp4l with software timestamps. The ptp4l steers and steps a clock of its own, which is
   20 ppm fast, and never that of the machine. Each timestamp of a message is what that clock showed at that moment. */
#define _GNU_SOURCE
#include <stdint.h>
#include <string.h>
#include <sys/socket.h>
#include <sys/syscall.h>
#include <sys/timex.h>
#include <time.h>
#include <unistd.h>

enum { SECOND = 1000000000, BEGINS_AT = 1000000 };      /* nanoseconds; its first offset */

static const double fast_by = 20e-6, of_a_unit = 1e-6 / 65536;      /* the unit of timex.freq */
static int64_t set_at, shown;       /* what it showed at a moment of the host's clock */
static long frequency;              /* as the servo set it */

static int64_t own_time(int64_t host) {
    return shown + (host - set_at) + (int64_t)((double)(host - set_at) * (fast_by + (double)frequency * of_a_unit));
}

static int64_t nanoseconds(struct timespec time) { return time.tv_sec * (int64_t)SECOND + time.tv_nsec; }

static int64_t host_time(void) {
    struct timespec now;
    syscall(SYS_clock_gettime, CLOCK_REALTIME, &now);
    return nanoseconds(now);
}

__attribute__((constructor)) static void begin(void) {
    set_at = host_time();
    shown = set_at + BEGINS_AT;
}

int clock_adjtime(clockid_t clock, struct timex *change) {
    int64_t now = host_time();
    (void)clock;
    shown = own_time(now);
    set_at = now;
    if (change->modes & ADJ_FREQUENCY) frequency = change->freq;
    if (change->modes & ADJ_SETOFFSET) shown += change->time.tv_sec * (int64_t)SECOND + change->time.tv_usec * (change->modes & ADJ_NANO ? 1 : 1000);
    change->freq = frequency;
    change->tolerance = 500L << 16;
    return TIME_OK;
}

ssize_t recvmsg(int socket, struct msghdr *message, int flags) {
    ssize_t found = syscall(SYS_recvmsg, socket, message, flags);
    for (struct cmsghdr *part = found < 0 ? NULL : CMSG_FIRSTHDR(message); part != NULL; part = CMSG_NXTHDR(message, part)) {
        struct timespec stamp;
        if (part->cmsg_level != SOL_SOCKET || part->cmsg_type != SCM_TIMESTAMPING) continue;
        memcpy(&stamp, CMSG_DATA(part), sizeof stamp);      /* the first of three is by software */
        int64_t own = own_time(nanoseconds(stamp));
        stamp = (struct timespec){ .tv_sec = own / SECOND, .tv_nsec = own % SECOND };
        memcpy(CMSG_DATA(part), &stamp, sizeof stamp);
    }
    return found;
}
