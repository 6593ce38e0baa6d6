/* The checked ppoll of glibc 2.36 takes a time of 32 bits, also where times have 64. A wait of less than a second then ends at once. So this
   file has the one that is not checked. */
#undef _FORTIFY_SOURCE
#include "stopping.h"
#include <errno.h>
#include <limits.h>
#include <stdbool.h>
#include <stdio.h>
#include <time.h>
#include <unistd.h>

volatile sig_atomic_t stopped;
static sigset_t while_waiting;

static void stop(int number) { stopped = number; }

void catch_signals(void) {
    static const int numbers[] = { SIGHUP, SIGINT, SIGTERM };
    struct sigaction on_end = { .sa_handler = stop }, before;
    sigset_t held;
    signal(SIGPIPE, SIG_IGN);
    sigemptyset(&held);
    for (size_t i = 0; i < sizeof numbers / sizeof *numbers; i++) {
        if (sigaction(numbers[i], NULL, &before) == 0 && before.sa_handler == SIG_IGN) continue;
        sigaction(numbers[i], &on_end, NULL);
        sigaddset(&held, numbers[i]);
    }
    sigprocmask(SIG_BLOCK, &held, &while_waiting);
}

/* ppoll lets no signal in if it finds something at once, and in a flood it does so each time. */
static void let_signals_in(void) {
    sigset_t held;
    sigprocmask(SIG_SETMASK, &while_waiting, &held);
    sigprocmask(SIG_SETMASK, &held, NULL);
}

int wait_for(struct pollfd *waits, nfds_t count, int64_t most) {
    struct timespec time = { .tv_sec = most / 1000, .tv_nsec = (long)(most % 1000) * 1000000 };
    int found = ppoll(waits, count, &time, &while_waiting);
    if (found > 0) let_signals_in();
    return found;
}

ssize_t write_until_signal(int to, const void *octets, size_t size) {
    sigset_t held;
    sigprocmask(SIG_SETMASK, &while_waiting, &held);
    ssize_t count = write(to, octets, size);
    int failure = errno;
    sigprocmask(SIG_SETMASK, &held, NULL);
    errno = failure;
    return count;
}

enum { MOST_WAIT = 1000 };

static const int output = STDOUT_FILENO, errors = STDERR_FILENO;

/* Whether a write there comes to an end, if it is no longer than a pipe has room for. After a signal nothing is waited for. */
static bool takes_octets(int stream) {
    struct pollfd wait = { stream, POLLOUT, 0 };
    while (!stopped) {
        if (wait_for(&wait, 1, MOST_WAIT) > 0) return true;
    }
    return poll(&wait, 1, 0) > 0;
}

/* Writes all of it, or less and the stream has an error. glibc asks once, and takes no number below 0. */
static ssize_t write_octets(void *stream, const char *octets, size_t size) {
    const int to = *(const int *)stream;
    size_t written = 0;
    while (written < size) {
        size_t left = size - written;
        if (!takes_octets(to)) {
            errno = EINTR;
            break;
        }
        ssize_t count = write_until_signal(to, octets + written, left < PIPE_BUF ? left : PIPE_BUF);
        if (count < 0 && errno != EINTR && errno != EAGAIN) break;
        if (count > 0) written += (size_t)count;
    }
    return (ssize_t)written;
}

/* Without memory it stays as it was. */
static void replace(FILE **stream, const int *number, int buffering) {
    FILE *made = fopencookie((void *)number, "w", (cookie_io_functions_t){ .write = write_octets });
    if (made == NULL) return;
    setvbuf(made, NULL, buffering, BUFSIZ);
    *stream = made;
}

void let_signals_end_writes(void) {
    replace(&stdout, &output, isatty(output) ? _IOLBF : _IOFBF);
    replace(&stderr, &errors, _IOLBF);
}
