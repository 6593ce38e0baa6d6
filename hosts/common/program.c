#include "program.h"
#include <errno.h>
#include <fcntl.h>
#include <stdio.h>
#include <stdlib.h>
#include <string.h>
#include <unistd.h>

static int status_of_end = 2;
static void (*say_too)(const char *what, const char *why);

void end_otherwise(int status, void (*say)(const char *what, const char *why)) {
    status_of_end = status;
    say_too = say;
}

_Noreturn void end_program(const char *what, const char *why) {
    fprintf(stderr, "%s: %s: %s\n", program, what, why);
    if (say_too != NULL) say_too(what, why);
    exit(status_of_end);
}

_Noreturn void give_up(const char *what) { end_program(what, strerror(errno)); }

void *needed(void *asked, const char *what) {
    if (asked == NULL) give_up(what);
    return asked;
}

void close_quietly(int file) {
    int failure = errno;
    if (file >= 0) close(file);
    errno = failure;
}

/* What is opened gets the lowest descriptor that is free. It is opened the wrong way round, so a read or a write there still
   fails. */
void hold_streams(void) {
    for (int stream = STDIN_FILENO; stream <= STDERR_FILENO; stream++) {
        if (fcntl(stream, F_GETFD) >= 0) continue;
        if (open("/dev/null", stream == STDIN_FILENO ? O_WRONLY : O_RDONLY) != stream) give_up("/dev/null");
    }
}
