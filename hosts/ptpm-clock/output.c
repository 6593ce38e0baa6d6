#include "output.h"
#include "monotonic.h"
#include "program.h"
#include "ptpm.h"
#include <errno.h>
#include <pthread.h>
#include <stdarg.h>
#include <stdbool.h>
#include <stdio.h>
#include <time.h>
#include <unistd.h>

enum { ROOM = 262144, TIMES_A_SECOND = 10 };

/* The lines that wait for one stream, the oldest at `first`. */
struct stream {
    int file;
    bool is_started, is_ended;
    size_t first, size;
    pthread_t thread;
    unsigned long lost;
    pthread_mutex_t lock;
    pthread_cond_t has_more, is_empty;
    char *octets;
};

static char output[ROOM], notices[ROOM];

#define STREAM(number, room) { .file = number, .octets = room, .lock = PTHREAD_MUTEX_INITIALIZER, .has_more = PTHREAD_COND_INITIALIZER }

static struct stream standard_output = STREAM(STDOUT_FILENO, output);
static struct stream standard_error = STREAM(STDERR_FILENO, notices);

/* Writes what waits, until the end. What can't be written, for example if nobody reads any more, is dropped. */
static void *write_all(void *given) {
    struct stream *stream = given;
    pthread_mutex_lock(&stream->lock);
    for (;;) {
        while (stream->size == 0 && !stream->is_ended) pthread_cond_wait(&stream->has_more, &stream->lock);
        if (stream->size == 0) break;
        size_t size = stream->size < ROOM - stream->first ? stream->size : ROOM - stream->first;
        pthread_mutex_unlock(&stream->lock);
        ssize_t count = write(stream->file, stream->octets + stream->first, size);
        bool is_again = count < 0 && (errno == EAGAIN || errno == EINTR);
        if (is_again) nanosleep(&(struct timespec){ .tv_nsec = 10000000 }, NULL);      /* another program made it non-blocking */
        pthread_mutex_lock(&stream->lock);
        if (count < 0 && !is_again) count = (ssize_t)size;
        if (count > 0) stream->first = (stream->first + (size_t)count) % ROOM;
        if (count > 0) stream->size -= (size_t)count;
        if (stream->size == 0) pthread_cond_signal(&stream->is_empty);
    }
    pthread_mutex_unlock(&stream->lock);
    return NULL;
}

/* The end of what is queued is waited for by a clock that nobody sets. */
static int start_is_empty(struct stream *stream) {
    pthread_condattr_t monotonic;
    int failure = pthread_condattr_init(&monotonic);
    if (failure == 0) failure = pthread_condattr_setclock(&monotonic, CLOCK_MONOTONIC);
    return failure != 0 ? failure : pthread_cond_init(&stream->is_empty, &monotonic);
}

static void start_stream(struct stream *stream) {
    errno = start_is_empty(stream);
    if (errno == 0) errno = pthread_create(&stream->thread, NULL, write_all, stream);
    if (errno != 0) give_up("a thread that writes");
    stream->is_started = true;
}

void start_output(void) {
    start_stream(&standard_output);
    start_stream(&standard_error);
}

/* Queues a line whole, or not at all. */
static void queue(struct stream *stream, const char *line, size_t size) {
    if (!stream->is_started) {
        while (size > 0 && write(stream->file, line, size) < 0 && errno == EINTR) continue;
        return;
    }
    pthread_mutex_lock(&stream->lock);
    if (size > ROOM - stream->size) {
        stream->lost++;
    } else {
        for (size_t i = 0; i < size; i++) stream->octets[(stream->first + stream->size + i) % ROOM] = line[i];
        stream->size += size;
        pthread_cond_signal(&stream->has_more);
    }
    pthread_mutex_unlock(&stream->lock);
}

static void print(struct stream *stream, const char *lead, const char *format, va_list values) {
    char line[LINE + 1];
    size_t size = (size_t)snprintf(line, LINE, "%s", lead);
    int more = vsnprintf(line + size, LINE - size, format, values);
    if (more > 0) size += (size_t)more < LINE - size ? (size_t)more : LINE - size - 1;
    line[size++] = '\n';
    queue(stream, line, size);
}

void print_line(const char *format, ...) {
    va_list values;
    va_start(values, format);
    print(&standard_output, "", format, values);
    va_end(values);
}

void say(const char *format, ...) {
    va_list values;
    va_start(values, format);
    print(&standard_error, "ptpm-clock: ", format, values);
    va_end(values);
}

void say_at_times(const char *format, ...) {
    static struct ptpm_rate times;
    static unsigned long beyond;
    va_list values;
    uint64_t now = (uint64_t)milliseconds();
    if (times.rate == 0) ptpm_rate_start(&times, TIMES_A_SECOND, now);
    if (!ptpm_rate_take(&times, now)) {
        beyond++;
        return;
    }
    if (beyond > 0) say("%lu more lines were not printed: the limit is ten a second", beyond);
    beyond = 0;
    va_start(values, format);
    print(&standard_error, "ptpm-clock: ", format, values);
    va_end(values);
}

unsigned long lines_lost(void) { return standard_output.lost + standard_error.lost; }

/* A thread that waits for a reader is left waiting. */
static void end_stream(struct stream *stream, const struct timespec *end) {
    if (!stream->is_started) return;
    pthread_mutex_lock(&stream->lock);
    while (stream->size > 0 && pthread_cond_timedwait(&stream->is_empty, &stream->lock, end) == 0) continue;
    bool is_written = stream->size == 0;
    stream->is_ended = true;
    pthread_cond_signal(&stream->has_more);
    pthread_mutex_unlock(&stream->lock);
    if (is_written) pthread_join(stream->thread, NULL);
}

void end_output(void) {
    struct timespec end;
    clock_gettime(CLOCK_MONOTONIC, &end);       /* which nobody sets, as the date may be while it ends */
    end.tv_sec++;
    end_stream(&standard_output, &end);
    end_stream(&standard_error, &end);
}
