#include "ptp4l.h"
#include "message_places.h"
#include "monotonic.h"
#include "ptpm.h"
#include "socket_option.h"
#include <errno.h>
#include <poll.h>
#include <string.h>
#include <sys/socket.h>
#include <sys/stat.h>
#include <sys/un.h>
#include <unistd.h>

enum { MOST_ANSWER = 1500, CONTROL_AT = 32, CONTROL = 4, INTERVAL = 0x7f, VERSION = 2, MANAGEMENT_TLV = 1 };

/* A life of the ptp4l: its socket as it was made. */
struct life { dev_t device; ino_t file; struct timespec made; };

static struct sockaddr_un address = { .sun_family = AF_UNIX };
static uint8_t domain;
static ptp4l_taker *take_late;
static int connected = -1;
static struct life life;
static unsigned lives;
static uint16_t latest, latest_get;     /* sequenceIds */
static bool is_silent;                  /* the latest GET was not answered in time */

void open_ptp4l(const char *path, uint8_t given, ptp4l_taker *taker) {
    strcpy(address.sun_path, path);
    domain = given;
    take_late = taker;
    latest = (uint16_t)milliseconds();
}

uint8_t ptp4l_domain(void) { return domain; }

int ptp4l_socket(void) { return connected; }

unsigned ptp4l_life(void) { return lives; }

static bool find_life(struct life *found) {
    struct stat at;
    if (stat(address.sun_path, &at) || !S_ISSOCK(at.st_mode)) return false;
    *found = (struct life){ at.st_dev, at.st_ino, at.st_mtim };
    return true;
}

static bool is_same(const struct life *one, const struct life *other) {
    return one->device == other->device && one->file == other->file && one->made.tv_sec == other->made.tv_sec
           && one->made.tv_nsec == other->made.tv_nsec;
}

static int connected_socket(void) {
    int opened = socket(AF_UNIX, SOCK_DGRAM | SOCK_CLOEXEC | SOCK_NONBLOCK, 0);
    return opened < 0 || connect(opened, (const struct sockaddr *)&address, sizeof address) == 0 ? opened : closed(opened);
}

/* Others may send to a socket that has a name and is connected to nobody. So it is connected first, and then gets a name by which it can
   be answered. The kernel chooses one that is in no folder. */
bool connect_ptp4l(void) {
    const struct sockaddr_un own = { .sun_family = AF_UNIX };
    struct life before, after;
    if (connected >= 0) return true;
    if (!find_life(&before)) return false;
    int opened = connected_socket();
    if (opened < 0) return false;
    if (bind(opened, (const struct sockaddr *)&own, sizeof own.sun_family) || !find_life(&after) || !is_same(&before, &after)) {
        close(opened);
        return false;
    }
    if (lives == 0 || !is_same(&life, &after)) lives++;
    life = after;
    connected = opened;
    is_silent = false;
    return true;
}

bool is_ptp4l_closed(void) {
    int opened = connected_socket();
    bool is_closed = opened < 0 && errno != ENOENT && errno != ECONNREFUSED;
    if (opened >= 0) close(opened);
    return is_closed;
}

/* A path may have the socket of a ptp4l that was killed. Nobody can connect to that one. */
bool is_ptp4l_gone(void) {
    struct life now;
    if (connected < 0 || !find_life(&now) || !is_same(&life, &now)) return true;
    int opened = connected_socket();
    if (opened < 0) return errno == ECONNREFUSED || errno == ENOENT;
    close(opened);
    return false;
}

static uint16_t own_port(void) { return (uint16_t)getpid(); }

static bool read_answer(const uint8_t *octets, size_t size, struct ptp4l_answer *answer) {
    unsigned action = size < LEAST_MESSAGE ? 0 : octets[ACTION_AT] & LOWER_HALF;
    if (action != RESPONSE && action != ACKNOWLEDGE) return false;
    if (number_at(octets + TARGET_AT + CLOCK_IDENTITY) != own_port()) return false;
    bool is_error = number_at(octets + TLV_AT) == ERROR_TLV;
    if (is_error && size < FIELD_AT + 2) return false;
    *answer = (struct ptp4l_answer){
        .port = number_at(octets + SOURCE_PORT_AT), .number = number_at(octets + SEQUENCE_AT),
        .id = number_at(octets + (is_error ? FIELD_AT : ID_AT)), .error = is_error ? number_at(octets + ID_AT) : 0,
        .field = octets + FIELD_AT, .size = is_error ? 0 : size - FIELD_AT,
    };
    return true;
}

static bool next_answer(struct ptp4l_answer *answer) {
    static uint8_t octets[MOST_ANSWER];
    for (;;) {
        ssize_t size = connected < 0 ? -1 : recv(connected, octets, sizeof octets, MSG_DONTWAIT);
        if (size < 0) return false;
        if (!read_answer(octets, (size_t)size, answer)) continue;
        if (answer->number == latest_get) is_silent = false;
        return true;
    }
}

void take_answers(void) {
    struct ptp4l_answer answer;
    while (next_answer(&answer)) take_late(&answer);
}

/* What has come in stays to be taken: it may be the answer to a change. */
static void disconnect(void) {
    take_answers();
    if (connected >= 0) close(connected);
    connected = -1;
}

void leave_ended_ptp4l(void) {
    if (is_ptp4l_gone()) disconnect();
}

/* It may have answered by now, or ended without an answer. */
static void hear_silent(void) {
    take_answers();
    if (is_silent) leave_ended_ptp4l();
}

/* Its hops are 0, since a ptp4l forwards what comes in on its Unix socket. Its source is not the clock, which drops its own messages. */
static size_t write_question(uint8_t octets[LEAST_MESSAGE + PTPM_MOST_READ], const uint8_t clock[8], uint8_t action, uint16_t id,
                             uint16_t port, const uint8_t *field, size_t size) {
    memset(octets, 0, LEAST_MESSAGE);
    octets[TYPE_AT] = MANAGEMENT_TYPE;
    octets[VERSION_AT] = VERSION;
    put_number(octets + LENGTH_AT, LEAST_MESSAGE + size);
    octets[DOMAIN_AT] = domain;
    put_number(octets + SOURCE_PORT_AT, own_port());
    put_number(octets + SEQUENCE_AT, ++latest);
    octets[CONTROL_AT] = CONTROL;
    octets[INTERVAL_AT] = INTERVAL;
    memcpy(octets + TARGET_AT, clock, CLOCK_IDENTITY);
    put_number(octets + TARGET_AT + CLOCK_IDENTITY, port);
    octets[ACTION_AT] = action;
    put_number(octets + TLV_AT, MANAGEMENT_TLV);
    put_number(octets + TLV_AT + 2, size + 2);
    put_number(octets + ID_AT, id);
    if (size > 0) memcpy(octets + FIELD_AT, field, size);
    return LEAST_MESSAGE + size;
}

bool ask_ptp4l(const uint8_t clock[8], uint8_t action, uint16_t id, uint16_t port, const uint8_t *field, size_t size, uint16_t *number) {
    uint8_t octets[LEAST_MESSAGE + PTPM_MOST_READ];
    if (action == PTPM_GET && is_silent) hear_silent();
    if (connected < 0 || (action == PTPM_GET && is_silent)) return false;
    size_t whole = write_question(octets, clock, action, id, port, field, size);
    *number = latest;
    if (send(connected, octets, whole, MSG_NOSIGNAL) < 0) {
        if (errno != EAGAIN && errno != ENOBUFS) disconnect();
        return false;
    }
    if (action == PTPM_GET) latest_get = latest;
    return true;
}

bool hear_ptp4l(uint16_t number, int64_t end, struct ptp4l_answer *answer) {
    for (;;) {
        while (next_answer(answer)) {
            if (answer->number == number) return true;
            take_late(answer);
        }
        int64_t left = end - milliseconds();
        struct pollfd polled = { .fd = connected, .events = POLLIN };
        if (connected < 0 || left <= 0 || poll(&polled, 1, (int)left) < 0 || (polled.revents & ~POLLIN) != 0) break;
    }
    is_silent = true;
    return false;
}
