/* A clock whose hardware lacks values. Its device has sync intervals from 2^-4 to 2 seconds, and fails once to write one. It is asked
   before each request is carried out, and says what it can't do. It takes three requests of a manager and a copy of the last, and
   prints what becomes of each:
       cc limits_host.c $(pkg-config --cflags --libs ptpm) && ./a.out */
#include <ptpm.h>
#include <stdio.h>
#include <string.h>

enum { EVERY_PORT = 0xffff, NUMBER_AT = 31, TLV_TYPE_AT = 49, ERROR_AT = 52, VALUE_AT = 54, ERROR_STATUS = 2 };

static const uint8_t identity[8] = { 0xaa, 0xbb, 0xcc, 0xff, 0xfe, 0xdd, 0xee, 0x01 };
static const struct ptpm_manager_settings manager = { { 0x00, 0x11, 0x22, 0x33, 0x44, 0x55, 0x66, 0x77 }, 1, PTPM_PORT_SET };
static uint8_t datagram[56] = {                 /* from this manager to port 1 of the clock: a SET of LOG_SYNC_INTERVAL */
    0x0d, 0x12, 0, 56, 0, 0, 0, 0, 0, 0, 0, 0, 0, 0, 0, 0, 0, 0, 0, 0, 0x00, 0x11, 0x22, 0x33, 0x44, 0x55, 0x66, 0x77, 0, 1, 0, 0, 4, 0x7f,
    0xaa, 0xbb, 0xcc, 0xff, 0xfe, 0xdd, 0xee, 0x01, 0, 1, 1, 1, 1, 0, 0, 1, 0, 4, 0x20, 0x0b, 0, 0,
};
static struct ptpm_clock device;                /* all zeros: no clock is held yet */
static struct ptpm_limit limits[1];
static struct ptpm_sent sent[1];
static bool is_hardware_broken;

static bool write_to_hardware(const struct ptpm_question *asked) {
    if (!is_hardware_broken) printf("written: logSyncInterval %d\n", (int8_t)asked->octets[0]);
    return !is_hardware_broken;
}

/* What the device says: what its limits say, and then whether it could write the change. Asks for nothing else. */
static struct ptpm_say say_of_device(void) {
    struct ptpm_say say;
    struct ptpm_question asked;
    memset(&say, 0, sizeof say);                /* it agrees */
    if (ptpm_clock_ask(&device, 1, datagram, sizeof datagram, &asked) != PTPM_ASKED_CHANGE) return say;
    say.error = ptpm_limits_say(limits, sizeof limits / sizeof *limits, &asked);
    if (say.error == 0 && !write_to_hardware(&asked)) say.error = PTPM_ERROR_GENERAL_ERROR;
    if (say.error != 0) say.kind = PTPM_OBJECTS;
    return say;
}

static void print_name(size_t (*name_of)(uint32_t number, char *text, size_t room), uint32_t number) {
    char name[PTPM_MOST_NAME];
    printf(" %.*s", (int)name_of(number, name, sizeof name), name);
}

static size_t error_name(uint32_t number, char *text, size_t room) { return ptpm_error_name((uint16_t)number, text, room); }

/* A request that comes in: its number, and the value that it sets. */
static void come_in(uint8_t number, int8_t value) {
    struct ptpm_taken taken;
    datagram[NUMBER_AT] = number;
    datagram[VALUE_AT] = (uint8_t)value;
    struct ptpm_say say = say_of_device();
    enum ptpm_handled answer = ptpm_clock_take(&device, 1, datagram, sizeof datagram, &say, 0, sent, 1, &taken);
    printf("%u, logSyncInterval %d:", (unsigned)number, value);
    print_name(ptpm_answer_name, answer);
    if (taken.count > 0 && sent[0].octets[TLV_TYPE_AT] == ERROR_STATUS) {
        print_name(error_name, (uint32_t)sent[0].octets[ERROR_AT] << 8 | sent[0].octets[ERROR_AT + 1]);
    }
    printf("%s\n", taken.changed.ports[0] & PTPM_CHANGED_LOG_SYNC ? ", changed" : "");
}

static bool start(void) {
    struct ptpm_clock_settings settings;
    struct ptpm_port_settings port;
    ptpm_clock_defaults(&settings);
    memcpy(settings.identity, identity, sizeof identity);
    ptpm_port_defaults(&port);
    limits[0].id = PTPM_ID_LOG_SYNC_INTERVAL;
    limits[0].port = EVERY_PORT;
    ptpm_limit_range(&limits[0], -4, 1);
    return ptpm_clock_start(&device, &settings, &port, 1, &manager, 1) == PTPM_STARTED;
}

int main(void) {
    if (!start()) return 1;
    come_in(1, -8);
    come_in(2, -4);
    is_hardware_broken = true;
    come_in(3, -3);
    is_hardware_broken = false;
    come_in(3, -3);
    ptpm_clock_stop(&device);
    return 0;
}
