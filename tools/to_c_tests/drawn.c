/* drawn SEED ROUNDS: drawn calls of the library, a clock's, a session's, a survey's and those of texts. After each thousand rounds it
   prints a sum of all that was answered and written. Over the assembly and over the C of dist/ it has to print the same. */
#include "ptpm.h"
#include <inttypes.h>
#include <stdint.h>
#include <stdio.h>
#include <stdlib.h>
#include <string.h>

enum { EACH = 1000, FEW_PORTS = 8, PORTS = PTPM_MOST_PORTS, FEW_MANAGERS = 16, MANAGERS = PTPM_MOST_MANAGERS, LIKE_A_MESSAGE = 54 };
enum { PLACES = PTPM_MOST_SENT_OF(PORTS) };

static const uint8_t me[8] = { 0xaa, 0xbb, 0xcc, 0xff, 0xfe, 0xdd, 0xee, 1 }, asker[8] = { 0, 0x11, 0x22, 0xff, 0xfe, 0x33, 0x44, 0x55 };
static uint64_t state, sum;
static struct ptpm_clock agent;
static size_t ports_of_agent;       /* as it was started last */
static struct ptpm_session session;
static struct ptpm_survey survey;
static struct ptpm_session_settings asks = { .port = 1, .target_ports = PORTS, .first = 1, .hops = 1, .attempts = 3 };
static struct ptpm_sent sent[PLACES];
static struct ptpm_passed_on passed_on;
static struct ptpm_rate rate;
static uint8_t message[PTPM_MOST_OCTETS], image[PTPM_CLOCK_IMAGE_BOUND(PORTS, MANAGERS)];

/* A number below this one. */
static uint32_t below(uint32_t bound) {
    state = state * UINT64_C(6364136223846793005) + UINT64_C(1442695040888963407);
    return (uint32_t)(state >> 33) % bound;
}

static void note(uint64_t number) { sum = (sum ^ number) * UINT64_C(0x100000001b3); }

static void note_octets(const void *octets, size_t size) {
    note(size);
    for (size_t i = 0; i < size; i++) note(((const uint8_t *)octets)[i]);
}

static void draw_managers(struct ptpm_manager_settings *managers, size_t count) {
    for (size_t i = 0; i < count; i++) {
        memcpy(managers[i].clock, asker, sizeof asker);
        managers[i].port = (uint16_t)(i + 1);
        managers[i].rights = (uint8_t)below(8);
    }
}

static void start_clock(void) {
    struct ptpm_clock_settings settings;
    struct ptpm_port_settings ports[PORTS + 1];
    struct ptpm_manager_settings managers[MANAGERS + 1];
    size_t count = below(below(8) == 0 ? MANAGERS + 2 : FEW_MANAGERS + 1);
    ptpm_clock_defaults(&settings);
    memcpy(settings.identity, me, sizeof me);
    settings.offset_from_master = (int64_t)state;
    settings.mean_path_delay = -(int64_t)(state >> 9);
    settings.observed_rate = (int32_t)state;
    settings.variance = (uint16_t)below(65536);
    settings.utc_offset = (int16_t)below(65536);
    settings.parent_port_number = (uint16_t)below(9);
    settings.has_parent_port = (uint8_t)below(2);
    for (size_t i = 0; i <= PORTS; i++) {
        ptpm_port_defaults(&ports[i]);
        ports[i].peer_delay = (int64_t)(state * 7);
        ports[i].log_sync = (int8_t)(below(11) - 9);
        ports[i].state = (uint8_t)(1 + below(9));
    }
    draw_managers(managers, count);
    ports_of_agent = below(2) == 0 ? FEW_PORTS : PORTS;
    size_t port_count = below(8) == 0 ? below(PORTS + 2) : ports_of_agent;
    note(ptpm_clock_start(&agent, &settings, ports, port_count, managers, count));
    note_octets(settings.user_description, settings.user_description_size);
}

/* Turns a bit over. C leaves open in which order the words of one call are drawn, so each draw has a statement of its own. */
static void damage(uint8_t *octets, size_t size) {
    uint32_t place = below((uint32_t)size);
    octets[place] ^= (uint8_t)(1 << below(8));
}

static uint16_t drawn_id(void) { return below(9) == 0 ? (uint16_t)below(65536) : (uint16_t)ptpm_id_at(below(22)); }

/* A management message (13.3 and 15.4) in `message`, with damage now and then; its size. */
static size_t draw_message(void) {
    static uint16_t number;
    size_t data = below(3) == 0 ? 2 * below(66) : 2 * below(4), size = LIKE_A_MESSAGE + data;
    uint16_t id = drawn_id();
    memset(message, 0, size);
    number = (uint16_t)(number + below(3));
    message[0] = 0x0d;
    message[1] = 0x12;
    message[3] = (uint8_t)size;
    memcpy(message + 20, asker, sizeof asker);
    message[29] = (uint8_t)(1 + below(17));
    message[30] = (uint8_t)(number >> 8);
    message[31] = (uint8_t)number;
    message[32] = 4;
    message[33] = 0x7f;
    if (below(4) == 0) memset(message + 34, 0xff, 10);
    else memcpy(message + 34, me, sizeof me);
    message[43] = (uint8_t)(below(3) == 0 ? 0xff : below(PORTS + 1));
    if (message[43] == 0xff) message[42] = 0xff;
    message[44] = message[45] = (uint8_t)below(4);
    message[46] = (uint8_t)(data > 0 ? 1 : below(5));
    message[49] = 1;
    message[51] = (uint8_t)(2 + data);
    message[52] = (uint8_t)(id >> 8);
    message[53] = (uint8_t)id;
    for (size_t i = 0; i < data; i++) message[LIKE_A_MESSAGE + i] = (uint8_t)below(below(3) == 0 ? 256 : 8);
    while (below(4) == 0) damage(message, size);
    return below(30) == 0 ? below((uint32_t)size) : size;
}

static void exchange(uint64_t now) {
    static const struct ptpm_say nothing;
    struct ptpm_taken taken;
    size_t size = draw_message();
    note(ptpm_clock_take(&agent, (uint16_t)below(PORTS + 2), message, size, &nothing, 0, sent, PLACES, &taken));
    note(taken.changed.clock);
    note_octets(taken.changed.ports, sizeof taken.changed.ports);
    for (size_t i = 0; i < taken.count; i++) {
        note(sent[i].port);
        note_octets(sent[i].octets, sent[i].size);
        note(ptpm_session_receive(&session, sent[i].octets, sent[i].size));
        note(ptpm_survey_receive(&survey, sent[i].octets, sent[i].size));
    }
    note(ptpm_passed_on_is_first(&passed_on, message, size, now, 50));
    note(ptpm_rate_take(&rate, now));
}

/* What is read, as text, and parsed again. */
static void texts(void) {
    uint8_t read[PTPM_MOST_READ];
    char text[PTPM_MOST_FIELD_TEXT];
    uint16_t id = drawn_id();
    size_t size = 0, count = 0, member = 0;
    note(ptpm_clock_read(&agent, id, (uint16_t)below(PORTS + 2), read, sizeof read, &size));
    note_octets(read, size);
    if (below(4) == 0 && size > 0) damage(read, size);
    size_t length = ptpm_field_text(id, read, size, text, sizeof text);
    note_octets(text, length);
    for (size_t i = 0; i < length; i++) {
        if (text[i] == ' ' || text[i] == '\n') text[i] = '\0';
    }
    if (length == 0) return;
    note(ptpm_field_parse(id, text, length, read, sizeof read, &count, &member));
    note_octets(read, count);
    note(member);
}

static void use_session(void) {
    size_t size = 0;
    uint16_t error = 0;
    uint8_t value[PTPM_MOST_READ] = { 0 };
    value[0] = (uint8_t)below(256);
    value[1] = (uint8_t)below(256);
    uint8_t action = (uint8_t)below(4);
    uint16_t id = drawn_id(), port = (uint16_t)below(PORTS + 2);
    note(ptpm_session_begin(&session, action, id, port, value, below(5)));
    note(ptpm_session_send(&session, message, sizeof message, &size));
    note_octets(message, size);
    if (below(2) == 0) note(ptpm_clock_handle(&agent, 1, message, size, sent, PLACES, &size));
    else size = 0;
    for (size_t i = 0; i < size; i++) note(ptpm_session_receive(&session, sent[i].octets, sent[i].size));
    note(ptpm_session_report(&session, message, sizeof message, &size, &error));
    note_octets(message, size);
    note(error);
    if (below(3) == 0) note(ptpm_session_resume(&session, (uint8_t)below(3)));
    if (below(3) == 0) note(ptpm_session_give_up(&session));
    note(ptpm_session_issued(&session));
}

static void use_images(void) {
    struct ptpm_manager_settings managers[MANAGERS];
    size_t size = 0, gone = 0, count = below(FEW_MANAGERS + 1);
    note(ptpm_session_image(&session, message, sizeof message, &size));
    note_octets(message, size);
    if (below(2) == 0 && size > 0) damage(message, size);
    note(ptpm_session_restore(&session, &asks, message, size));
    draw_managers(managers, count);
    note(ptpm_clock_image(&agent, image, sizeof image, &size));
    note_octets(image, size);
    if (below(2) == 0 && size > 0) damage(image, size);
    note(ptpm_clock_restore(&agent, me, ports_of_agent, managers, count, image, size, &gone));
    note(gone);
}

static void observe(void) {
    struct ptpm_observed_clock observed = { 0 };
    struct ptpm_observed_port ports[PORTS] = { { 0 } };
    uint64_t left = 0;
    observed.mean_path_delay = (int64_t)(state * 3);
    observed.has_mean_path_delay = 1;
    observed.utc_offset = (int16_t)below(65536);
    observed.has_utc_offset = (uint8_t)below(2);
    observed.has_grandmaster = (uint8_t)below(2);
    memcpy(observed.grandmaster, asker, sizeof asker);
    observed.grandmaster_variance = (uint16_t)below(65536);
    for (size_t i = 0; i < PORTS; i++) {
        ports[i].peer_delay = (int64_t)(state * 5);
        ports[i].has_peer_delay = (uint8_t)below(2);
        ports[i].state = (uint8_t)below(11);
        ports[i].has_state = (uint8_t)below(2);
    }
    note(ptpm_clock_observe(&agent, &observed, ports, below(PORTS + 1), &left));
    note(left);
}

static void use_survey(void) {
    struct ptpm_source source = { { 0 }, 0 };
    size_t size = 0;
    uint16_t error = 0;
    note(ptpm_survey_count(&survey));
    note(ptpm_survey_answer(&survey, below(4), &source, message, sizeof message, &size, &error));
    note_octets(message, size);
    note(error);
    note(source.port);
    note_octets(source.clock, sizeof source.clock);
}

int main(int argc, char **argv) {
    struct ptpm_survey_settings of_all = { .port = 9, .number = 3, .id = PTPM_ID_PRIORITY1, .hops = 1 };
    if (argc != 3) return 2;
    state = strtoull(argv[1], NULL, 10);
    memcpy(asks.clock, asker, sizeof asker);
    memcpy(asks.target, me, sizeof me);
    memcpy(of_all.clock, asker, sizeof asker);
    start_clock();
    note(ptpm_session_start(&session, &asks));
    note(ptpm_survey_start(&survey, &of_all));
    ptpm_rate_start(&rate, 100, 0);
    for (uint64_t round = 1, rounds = strtoull(argv[2], NULL, 10), now = 0; round <= rounds; round++, now += below(20)) {
        exchange(now);
        texts();
        if (below(3) == 0) use_session();
        if (below(20) == 0) use_images();
        if (below(6) == 0) observe();
        if (below(6) == 0) use_survey();
        if (below(300) == 0) start_clock();
        if (round % EACH == 0) printf("%" PRIu64 " %016" PRIx64 "\n", round, sum);
    }
    return 0;
}
