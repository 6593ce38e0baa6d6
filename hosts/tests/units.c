/* Tests of what the hosts decide without a socket. They try the library's token buckets, its table of messages that were
   passed on, and its stops. They try where a message is in a frame, which sdoId it has, and what the image of a session says. They try
   the seal of a file, and TimeIntervals and JSON as texts. They try that a wait takes its time, and who is answered once a clock is saved.
   Prints what does not hold, and `units: N passed, M failed`. */
#include "checking.h"
#include "domains.h"
#include "ethernet.h"
#include "field_text.h"
#include "kept_file.h"
#include "ptpm-clock/askers.h"
#include "ptpm.h"
#include "session_image.h"
#include "stopping.h"
#include "text.h"
#include <stdlib.h>
#include <string.h>
#include <time.h>

enum { NOW = 5000, TIME = 1000, MESSAGE = 54, ERROR_STATUS = 60, PLACES = 4096, FEWEST = 16, MOST = 1048576 };

static struct ptpm_rate full_bucket(uint64_t tokens, uint64_t now) {
    struct ptpm_rate bucket;
    ptpm_rate_start(&bucket, tokens, now);
    return bucket;
}

/* How many tokens there are at a time, taken one after another. */
static long taken(struct ptpm_rate *bucket, uint64_t now) {
    long count = 0;
    while (ptpm_rate_take(bucket, now)) count++;
    return count;
}

static void buckets(void) {
    struct ptpm_rate bucket = full_bucket(1000, NOW);
    check(taken(&bucket, NOW) == 1000, "a second's tokens at once");
    check(taken(&bucket, NOW + 1) == 1, "one more a millisecond later");
    check(taken(&bucket, NOW + 11) == 10, "ten more ten milliseconds later");
    check(taken(&bucket, NOW + 100000) == 1000, "no more than a second's after a pause");
    bucket = full_bucket(1, NOW);
    check(taken(&bucket, NOW) == 1 && taken(&bucket, NOW + 999) == 0 && taken(&bucket, NOW + 1000) == 1, "one a second");
    bucket = full_bucket(1000000, NOW);
    check(taken(&bucket, NOW) == 1000000 && taken(&bucket, NOW + 5) == 5000, "a million a second");
    bucket = full_bucket(1000001, NOW);
    check(taken(&bucket, NOW) == 1000000, "a rate that is over the highest");
    bucket = full_bucket(0, NOW);
    check(taken(&bucket, NOW + 100000) == 0, "a rate of nothing");
    bucket = full_bucket(10, NOW);
    check(taken(&bucket, NOW) == 10 && taken(&bucket, 0) == 0 && taken(&bucket, NOW + 100) == 1, "a time that goes back brings nothing");
    bucket = full_bucket(3, NOW);
    long count = 0;
    for (uint64_t now = NOW; now < NOW + 10000; now++) count += taken(&bucket, now);
    check(count == 3 + 29, "three a second, and no fraction is lost: the last token is whole at ten seconds");
}

/* A GET of PRIORITY1 whose other members are 0 (13.3, 15.4). */
#define GET_MESSAGE { 0x0d, 0x12, 0, MESSAGE, [49] = 1, [51] = 2 }
#define SEED UINT64_C(0x1500000000000015)       /* the same in either order of octets, as a struct may have it */

static void number_message(uint8_t *message, unsigned number) {
    message[30] = (uint8_t)(number >> 8);
    message[31] = (uint8_t)number;
}

/* Whether a message is passed on, and noted for a second. */
static bool note_if_first(struct ptpm_passed_on *table, const uint8_t message[ERROR_STATUS], uint64_t now) {
    return ptpm_passed_on_is_first(table, message, (size_t)(message[2] << 8 | message[3]), now, TIME);
}

/* Fields that distinguish one message from another, and the octets at which they are. */
static void passing_on(void) {
    static struct ptpm_passed_on table;
    static const struct { int octet; const char *name; } fields[] = {
        { 20, "sourcePortIdentity" }, { 29, "sourcePortIdentity" }, { 30, "sequenceId" }, { 31, "sequenceId" },
        { 34, "targetPortIdentity" }, { 43, "targetPortIdentity" }, { 46, "actionField" }, { 52, "managementId" },
        { 53, "managementId" },
    };
    static const int others[] = { 2, 6, 8, 32, 33, 44, 45, 47 };
    uint8_t message[ERROR_STATUS] = GET_MESSAGE;
    check(note_if_first(&table, message, NOW), "a message that was not passed on");
    check(!note_if_first(&table, message, NOW) && !note_if_first(&table, message, NOW + 999), "the same in the second after it");
    for (size_t i = 0; i < sizeof fields / sizeof *fields; i++) {
        message[fields[i].octet] ^= 1;
        check(note_if_first(&table, message, NOW) && !note_if_first(&table, message, NOW), fields[i].name);
        message[fields[i].octet] ^= 1;
    }
    for (size_t i = 0; i < sizeof others / sizeof *others; i++) {
        message[others[i]] ^= 1;
        check(!note_if_first(&table, message, NOW), "the same message with another octet that is not compared");
        message[others[i]] ^= 1;
    }
    check(note_if_first(&table, message, NOW + 1000) && !note_if_first(&table, message, NOW + 1999), "a second later it is passed on again");
    check(!note_if_first(&table, message, NOW + 1500) && note_if_first(&table, message, NOW + 2000), "what is kept back is not noted again");
    message[0] = 0x0c;
    check(!note_if_first(&table, message, NOW), "no management message");
    memcpy(message, (const uint8_t[]){ 0x0d, 0x12, 0, ERROR_STATUS }, 4);
    message[46] = 2;
    message[49] = 2;                            /* an error status, whose id follows the error */
    message[51] = 8;
    message[55] = 7;
    check(note_if_first(&table, message, NOW) && !note_if_first(&table, message, NOW), "an error status");
    message[55] ^= 1;
    check(note_if_first(&table, message, NOW), "an error status of another id");
    message[53] ^= 1;
    check(!note_if_first(&table, message, NOW), "another error of the same id");
}

/* Of this many messages, one after the other, how many are passed on and noted. */
static unsigned noted(struct ptpm_passed_on *table, uint8_t *message, unsigned count, uint64_t now) {
    unsigned first = 0;
    for (unsigned i = 0; i < count; i++) {
        number_message(message, i);
        first += (unsigned)note_if_first(table, message, now);
    }
    return first;
}

/* The table keeps a second's messages at the rates that there are, and passes on none that it can't note. */
static void many_messages(void) {
    static struct ptpm_passed_on table = { .seed = SEED };
    uint8_t message[ERROR_STATUS] = GET_MESSAGE;
    unsigned first = noted(&table, message, 2000, NOW), again = noted(&table, message, 2000, NOW + 500);
    check(first >= 1990 && again == 0, "2,000 messages in a second, and each again");
    message[20] = 1;
    unsigned late = noted(&table, message, 60000, NOW + 600);
    check(late + first <= PLACES, "no more messages than there are places");
}

/* The same by a table of the host's own. */
static bool is_first_of(uint64_t (*places)[6], size_t count, const uint8_t message[MESSAGE], uint64_t now) {
    return ptpm_passed_on_is_first_of(SEED, places, count, message, MESSAGE, now, TIME);
}

/* Sixteen messages have a place in the smallest. No message has one if the table is too small or too large. */
static void own_tables(void) {
    static uint64_t places[FEWEST][6], many[MOST + 1][6];
    uint8_t message[MESSAGE] = GET_MESSAGE;
    unsigned first = 0;
    for (unsigned i = 0; i <= FEWEST; i++) {
        number_message(message, i);
        first += (unsigned)is_first_of(places, FEWEST, message, NOW);
    }
    check(first == FEWEST, "as many messages as the smallest table has places");
    number_message(message, 0);
    check(!is_first_of(places, FEWEST, message, NOW + TIME - 1) && is_first_of(places, FEWEST, message, NOW + TIME), "one of them again");
    check(is_first_of(many, MOST, message, NOW), "the largest table");
    check(!is_first_of(many, MOST + 1, message, NOW + TIME) && !is_first_of(places, FEWEST - 1, message, NOW + 2 * TIME)
          && !is_first_of(places, 0, message, NOW + 2 * TIME), "no table of such a size");
    check(!ptpm_passed_on_is_first_of(SEED, places, FEWEST, message, 0, NOW + 2 * TIME, TIME), "no management message in such a table");
}

/* What a table of 4,096 places of the host's answers is what the library's own answers. */
static void same_tables(void) {
    static struct ptpm_passed_on table = { .seed = SEED };
    static uint64_t places[PLACES][6];
    uint8_t message[ERROR_STATUS] = GET_MESSAGE;
    bool is_same = true;
    for (unsigned i = 0; i < 3 * PLACES; i++) {
        uint64_t now = NOW + i / 8;
        number_message(message, i % 5000);
        is_same = is_same && note_if_first(&table, message, now) == is_first_of(places, PLACES, message, now);
    }
    check(is_same, "a table of 4,096 places of the host's own");
}

/* A stop takes NULL, as free does, and a handle that holds nothing. */
static void stops(void) {
    struct ptpm_clock clock = { 0 };
    ptpm_clock_stop(NULL);
    ptpm_session_stop(NULL);
    ptpm_survey_stop(NULL);
    ptpm_asker_stop(NULL);
    ptpm_clock_stop(&clock);
    check(ptpm_clock_most_sent(&clock) == 0, "a stop of nothing");
}

static void frames(void) {
    static const uint8_t own[STATION] = { 2, 0, 0, 0, 0, 9 }, peer[STATION] = { 2, 0, 0, 0, 0, 7 };
    static const uint8_t head[] = { 0x01, 0x1b, 0x19, 0, 0, 0, 2, 0, 0, 0, 0, 9, 0x88, 0xf7 };
    uint8_t written[ETHERNET_HEAD], frame[ETHERNET_LEAST] = { 0x01, 0x1b, 0x19, 0, 0, 0, 2, 0, 0, 0, 0, 7, 0x88, 0xf7 };
    write_head(written, NULL, own);
    check(memcmp(written, head, sizeof head) == 0, "the head of a frame to the group");
    write_head(written, peer, own);
    check(memcmp(written, peer, STATION) == 0 && memcmp(written + STATION, own, STATION) == 0, "of one to a station");
    check(message_in(frame, sizeof frame, own) == 14 && memcmp(station_of(frame), peer, STATION) == 0, "a message to the group");
    check(!is_to_station(frame, own) && message_in(frame, 13, own) == 0, "a frame without a whole head");
    memcpy(frame, peer, STATION);
    check(message_in(frame, sizeof frame, own) == 0, "a frame to another station");
    memcpy(frame, (const uint8_t[]){ 0x01, 0x80, 0xc2, 0, 0, 0x0e }, STATION);
    check(message_in(frame, sizeof frame, own) == 0 && message_to_link(frame, sizeof frame) == 14, "a message to the group of one link");
    memcpy(frame, own, STATION);
    check(message_to_link(frame, sizeof frame) == 0, "a frame to this station is to no group");
    check(message_in(frame, sizeof frame, own) == 14 && is_to_station(frame, own), "a frame to this one");
    memcpy(frame + 12, (const uint8_t[]){ 0x81, 0, 0xa0, 0, 0x88, 0xf7 }, 6);
    check(message_in(frame, sizeof frame, own) == 18, "a frame with a tag");
    memcpy(frame + 12, (const uint8_t[]){ 0x88, 0xa8, 0, 5, 0x81, 0, 0, 7, 0x88, 0xf7 }, 10);
    check(message_in(frame, sizeof frame, own) == 22 && message_in(frame, 20, own) == 0, "a frame with two tags");
    memcpy(frame + 12, (const uint8_t[]){ 0x08, 0x00 }, 2);
    check(message_in(frame, sizeof frame, own) == 0, "a frame of another Ethertype");
    struct iovec parts[FRAME_PARTS];
    join_frame(parts, written, frame, 45);
    check(parts[0].iov_len == 14 && parts[1].iov_len == 45 && parts[2].iov_len == 1, "a frame has 60 octets at least");
    join_frame(parts, written, frame, 46);
    check(parts[1].iov_base == frame && parts[1].iov_len == 46 && parts[2].iov_len == 0, "and no octet after a message that is longer");
}

/* majorSdoId is in the upper half of the first octet, and minorSdoId in the sixth (IEEE 1588-2019, 13.3). */
static void sdo_ids(void) {
    uint8_t message[] = { 0x3d, 0x12, 0, MESSAGE, 4, 0x2a };
    char text[DOMAIN_TEXT];
    check(is_same_domain(domain_of(message), (struct domain){ 4, 0x32a }), "a domain with an sdoId");
    write_domain(text, domain_of(message));
    check(strcmp(text, "4@0x32a") == 0, "as a text");
    write_sdo(message, 0x1b0);
    check(memcmp(message, (const uint8_t[]){ 0x1d, 0x12, 0, MESSAGE, 4, 0xb0 }, sizeof message) == 0, "another sdoId");
    write_sdo(message, 0);
    write_domain(text, domain_of(message));
    check(memcmp(message, (const uint8_t[]){ 0x0d, 0x12, 0, MESSAGE, 4, 0 }, sizeof message) == 0 && strcmp(text, "4") == 0, "sdoId 0");
    write_domain(text, (struct domain){ 255, MOST_SDO });
    check(strcmp(text, "255@0xfff") == 0, "the longest text");
}

/* The session of manager 0011223344556677/1 with clock aabbccfffeddee01 of two ports, from number 7 on. A GET of PRIORITY1 is
   under way, and then a COMMAND of DISABLE_PORT at port 2 in its place. */
static void images(void) {
    uint8_t octets[] = {
        'p', 't', 'p', 'm', 2, 1, 0, 0, 0, 0, 0, 48, 0x00, 0x11, 0x22, 0x33, 0x44, 0x55, 0x66, 0x77, 0, 1,
        0xaa, 0xbb, 0xcc, 0xff, 0xfe, 0xdd, 0xee, 0x01, 2, 0, 7, 1, 2, 4, 0, 0, 0, 0, 0, 0, 0, 1, 0, 0, 0, 0, 0, 0, 0, 0,
        1, 0, 0x20, 0x05, 0xff, 0xff, 0, 0, 0xa5, 0x5a,
    };
    size_t size = sizeof octets - 2;
    struct session_image image = read_image(octets, size);
    check(memcmp(image.manager, octets + 12, 8) == 0 && memcmp(image.target, octets + 22, 8) == 0, "the clocks of an image");
    check(image.manager_port == 1 && image.ports == 2 && image.first == 7, "the other members of a session");
    check(image.is_under_way && image.action == 0 && image.id == 0x2005 && image.size == 0, "what is under way");
    check(image.port == 0, "an id of the clock names no port");
    memcpy(octets + 52, (const uint8_t[]){ 1, 3, 0x20, 0x0e, 0, 2, 0, 2 }, 8);
    image = read_image(octets, sizeof octets);
    check(image.action == 3 && image.id == 0x200e && image.port == 2, "a COMMAND at a port");
    check(image.size == 2 && memcmp(image.octets, "\xa5\x5a", 2) == 0, "and its dataField");
    check(!read_image(octets, size).is_under_way, "a request that lacks octets is none");
    octets[52] = 0;
    check(!read_image(octets, 53).is_under_way && read_image(octets, 53).first == 7, "a session at rest");
    check(read_image(octets, 52).first == 0, "fewer octets are no session");
}

/* The octets of digits in hexadecimal; how many there are. */
static size_t read_digits(uint8_t *octets, const char *digits) {
    size_t size = 0;
    for (unsigned octet; sscanf(digits + 2 * size, "%2x", &octet) == 1; size++) octets[size] = (uint8_t)octet;
    return size;
}

/* The image of clock aabbccfffeddee01 with two ports, fresh, after its first save. The CRC is by another program. */
static size_t read_saved(uint8_t *octets) {
    return read_digits(octets,
        "7074706d010100000000006baabbccfffeddee01000180f8feffff80000000000000000000000000000000000000aabbccfffeddee01000000ffff7fff"
        "ffff80f8feffff80aabbccfffeddee010025000000000000a0000206000000000000000000010300010006000000000000000000010300010000"
        "70747073" "0000000000000001" "3c238d3b");
}

static void seals(void) {
    uint8_t saved[256], octets[256] = { 0 };
    uint64_t saves = 7;
    size_t size = read_saved(saved), left = size;
    check(size == 135 && take_seal(saved, &left, &saves) == PTPM_RESTORED && left == 119 && saves == 1, "a seal is taken off");
    memcpy(octets, saved, left);
    check(write_seal(octets, left, 1) == size && memcmp(octets, saved, size) == 0, "it is written as it was");
    left = 119;
    check(take_seal(saved, &left, &saves) == PTPM_DAMAGED && left == 119 && saves == 0, "an image by itself is damaged");
    left = size + 1;
    octets[size] = 0;
    check(take_seal(octets, &left, &saves) == PTPM_DAMAGED && left == size + 1 && saves == 0, "nothing comes after the seal of a file");
}

/* What a function prints, which the next call frees. */
static char *printed;
static size_t printed_size;
static FILE *open_printed(void) {
    free(printed);
    return open_memstream(&printed, &printed_size);
}

static bool reads_interval(const char *text, int64_t interval) {
    int64_t read;
    return read_interval(text, &read) && read == interval;
}

/* Nanoseconds times 2^16 (5.3.2). */
static void intervals(void) {
    static const struct { int64_t interval; const char *text; } both[] = {
        { 0, "0.0" }, { 98304, "1.5" }, { -98304, "-1.5" }, { 1, "0.0000152587890625" }, { -1, "-0.0000152587890625" },
        { INT64_MAX, "140737488355327.9999847412109375" }, { INT64_MIN, "-140737488355328.0" },
    };
    static const char *const none[] = {
        "", "-", ".5", "1.", "1.5.", "+1", "--1", "1e3", "0x10", " 1", "1.5ns", "140737488355328", "-140737488355328.1",
        "140737488355327.9999999999999999", "1.00000000000000000", "1000000000000000",
    };
    int64_t read = 7;
    for (size_t i = 0; i < sizeof both / sizeof *both; i++) check(reads_interval(both[i].text, both[i].interval), both[i].text);
    for (size_t i = 0; i < sizeof none / sizeof *none; i++) check(!read_interval(none[i], &read) && read == 7, none[i]);
    check(reads_interval("1250", 81920000) && reads_interval("-0", 0), "a whole number");
    check(reads_interval("0.0000076293945312", 0) && reads_interval("0.0000076293945313", 1), "half a unit");
    check(reads_interval("-0.1", -6554) && reads_interval("0.9999999999999999", 65536), "the nearest unit");
}

static bool prints_lines_of_json(const char *lines, const char *json) {
    FILE *to = open_printed();
    print_json(to, lines, strlen(lines));
    return fclose(to) == 0 && strcmp(printed, json) == 0;
}

static bool prints_json(const char *text, const char *json) {
    FILE *to = open_printed();
    print_json_text(to, (const uint8_t *)text, strlen(text));
    return fclose(to) == 0 && strcmp(printed, json) == 0;
}

/* Strings (RFC 8259, 7). */
static void json(void) {
    setenv("LC_ALL", "C", 1);
    check(prints_json("rack 4 \"a\\b\"", "\"rack 4 \\\"a\\\\b\\\"\""), "a quote and a backslash in JSON");
    check(prints_json("\n\x1b[0m\x7f", "\"\\u000a\\u001b[0m\\u007f\""), "characters that control in JSON");
    check(prints_json("\xe2\x80\xae\xf3\xa0\x80\x81", "\"\\u202e\\udb40\\udc01\""), "characters that turn and fill in JSON");
    check(prints_json("a\xff\xc3", "\"a\\ufffd\\ufffd\""), "octets that are no UTF-8 in JSON");
    check(prints_json("K\xc3\xb6ln \xc3\x9b", "\"K\xc3\xb6ln \\u00db\""), "a character that may control in another locale in JSON");
    check(prints_lines_of_json("[\"\\\"\xc2\x9b\xe2\x80\xae\x7f\xc3\xb6\xff\"]\n", "[\"\\\"\\u009b\\u202e\\u007f\xc3\xb6\\ufffd\"]\n"),
          "characters that control in lines of JSON");
}

/* How many milliseconds a wait for nothing takes. */
static int64_t waited(int64_t most) {
    struct timespec began, ended;
    clock_gettime(CLOCK_MONOTONIC, &began);
    int found = wait_for(NULL, 0, most);
    clock_gettime(CLOCK_MONOTONIC, &ended);
    return found != 0 ? -1 : (int64_t)(ended.tv_sec - began.tv_sec) * 1000 + (ended.tv_nsec - began.tv_nsec) / 1000000;
}

static void waits(void) {
    check(waited(30) >= 30, "a wait of 30 milliseconds");
    check(waited(1020) >= 1020, "a wait of more than a second");
}

const char program[] = "units";

static struct port any_port;

/* A request that came in with this sequenceId, at a port or on a Unix socket. It stays until the next one. */
static struct heard *request_heard(unsigned number, bool is_at_port) {
    static uint8_t octets[MESSAGE];
    static struct heard heard;
    octets[SEQUENCE_AT] = (uint8_t)(number >> 8);
    octets[SEQUENCE_AT + 1] = (uint8_t)number;
    heard = (struct heard){ .octets = octets, .size = MESSAGE, .port = is_at_port ? &any_port : NULL };
    return &heard;
}

static void wait_with(unsigned number, bool is_at_port, size_t messages) {
    add_asker(request_heard(number, is_at_port), 1, &(struct ptpm_taken){ .waiting = messages, .changed.clock = number }, NULL);
}

static bool is_next(unsigned number, size_t left) {
    const struct asker *asker = next_asker();
    return asker->changed.clock == number && asker->count == left;
}

static void who_waits(void) {
    bool is_in_order = true;
    for (unsigned turn = 0; turn < 3; turn++) {
        for (unsigned i = 0; i < MOST_WAITING; i++) wait_with(turn << 8 | i, i % 2 == 0, 1);
        check(port_messages() == MOST_WAITING / 2 && peers_asking() == MOST_WAITING / 2, "as many as there are places wait");
        check(is_asking(request_heard(turn << 8, true)) && is_asking(request_heard(turn << 8 | (MOST_WAITING - 1), true)), "a copy of one waits");
        for (unsigned i = 0; i < MOST_WAITING; i++) is_in_order &= is_next(turn << 8 | i, 0);
        wait_with(9, true, 1);      /* the next turn begins at another place */
        is_in_order &= is_next(9, 0);
    }
    check(is_in_order, "they are answered in the order in which they asked");
    check(port_messages() == 0 && peers_asking() == 0 && !is_asking(request_heard(0, true)), "and then nobody waits");
    wait_with(1, true, 3);
    wait_with(2, false, 2);
    check(port_messages() == 3 && peers_asking() == 1, "messages of a request at a port count, and requests of a program");
    check(is_next(1, 2) && is_next(1, 1) && is_asking(request_heard(1, true)) && is_next(1, 0), "a request that several ports answer");
    check(!is_asking(request_heard(1, true)) && is_next(2, 1) && peers_asking() == 1 && is_next(2, 0) && peers_asking() == 0, "and one of a program");
    struct heard *heard = request_heard(3, true);
    uint8_t station[STATION] = { 1, 2, 3 };
    heard->station = station;
    add_asker(heard, 1, &(struct ptpm_taken){ .waiting = 1 }, NULL);
    station[0] = 9;
    const struct asker *asker = next_asker();
    check(asker->heard.port == &any_port && asker->heard.station[0] == 1, "its sender is kept");
    heard->size = MESSAGE - 1;
    check(!is_asking(heard), "what is too short asks nothing");
}

int main(void) {
    who_waits();
    buckets();
    passing_on();
    many_messages();
    own_tables();
    same_tables();
    stops();
    frames();
    sdo_ids();
    images();
    seals();
    intervals();
    json();
    waits();
    free(printed);
    return print_checks("units");
}
