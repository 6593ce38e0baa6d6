/* Commands of a session. After each of them the session is what its image restores. */
#include "commands.h"
#include <string.h>

static struct ptpm_session session;
static struct ptpm_session_settings settings;

void stop_session(void) { ptpm_session_stop(&session); }

static uint32_t start(void *given) { return ptpm_session_start_sized(&session, given); }

static void run_session(char *words) {
    read_session(&words, &settings);
    say_outcome(refusing(start, &settings, NULL), "STARTED");
}

/* The image, and whether there is a report. */
static size_t state(uint8_t *octets) {
    static uint8_t field[PTPM_MOST_OCTETS];
    size_t size, more;
    uint16_t error;
    if (ptpm_session_image(&session, octets, PTPM_SESSION_IMAGE_OCTETS, &size) != PTPM_SAVED) return 0;
    octets[size++] = (uint8_t)ptpm_session_report(&session, field, sizeof field, &more, &error);
    return size;
}

struct request { bool is_at; uint8_t action; uint16_t id, port; struct octets field; };

static uint32_t begin(void *given) {
    const struct request *request = given;
    return (request->is_at ? ptpm_session_begin_at : ptpm_session_begin)(&session, request->action, request->id, request->port,
                                                                       request->field.at, request->field.size);
}

/* `GET 2005 0 OCTETS`: the action by its name or number, the id, the port, and the dataField. */
static void begin_request(char *words, bool is_at) {
    static struct request request;
    request.is_at = is_at;
    request.action = next_action(&words);
    request.id = next_hex(&words);
    request.port = (uint16_t)next_number(&words, 0);
    read_octets(&words, &request.field);
    say_outcome(refusing(begin, &request, state), "BEGUN");
}

static void run_begin(char *words) { begin_request(words, false); }
static void run_begin_at(char *words) { begin_request(words, true); }

static void run_send(char *words) {
    size_t size = 1, octets = next_room(&words, PTPM_MOST_OCTETS);
    clear_room();
    uint32_t answer = ptpm_session_send(&session, room, octets, &size);
    say_written(answer, "SENT", size, say_message);
}

static void run_resume(char *words) {
    say_outcome(ptpm_session_resume(&session, (uint8_t)next_number(&words, 0)), "RESUMED");
}

static void run_give_up(char *words) {
    (void)words;
    say_outcome(ptpm_session_give_up(&session), "GIVEN_UP");
}

static void run_retune(char *words) {
    say_outcome(ptpm_session_retune(&session, (uint8_t)next_number(&words, 0)), "RETUNED");
}

static uint32_t receive(void *given) {
    const struct octets *datagram = given;
    return ptpm_session_receive(&session, datagram->at, datagram->size);
}

static void run_receive(char *words) {
    static struct octets datagram;
    read_octets(&words, &datagram);
    say_outcome(refusing(receive, &datagram, state), "ANSWERED");
}

static void run_issued(char *words) {
    (void)words;
    say("%llu\n", (unsigned long long)ptpm_session_issued(&session));
}

static void run_report(char *words) {
    size_t size = 1, octets = next_room(&words, PTPM_MOST_OCTETS);
    uint16_t error = 0xeeee;
    clear_room();
    uint32_t answer = ptpm_session_report(&session, room, octets, &size, &error);
    say_written(answer, "VALUE", size, say_octets);
    if (answer == PTPM_REFUSED || error != 0) say("error: %u\n", error);
}

static void run_image(char *words) {
    size_t size = 1, octets = next_room(&words, PTPM_SESSION_IMAGE_OCTETS);
    clear_room();
    uint32_t answer = ptpm_session_image(&session, room, octets, &size);
    put_name("IMAGE", room, size);
    say_written(answer, "SAVED", size, say_octets);
}

struct restore { struct ptpm_session_settings settings; struct octets image; };

static uint32_t restore(void *given) {
    const struct restore *from = given;
    return ptpm_session_restore(&session, &from->settings, from->image.at, from->image.size);
}

/* `restore-session clock=M .. from OCTETS`. */
static void run_restore(char *words) {
    static struct restore from;
    read_session(&words, &from.settings);
    if (!takes_word(&words, "from")) say_misspelt(words);
    read_octets(&words, &from.image);
    say_outcome(refusing(restore, &from, state), "RESTORED");
}

const struct command session_commands[] = {
    { "session", run_session }, { "begin", run_begin }, { "begin-at", run_begin_at }, { "send", run_send }, { "resume", run_resume },
    { "give-up", run_give_up }, { "retune", run_retune }, { "receive", run_receive }, { "issued", run_issued },
    { "report", run_report }, { "session-image", run_image }, { "restore-session", run_restore },
    { NULL, NULL },
};
