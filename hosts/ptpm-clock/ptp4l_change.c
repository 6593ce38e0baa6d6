#include "ptp4l.h"
#include "device.h"
#include "message_places.h"
#include "monotonic.h"
#include "output.h"
#include <poll.h>
#include <signal.h>
#include <stdlib.h>
#include <string.h>

enum { LOOK_AGAIN = 500 };      /* milliseconds after which it is seen whether the ptp4l is still there */

/* A ptp4l lacks a SET of CLOCK_ACCURACY and of UTC_PROPERTIES. Their members are set by its GRANDMASTER_SETTINGS_NP, whose other members are
   set to what they are. How many octets that dataField has: clockQuality, the UTC offset, flags and timeSource. */
enum { SETTINGS_OCTETS = 8 };

/* The places of what is set, and the flags of UTC_PROPERTIES. The settings have these flags among those of TIME_PROPERTIES_DATA_SET. */
enum { PRIORITY = 1, ACCURACY_AT = 1, UTC_OFFSET_AT = 4, UTC_OFFSET = 2, FLAGS_AT = 6, ASKED_FLAGS_AT = 2, UTC_FLAGS = 7 };

static struct { bool is_there; uint16_t number; unsigned life; int64_t look; struct ptpm_question asked; } under_way;

/* The id by which a ptp4l is asked for what a SET names; 0 if it takes no such SET. */
static uint16_t id_at_ptp4l(uint16_t id) {
    switch (id) {
    case PTPM_ID_PRIORITY1: case PTPM_ID_PRIORITY2: return id;
    case PTPM_ID_CLOCK_ACCURACY: case PTPM_ID_UTC_PROPERTIES: return GRANDMASTER_SETTINGS_NP;
    default: return 0;
    }
}

static bool is_of_ptp4l(const struct ptpm_question *asked) { return asked->action == PTPM_SET && id_at_ptp4l(asked->id) != 0; }

/* Reads a dataField of the ptp4l's life that was asked last; whether it has at least this size, and the first octets of it. */
static bool read_field(uint16_t id, uint8_t *field, size_t size) {
    struct ptp4l_answer answer;
    uint16_t number;
    if (!ask_ptp4l(options->settings.identity, PTPM_GET, id, EVERY_PORT, NULL, 0, &number)) return false;
    if (!hear_ptp4l(number, milliseconds() + PTP4L_PATIENCE, &answer) || answer.error != 0 || answer.size < size) return false;
    memcpy(field, answer.field, size);
    return true;
}

/* What is answered without the ptp4l: to a SET of NULL_PTP_MANAGEMENT, which changes nothing, and to what no ptp4l takes. */
static const struct ptpm_say *say_alone(const struct ptpm_question *asked) {
    static const struct ptpm_say agreement = { .kind = PTPM_AGREES };
    static const struct ptpm_say refusal = { .kind = PTPM_OBJECTS, .error = PTPM_ERROR_NOT_SUPPORTED };
    if (is_of_ptp4l(asked)) return NULL;
    return asked->id == PTPM_ID_NULL_PTP_MANAGEMENT ? &agreement : &refusal;
}

/* The UTC properties that a ptp4l shows are those of its grandmaster. It takes them if this is itself. */
static enum judged judge_utc(const struct ptpm_say **say) {
    static const struct ptpm_say refusal = { .kind = PTPM_OBJECTS, .error = PTPM_ERROR_NOT_SETABLE };
    enum { GRANDMASTER_AT = 24, PARENT_OCTETS = 32 };
    uint8_t parent[PARENT_OCTETS];
    if (!read_field(PTPM_ID_PARENT_DATA_SET, parent, sizeof parent)) return IS_LOST;
    if (memcmp(parent + GRANDMASTER_AT, options->settings.identity, sizeof options->settings.identity) == 0) return MAY_BE_ASKED;
    *say = &refusal;
    return IS_SAID;
}

enum judged judge_change(const struct ptpm_question *asked, const struct ptpm_say **say) {
    if (is_probing()) return IS_TOO_EARLY;
    if (!is_ptp4l_mute()) return IS_LOST;
    *say = say_alone(asked);
    if (*say != NULL) return IS_SAID;
    return asked->id == PTPM_ID_UTC_PROPERTIES ? judge_utc(say) : MAY_BE_ASKED;
}

/* Puts the members that a SET names into a dataField of that id. */
static void put_members(uint8_t *field, const struct ptpm_question *asked) {
    switch (asked->id) {
    case PTPM_ID_CLOCK_ACCURACY: field[ACCURACY_AT] = asked->octets[0]; break;
    case PTPM_ID_UTC_PROPERTIES:
        memcpy(field + UTC_OFFSET_AT, asked->octets, UTC_OFFSET);
        field[FLAGS_AT] = (uint8_t)((field[FLAGS_AT] & ~UTC_FLAGS) | (asked->octets[ASKED_FLAGS_AT] & UTC_FLAGS));
        break;
    default: field[0] = asked->octets[0];
    }
}

/* Asks once. What is set beside what is asked for was read right before. */
static bool ask_once(const struct ptpm_question *asked) {
    uint8_t settings[SETTINGS_OCTETS];
    uint16_t id = id_at_ptp4l(asked->id), *number = &under_way.number;
    if (id == asked->id) return ask_ptp4l(options->settings.identity, PTPM_SET, id, asked->port, asked->octets, asked->size, number);
    if (!read_field(id, settings, sizeof settings)) return false;
    put_members(settings, asked);
    return ask_ptp4l(options->settings.identity, PTPM_SET, id, asked->port, settings, sizeof settings, number);
}

bool ask_for_change(const struct ptpm_question *asked) {
    if (!ask_once(asked)) return false;
    under_way.is_there = true;
    under_way.life = ptp4l_life();
    under_way.look = milliseconds() + LOOK_AGAIN;
    under_way.asked = *asked;
    return true;
}

static void decide(uint16_t error) {
    const struct ptpm_say say = { .kind = error == 0 ? PTPM_AGREES : PTPM_OBJECTS, .error = error };
    under_way.is_there = false;
    take_word(&say);
}

/* Whether an answer has the value that is asked for. */
static bool has_value(const struct ptp4l_answer *answer, const struct ptpm_question *asked) {
    uint8_t copy[SETTINGS_OCTETS];
    uint16_t id = id_at_ptp4l(asked->id);
    size_t least = id == GRANDMASTER_SETTINGS_NP ? SETTINGS_OCTETS : PRIORITY;
    if (answer->error != 0 || answer->id != id || answer->size < least) return false;
    memcpy(copy, answer->field, least);
    put_members(copy, asked);
    return memcmp(copy, answer->field, least) == 0;
}

void take_answer_to_change(const struct ptp4l_answer *answer) {
    if (!under_way.is_there || answer->number != under_way.number) return;
    switch (answer->error) {
    case 0: decide(has_value(answer, &under_way.asked) ? 0 : PTPM_ERROR_GENERAL_ERROR); break;
    case PTPM_ERROR_WRONG_VALUE: case PTPM_ERROR_NOT_SETABLE: case PTPM_ERROR_NOT_SUPPORTED: decide(answer->error); break;
    default: decide(PTPM_ERROR_GENERAL_ERROR);
    }
}

/* It may have answered before its end. */
void watch_change(int64_t now) {
    if (!under_way.is_there || now < under_way.look) return;
    under_way.look = now + LOOK_AGAIN;
    if (ptp4l_life() == under_way.life && !is_ptp4l_gone()) return;
    take_answers();
    if (!under_way.is_there) return;
    say_at_times("%s: the ptp4l has ended before it answered for a change, and the answer is GENERAL_ERROR", options->ptp4l);
    decide(PTPM_ERROR_GENERAL_ERROR);
}

_Noreturn static void refuse_to_look(void) {
    say("%s: an earlier run left a change under way, and whether it was made can't be read there", options->ptp4l);
    exit(2);
}

/* Asks the ptp4l for the value, once it answers; whether it can be asked. If nobody, or another clock, is at the path, the life in which
   the change was noted is over. */
static bool ask_for_value(const struct ptpm_question *asked, uint16_t *number) {
    for (;;) {
        switch (find_ptp4l()) {
        case IS_NOT_THERE: case IS_ANOTHER_CLOCK: return false;
        case IS_CLOSED: case HAS_OTHER_PORTS: refuse_to_look();
        case IS_OURS:
            if (get_from_ptp4l(id_at_ptp4l(asked->id), asked->port, number)) return true;
            break;
        case IS_SILENT: break;
        }
        poll(NULL, 0, PTP4L_PATIENCE);
    }
}

/* Whether the ptp4l has the value. It takes this GET after each SET that was sent before, also by an earlier run. */
static bool look(const struct ptpm_question *asked) {
    struct ptp4l_answer answer;
    uint16_t number;
    if (!ask_for_value(asked, &number)) return false;
    while (!hear_ptp4l(number, milliseconds() + LOOK_AGAIN, &answer)) {
        if (is_ptp4l_gone()) return false;
    }
    return has_value(&answer, asked);
}

/* Signals end the program while it waits. */
bool has_ptp4l_changed(const struct ptpm_question *asked) {
    sigset_t none, before;
    sigemptyset(&none);
    sigaddset(&none, SIGUSR1);
    sigprocmask(SIG_SETMASK, &none, &before);
    bool is_there = is_of_ptp4l(asked) && look(asked);
    sigprocmask(SIG_SETMASK, &before, NULL);
    return is_there;
}
