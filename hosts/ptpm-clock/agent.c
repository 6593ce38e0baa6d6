#include "agent.h"
#include "askers.h"
#include "counts.h"
#include "device.h"
#include "field_text.h"
#include "names.h"
#include "network_limits.h"
#include "observation.h"
#include "output.h"
#include "peers.h"
#include "ptp4l.h"
#include "saving.h"
#include "values.h"
#include "words.h"
#include <errno.h>
#include <stdbool.h>
#include <stddef.h>
#include <stdio.h>
#include <stdlib.h>
#include <sys/socket.h>
#include <sys/un.h>
#include <unistd.h>

enum {
    NEXT_SAVE = 10,             /* in how many milliseconds it is seen whether it is time for one */
    PEERS_A_SAVE = 10           /* requests of programs of this host: Linux keeps ten answers for one that does not read them */
};

static struct ptpm_clock clock_held;

void start_clock(void) {
    struct ptpm_port_settings settings[PORTS];
    size_t count = clock_ports();
    uint32_t answer = PTPM_STARTED;
    for (size_t i = 0; i < count; i++) ptpm_port_defaults(&settings[i]);
    if (!restore_clock(&clock_held)) {
        answer = ptpm_clock_start(&clock_held, &options->settings, settings, count, options->managers, options->manager_count);
    }
    if (!ptpm_is_refusal(answer)) answer = ptpm_clock_relay(&clock_held, options->relayed, options->relayed_count);
    if (!ptpm_is_refusal(answer)) return;
    say("it does not start: %s", answer_name(answer));
    exit(1);
}

static uint8_t domain(void) {
    uint8_t octets[PTPM_MOST_READ];
    size_t size;
    return ptpm_clock_read(&clock_held, PTPM_ID_DOMAIN, 0, octets, sizeof octets, &size) == PTPM_READ ? *octets : 0;
}

static struct ptpm_question under_way;     /* as it was found last */

static bool is_under_way(void) { return ptpm_clock_under_way(&clock_held, &under_way) == PTPM_ASKED_CHANGE; }

void save_clock(void) {
    start_ptp4l(domain());
    save_at_start(&clock_held);
    if (is_under_way()) settle_earlier(&under_way);
}

/* Another clock with this identity and domain may have been started before this one, and still run. From then on one that is started
   later finds this one. The clock has an abstract name, which one program of a network namespace has at a time, and which goes when
   that ends. Nobody is heard at it. Any user may take such a name, so it is no reason not to start. */
void report_twin(void) {
    struct sockaddr_un address = { .sun_family = AF_UNIX };
    const char *identity = identity_text(options->settings.identity);
    int size = snprintf(address.sun_path + 1, sizeof address.sun_path - 1, "ptpm-clock/%s/%u", identity, domain());
    int claim = socket(AF_UNIX, SOCK_STREAM | SOCK_CLOEXEC, 0);
    socklen_t whole = (socklen_t)(offsetof(struct sockaddr_un, sun_path) + 1 + (size_t)size);
    if (claim < 0 || bind(claim, (const struct sockaddr *)&address, whole) == 0) return;
    if (errno == EADDRINUSE) {
        say("another clock %s runs in domain %u of this machine: both answer, and a SET may change only one of them", identity, domain());
    }
    close(claim);
}

/* The portState that a GET of PORT_DATA_SET shows, by its name. That of a ptp4l is the ptp4l's. */
static const char *state_of(size_t port) {
    static struct field_lines lines;
    uint8_t octets[PTPM_MOST_READ];
    size_t size;
    if (has_ptp4l) return "of the ptp4l";
    if (ptpm_clock_read(&clock_held, PTPM_ID_PORT_DATA_SET, (uint16_t)port, octets, sizeof octets, &size) != PTPM_READ) return "?";
    start_lines(&lines, PTPM_ID_PORT_DATA_SET, octets, size);
    const char *name = value_of(&lines, "portState");
    return name != NULL ? name : "?";
}

/* Says the clock's identity and its interfaces, once it is heard. */
void say_started(void) {
    char text[LINE];
    size_t size = (size_t)snprintf(text, sizeof text, "%s in domain %u:", identity_text(options->settings.identity), domain());
    for (size_t i = 0; i < clock_ports(); i++) {
        const char *where = port_count > 0 ? ports[i].name : options->meeting.path;
        size += (size_t)snprintf(text + size, sizeof text - size, " port %zu at %.128s %s,", i + 1, where, state_of(i + 1));
    }
    if (options->privileges.is_by_default) {
        say("dropping privileges to user '%s' (use --user NAME, or --user root to keep root)", options->privileges.user_name);
    }
    say("%s %zu manager%s", text, options->manager_count, options->manager_count == 1 ? "" : "s");
}

/* Prints the names of members that changed. Each has the place of the answer that refuses its value, from `first` on. */
static void print_changed(const char *where, uint32_t first, uint32_t members) {
    char line[1024];
    int size = snprintf(line, sizeof line, "%s", where);
    for (uint32_t i = 0; i < 32; i++) {
        if ((members >> i & 1) == 0) continue;
        size += snprintf(line + size, sizeof line - (size_t)size, " %s", refused_member(first + i));
    }
    print_line("%s", line);
}

static void print_all_changed(const struct ptpm_changed *changed) {
    if (changed->clock != 0) print_changed("changed:", PTPM_BAD_IDENTITY, changed->clock);
    for (size_t i = 0; i < clock_ports(); i++) {
        char where[40];
        snprintf(where, sizeof where, "changed at port %zu:", i + 1);
        if (changed->ports[i] != 0) print_changed(where, PTPM_BAD_STATE, changed->ports[i]);
    }
}

/* Places for the messages of a turn. What is to go out goes first, if it leaves too few. */
static struct ptpm_sent *free_places(void) {
    if (places_to_send() == NULL) counts[DROPPED] += send_round();
    return places_to_send();
}

/* The port at which a datagram is handed in. A request of an id that only a port of the device has is handed in at that port, whose answer
   it then has. */
static inline uint16_t handed_in_at(const struct heard *heard) {
    return options->value_count + options->relayed_count > 0 ? port_asked(heard) : ingress_of(heard);
}

/* A message to a program that asked on the Unix socket goes back there. Any other goes out with the round. Who asked an earlier run asks
   again. How many messages were not taken. */
static unsigned long send_out(const struct ptpm_sent *message, const struct heard *heard) {
    if (heard->is_of_earlier_run) return 0;
    if (message->port != ingress_of(heard)) send_later(message, NULL);
    else if (heard->port == NULL) return !answer_peer(message, heard);
    else send_later(message, heard->is_unicast ? heard : NULL);
    return 0;
}

static void print_turn(const struct heard *heard, enum ptpm_handled answer, const struct ptpm_taken *taken, size_t sent) {
    char later[40] = "";
    if (taken->waiting > 0) snprintf(later, sizeof later, ", %zu once it is saved", (size_t)taken->waiting);
    print_line("port %u, %zu octets: %u %s, %zu of %zu sent%s", ingress_of(heard), heard->whole, answer, answer_name(answer), sent,
               (size_t)(taken->count + taken->waiting), later);
    if (taken->waiting == 0) print_all_changed(&taken->changed);
}

/* Sends what the clock made of a datagram, or has it wait for a save. How many messages were not taken. */
static unsigned long hand_on(const struct heard *heard, enum ptpm_handled answer, struct ptpm_sent *places,
                             const struct ptpm_taken *taken) {
    const struct ptpm_sent *kept[TURN];
    unsigned long lost = 0;
    bool is_of_port = handed_in_at(heard) != ingress_of(heard);
    for (size_t i = 0; is_of_port && i < taken->count; i++) places[i].port = ingress_of(heard);
    count_answer(answer);
    size_t count = has_ptp4l ? show_value(value_learned(), heard, places, (size_t)taken->count) : (size_t)taken->count;
    size_t left = keep_back(heard, answer, places, count, kept);
    for (size_t i = 0; i < left; i++) lost += send_out(kept[i], heard);
    use_places((size_t)taken->count);
    if (taken->waiting > 0) add_asker(heard, handed_in_at(heard), taken, has_ptp4l ? value_learned() : NULL);
    if (options->is_verbose) print_turn(heard, answer, taken, left - lost);
    return lost;
}

/* The library asks no device about what the owner asks. A GET that the device answers is judged like that of a stranger. */
static bool is_judged_as_owner(const struct heard *heard, const struct ptpm_say *say) {
    bool is_given = say != NULL && say->kind == PTPM_GIVES && !is_of_manager(heard);
    return heard->is_of_owner && !is_given;
}

static void tell_not_made(enum ptpm_handled answer) {
    if (answer != PTPM_ANSWERED_NEW) say_at_times("the device has answered for a change that is not made: %s", answer_name(answer));
}

/* What becomes of a datagram, with what the device says of it, or NULL. How many messages were not taken. */
static unsigned long take_turn(struct heard *heard, const struct ptpm_say *say) {
    static const struct ptpm_say nothing;
    struct ptpm_taken taken;
    lower_hops(heard);
    if (has_ptp4l && !learn_value(heard)) return 1;
    struct ptpm_sent *places = free_places();
    bool is_of_change = say != NULL;
    if (options->value_count > 0 && say == NULL) say = value_to_give(&clock_held, heard);
    if (has_ptp4l && say == NULL) say = learned_to_give(&clock_held, heard);
    enum ptpm_handled answer = ptpm_clock_take(&clock_held, handed_in_at(heard), heard->octets, heard->size, say != NULL ? say : &nothing,
                                               is_judged_as_owner(heard, say), places, TURN, &taken);
    if (answer == PTPM_HANDLE_UNSAVED || answer == PTPM_HANDLE_UNDER_WAY) {
        counts[OVER_RATE_OF_MANAGERS]++;
        return 0;
    }
    if (options->limits.is_passed_on_unread && taken.count == 0) {
        taken.count = ptpm_clock_transit(&clock_held, ingress_of(heard), heard->octets, heard->size, places, TURN);
    }
    if (is_of_change) tell_not_made(answer);
    else if (say != NULL) taken.count = answer_from_ports(&clock_held, heard, places, (size_t)taken.count);
    return hand_on(heard, answer, places, &taken);
}

/* What becomes of the change under way, which the clock has already, with what the device says of it. */
static unsigned long end_change(struct heard *heard, const struct ptpm_say *say) {
    struct ptpm_taken taken;
    struct ptpm_sent *places = free_places();
    if (has_ptp4l) learn_value(heard);
    enum ptpm_handled answer = ptpm_clock_decide(&clock_held, say, places, TURN, &taken);
    tell_not_made(answer);
    return hand_on(heard, answer, places, &taken);
}

static bool is_asked(const struct heard *held, struct ptpm_question *asked) {
    return ptpm_clock_ask(&clock_held, handed_in_at(held), held->octets, held->size, asked) == PTPM_ASKED_CHANGE;
}

/* A manager's request. The device is asked about a change, which waits if its program is to be asked. Nothing else of its manager
   is taken then, so that no later request overtakes it. While another change is under way the clock takes none. How many messages were
   not taken. */
static unsigned long take_request(struct heard *held) {
    struct ptpm_question asked;
    if (held->is_of_owner) return take_turn(held, NULL);
    if (has_device && is_passed_over(held)) return 0;
    if (!has_device || !is_asked(held, &asked)) return take_turn(held, NULL);
    const struct ptpm_say *objection = objection_of_limits(&asked);
    if (!has_program() || (objection != NULL && !is_under_way())) return take_turn(held, objection);
    wait_for_program(held);
    return 0;
}

/* A manager's request is not taken without a place to wait for a save. Nor is a copy of one that waits: one answer does for both. */
static unsigned long take_datagram(struct heard *heard) {
    if (!admit_datagram(heard)) return 0;
    if (!heard->is_of_owner && !is_of_manager(heard)) return take_turn(heard, NULL);
    if (!admit_manager(heard)) return 0;
    bool has_place = heard->port == NULL ? peers_asking() < PEERS_A_SAVE : port_messages() < MOST_OF_PORTS;
    if (has_place && !is_asking(heard)) return take_request(heard);
    counts[OVER_RATE_OF_MANAGERS]++;
    return 0;
}

static struct heard heard_now[ROUND];

static void take_all(size_t count) {
    unsigned long lost = 0;
    for (size_t i = 0; i < count; i++) lost += take_datagram(&heard_now[i]);
    counts[DROPPED] += lost + send_round();
}

size_t room_for_peers(void) {
    if (options->state == NULL || is_failing) return ROUND;
    size_t most = ptpm_clock_free(&clock_held) / ptpm_clock_most_sent(&clock_held);
    size_t left = peers_asking() < PEERS_A_SAVE ? PEERS_A_SAVE - peers_asking() : 0;
    return left < most ? left : most;
}

void take_round(const struct port *port, int socket, bool is_of_owner) {
    size_t count = hear_round(port, socket, port != NULL ? ROUND : room_for_peers(), heard_now);
    for (size_t i = 0; i < count; i++) heard_now[i].is_of_owner = is_of_owner;
    take_all(count);
}

void take_unicast_round(void) { take_all(hear_unicast(heard_now)); }

/* A change that the device has decided is taken once there are places for its messages; whether one was. */
static bool take_decided(void) {
    const struct ptpm_say *say;
    if (ptpm_clock_free(&clock_held) < ptpm_clock_most_sent(&clock_held)) return false;
    struct heard *change = take_change(&say);
    if (change != NULL && say != NULL && say->kind == PTPM_AGREES && options->value_count > 0) say = value_by_now(change, say);
    if (change != NULL) counts[DROPPED] += (is_under_way() ? end_change(change, say) : take_turn(change, say)) + send_round();
    return change != NULL;
}

/* The device is asked for this change once a save has it as under way. Without saves it is asked at once. */
static void ask_for(struct heard *change, struct ptpm_question *asked) {
    if (!may_ask(asked)) return;
    lower_hops(change);
    if (options->state == NULL) ask_program(asked);
    else ptpm_clock_undertake(&clock_held, handed_in_at(change), change->octets, change->size, asked);
}

/* Sees to the change that is next, if none is under way. By now the clock, or a limit, may refuse it. */
static void ask_about_next(void) {
    struct ptpm_question asked;
    struct heard *held = change_to_ask();
    if (held == NULL || is_under_way()) return;
    bool is_change = is_asked(held, &asked);
    const struct ptpm_say *objection = is_change ? objection_of_limits(&asked) : NULL;
    if (is_change && objection == NULL) ask_for(held, &asked);
    else decide_change(objection);
}

/* In how many milliseconds a save may begin; -1 if none is to. */
static long take_changes(void) {
    do ask_about_next();
    while (take_decided());
    if (is_saving || !ptpm_clock_unsaved(&clock_held)) return -1;
    long left = until_save();
    if (left > 0) return left;
    if (peers_asking() > 0 || is_next_of_peer() || may_save()) begin_save(&clock_held);
    return is_saving ? -1 : NEXT_SAVE;
}

long take_waiting(void) {
    long left = take_changes(), again = answer_again();
    return again < 0 || (left >= 0 && left < again) ? left : again;
}

/* Sends what the clock gives out. Nothing is passed on of what the owner asks. */
static void send_released(void) {
    unsigned long lost = 0;
    for (struct ptpm_sent *place; ptpm_clock_next(&clock_held, place = free_places()) > 0;) {
        const struct asker *asker = next_asker();
        if (place->port == asker->port) place->port = ingress_of(&asker->heard);
        bool is_answer = place->port == ingress_of(&asker->heard);
        if (has_ptp4l) is_answer = is_answer && show_value(&asker->value, &asker->heard, place, 1) > 0;
        if (is_answer) lost += send_out(place, &asker->heard);
        use_places(1);
        if (options->is_verbose && asker->count == 0) print_all_changed(&asker->changed);
    }
    counts[DROPPED] += lost + send_round();
}

/* Ends a save, and sends what waited for it; whether the device is to be asked now. */
static bool give_out(void) {
    enum ptpm_saved answer = end_save(&clock_held);
    if (!ptpm_is_refusal(answer)) send_released();
    return answer == PTPM_ACT_NOW;
}

void take_saved(void) {
    if (give_out() && is_under_way()) ask_program(&under_way);
}

/* The clock observes what a text says, all of it or nothing. */
void observe(char *text) {
    struct observation observation;
    uint64_t left = 0;
    if (!read_observation(&observation, options->source, text)) {
        counts[NOT_OBSERVED]++;
        return;
    }
    enum ptpm_observed answer = ptpm_clock_observe(&clock_held, &observation.clock, observation.ports, observation.port_count,
                                                   &left);
    counts[answer == PTPM_OBSERVED ? OBSERVED : NOT_OBSERVED]++;
    if (answer != PTPM_OBSERVED) say_at_times("%s: nothing is observed: %s", options->source, answer_name(answer));
    else if (options->is_verbose) print_line("observed");
    for (unsigned i = 0; i < PORTS; i++) {
        if (left >> i & 1) say_at_times("%s: port %u stays DISABLED", options->source, i + 1);
    }
}

void stop_clock(void) {
    if (is_saving) give_out();
    if (ptpm_clock_unsaved(&clock_held) && begin_save(&clock_held)) give_out();
    ptpm_clock_stop(&clock_held);
}
