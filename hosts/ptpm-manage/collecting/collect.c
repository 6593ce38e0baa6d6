#include "collect.h"
#include "exchange.h"
#include "heard.h"
#include "message_places.h"
#include "monotonic.h"
#include "names.h"
#include "notices.h"
#include "random.h"
#include "stopping.h"
#include "transport.h"
#include "unanswered.h"
#include "verbs.h"
#include "words.h"
#include <stdbool.h>
#include <stdlib.h>
#include <string.h>

/* One request to every clock each 50 ms: all at once lose answers in the buffers of the clocks, which hear each other's answers too. If each
   domain gets one, there is one each 4 ms. Of all that is sent at most BURST messages go out in these 50 ms. A burst of requests to only one
   clock has fewer answers than such a buffer holds. One host may answer as thousands, or send as thousands. If more clocks than MOST_SILENT
   give no answer when they are asked by themselves, they are such. A clock that was only heard is asked TRIES_OF_HEARD times. */
enum { STEP = 50, DOMAIN_STEP = 4, BURST = 128, MOST_SILENT = 128, DOMAINS_AT_ONCE = 32, TRIES_OF_HEARD = 3, MOST_ABSENT = 8192 };

/* A clock that is heard may take this many milliseconds to answer. */
enum { SLOW = 2000 };

/* Every clock is asked again whether it is there. That ends if QUIET_ROUNDS brought nothing new, and a clock is missed less than once in
   MOST_MISSED collections. Round N of one census does not end before N times 300 ms. So a clock is found that was silent for half a second.
   For a plan it is 500 ms. There a later round ends as soon as no answer is lacking. So does the first one if it has all clocks that the
   file counts. If answers are lost a round has several censuses, and what is lacking is asked again between them. */
enum { QUIET_ROUNDS = 2, MOST_MISSED = 1000, ROUND = 300, ROUND_OF_PLAN = 500, MOST_ROUNDS = 10, CENSUSES_OF_LOSSY = 3 };

/* A socket without room is tried again this often, this many milliseconds apart. A silence that never comes is waited for this
   many time-outs at most. */
enum { TRIES = 25, TRY = 2, MOST_TIMEOUTS = 10 };

/* A clock of this project passes a request on to this many boundary hops if nobody gave it another --hops. */
enum { HOPS_OF_CLOCKS = 8 };

/* In the answers: how many octets two data sets have, and the places of their members (IEEE 1588-2019, 15.5.3). */
enum { DEFAULT_SIZE = 20, PORT_SIZE = 26, PORT_COUNT_AT = FIELD_AT + 2, FIELD_PORT_AT = FIELD_AT + 8 };

const struct collected of_site = { .count = 6, .ids = {
    PTPM_ID_DEFAULT_DATA_SET, PTPM_ID_CURRENT_DATA_SET, PTPM_ID_PARENT_DATA_SET, PTPM_ID_TIME_PROPERTIES_DATA_SET,
    PTPM_ID_PORT_DATA_SET, PTPM_ID_USER_DESCRIPTION,
} };

/* What is asked in each domain to find those in which a clock answers. */
static const struct collected first_alone = { .count = 1, .ids = { PTPM_ID_DEFAULT_DATA_SET } };

/* The ids that each port of a clock answers for itself. */
static const uint16_t of_ports[] = {
    PTPM_ID_PORT_DATA_SET, PTPM_ID_ANNOUNCE_RECEIPT_TIMEOUT, PTPM_ID_LOG_ANNOUNCE_INTERVAL, PTPM_ID_LOG_SYNC_INTERVAL,
    PTPM_ID_DELAY_MECHANISM, PTPM_ID_LOG_MIN_PDELAY_REQ_INTERVAL,
};

/* A request to every clock of a domain. A census only shows who is there: its answer is not a line. It has a number of its own, so that a clock
   passes it on which does not pass the same message on again. */
struct request {
    struct ptpm_survey survey;
    uint16_t number;
    struct domain domain;
    int64_t asked_at;                   /* when it went to every clock */
    bool is_census;
    unsigned id;                        /* its place among what is collected, or among the censuses of a round */
    size_t size;
    uint8_t message[PTPM_MOST_OCTETS];
};

static const struct collected *collected;           /* what is asked for now */
static struct request requests[DOMAINS_AT_ONCE * (MOST_COLLECTED + CENSUSES_OF_LOSSY)];
static size_t request_count;
static FILE *output;
static long sent;                       /* messages that went out */
static int64_t latest;                  /* when an answer came that is not a copy */
static size_t news;                     /* how many of these came */
static int64_t slowest;                 /* how long the slowest answer took, in milliseconds */
static size_t let_go;                   /* clocks that are asked no more */
static struct sureness sureness;
static bool has_no_transport;
static uint8_t farthest, farthest_switch;   /* past how many boundary clocks any clock answered, and one with two ports or more */

/* What is asked for a plan is read by nobody who wants to know what else was heard. */
static bool is_site(void) { return collected == &of_site; }

static bool is_of_port(unsigned id) {
    for (size_t i = 0; i < sizeof of_ports / sizeof *of_ports; i++) {
        if (of_ports[i] == collected->ids[id]) return true;
    }
    return false;
}

/* Starts a request; whether the library would ask it. If not, that is said. */
static bool start_request(const struct task *task, struct domain domain, unsigned id, bool is_census) {
    struct request *request = &requests[request_count];
    uint16_t what = is_census ? PTPM_ID_DEFAULT_DATA_SET : collected->ids[id];
    request->number = next_number();
    uint32_t refusal = start_survey(&request->survey, task, request->number, what, domain.number, request->message, &request->size);
    if (refusal != PTPM_SENT) {
        complain("nothing was asked: %s", answer_name(refusal));
        return false;
    }
    write_sdo(request->message, domain.sdo);
    ask_as(request->message + SOURCE_AT);
    request->domain = domain;
    request->asked_at = milliseconds();
    request->is_census = is_census;
    request->id = id;
    request_count++;
    return true;
}

/* Stops those from a place on. */
static void stop_requests(size_t first) {
    while (request_count > first) ptpm_survey_stop(&requests[--request_count].survey);
}

/* The sum of what copies of an answer have in common: who sent it, the interface, the action and the TLV. */
static uint64_t sum_of_answer(const uint8_t *message, size_t size) {
    const char *sender = sender_text(), *interface = came_in_at() == NULL ? "" : came_in_at();
    uint64_t sum = sum_of(0xcbf29ce484222325, sender, strlen(sender) + 1);
    return sum_of(sum_of(sum, interface, strlen(interface) + 1), message + ACTION_AT, size - ACTION_AT);
}

/* An answer starts with as many boundary hops as its request used (15.3.3). */
static void note_distance(uint8_t hops, uint16_t port_count) {
    if (hops > farthest) farthest = hops;
    if (port_count > 1 && hops > farthest_switch) farthest_switch = hops;
}

static void note_news(void) {
    latest = milliseconds();
    news++;
}

/* A clock that a census finds lacks all that is collected. */
static void take_present(const struct request *request, const uint8_t *message) {
    note_way();
    if (see_present(request->domain, message + SOURCE_AT, request->id)) note_news();
}

/* Records an answer that the library accepted, and prints it unless it is a copy. Octets may follow the message. */
static void take_answer(const struct request *request, const uint8_t *message) {
    size_t size = number_at(message + LENGTH_AT);
    struct seen_answer answer = {
        .clock = message + SOURCE_AT, .domain = request->domain, .id = request->id, .is_of_port = is_of_port(request->id),
        .port = number_at(message + SOURCE_PORT_AT),
        .is_refusal = number_at(message + TLV_AT) == ERROR_TLV, .sum = sum_of_answer(message, size),
    };
    bool has_field = !answer.is_refusal && size >= FIELD_AT;
    uint16_t id = collected->ids[request->id];
    if (has_field && id == PTPM_ID_DEFAULT_DATA_SET && size == FIELD_AT + DEFAULT_SIZE) {
        answer.port_count = number_at(message + PORT_COUNT_AT);
    }
    if (has_field && id == PTPM_ID_PORT_DATA_SET && size == FIELD_AT + PORT_SIZE) {
        bool is_own = memcmp(message + FIELD_AT, answer.clock, 8) == 0;
        answer.port = is_own ? number_at(message + FIELD_PORT_AT) : 0;       /* 0 is not a port, and none is answered */
    }
    note_way();
    note_distance(message[STARTING_HOPS_AT], answer.port_count);
    enum seen seen = see_answer(&answer);
    if (seen == SEEN_BEFORE || seen == NO_PLACE) return;
    note_news();
    if (output == NULL) return;
    clear_progress();
    write_line(output, &(struct message_line){ .at = nanoseconds(), .from = sender_text(), .on = came_in_at(), .message = message, .size = size });
}

/* The request that a datagram would answer by its number and its sdoId. The library judges whether it does. */
static struct request *asked_under(const uint8_t *datagram, size_t size) {
    if (size < LEAST_MESSAGE || (datagram[TYPE_AT] & LOWER_HALF) != MANAGEMENT_TYPE) return NULL;
    for (size_t i = 0; i < request_count; i++) {
        bool is_number = requests[i].number == number_at(datagram + SEQUENCE_AT);
        if (is_number && requests[i].domain.sdo == domain_of(datagram).sdo) return &requests[i];
    }
    return NULL;
}

/* What the library says of a datagram. It knows only sdoId 0, so it judges a copy that has this one. */
static uint32_t judge(struct request *request, const uint8_t *datagram, size_t size) {
    static uint8_t copy[MOST_DATAGRAM];
    if (request->domain.sdo == 0 || size > sizeof copy) return ptpm_survey_receive(&request->survey, datagram, size);
    memcpy(copy, datagram, size);
    write_sdo(copy, 0);
    return ptpm_survey_receive(&request->survey, copy, size);
}

static void hear(struct request *request, const uint8_t *datagram, size_t size) {
    uint32_t became = judge(request, datagram, size);
    switch (became) {
    case PTPM_TAKEN:
    case PTPM_AGAIN:                                    /* which may be of another port, or of another clock with that identity */
    case PTPM_FULL:
    case PTPM_NO_MEMORY:
        if (milliseconds() - request->asked_at > slowest) slowest = milliseconds() - request->asked_at;
        (request->is_census ? take_present : take_answer)(request, datagram);
        break;
    default:
        if (tell_unreadable(became, request->message + SOURCE_AT, datagram, size)) note_untaken(UNREADABLE, datagram, size);
    }
}

static void hear_until(int64_t end) {
    size_t size;
    for (const uint8_t *datagram; (datagram = receive_message(&size, end)) != NULL;) {
        struct request *request = asked_under(datagram, size);
        if (request != NULL) {
            hear(request, datagram, size);
            continue;
        }
        keep_heard(datagram, size);
        note_untaken(size < LEAST_MESSAGE ? UNREADABLE : LATE, datagram, size);
    }
}

/* When the latest message went out. */
static int64_t latest_sent;

/* Waits until one more message may go out. */
static void keep_pace(void) {
    static size_t in_step;
    if (milliseconds() >= latest_sent + STEP) in_step = 0;
    if (in_step == BURST) {
        hear_until(latest_sent + STEP);
        in_step = 0;
    }
    in_step++;
    latest_sent = milliseconds();
}

/* Sends a message, which waits for its time and for room; whether it went out. That is a line, if it is to be written. */
static bool send_when_room(const uint8_t *message, size_t size, bool is_written) {
    keep_pace();
    for (int tries = 0; tries < TRIES && !stopped && !has_no_transport; tries++) {
        enum sending sending = send_message(message, size);
        sent += sending == OUT;
        has_no_transport = sending == NO_TRANSPORT && sent == 0;
        if (sending == OUT && is_written && is_site()) write_sent(output, message, size);
        if (sending == OUT) return true;
        if (!has_no_transport) hear_until(milliseconds() + TRY);
    }
    return false;
}

/* Asks every clock for an id, or in a census: the requests from a place on that are of it. When the next of them may go out. */
static int64_t ask_every(size_t first, unsigned id) {
    int64_t end = milliseconds() + STEP;
    for (size_t i = first; i < request_count; i++) {
        if (requests[i].id != id) continue;
        send_when_room(requests[i].message, requests[i].size, !requests[i].is_census);
        requests[i].asked_at = milliseconds();
    }
    return end;
}

static const struct request *request_of(struct domain domain, unsigned id) {
    for (size_t i = 0; i < request_count; i++) {
        if (is_same_domain(requests[i].domain, domain) && requests[i].id == id && !requests[i].is_census) return &requests[i];
    }
    return NULL;
}

/* The request for what a clock lacks, if it lacks an answer to it; NULL otherwise. */
static const struct request *lacking(const struct seen_clock *clock, unsigned id) {
    return is_lacking(clock, id, is_of_port(id)) ? request_of(clock->domain, id) : NULL;
}

static size_t count_lacking(void) {
    size_t count = 0;
    for (size_t place = 0; place < seen_count(); place++) {
        for (unsigned id = 0; id < collected->count; id++) count += lacking(seen_clock(place), id) != NULL;
    }
    return count;
}

/* Asks one clock, and all its ports: the message of the request with its identity as the target's. Whether that went out. */
static bool ask_alone(const struct request *request, const uint8_t clock[8], bool is_written) {
    uint8_t message[PTPM_MOST_OCTETS];
    memcpy(message, request->message, request->size);
    memcpy(message + TARGET_AT, clock, 8);
    return send_when_room(message, request->size, is_written);
}

/* Asks each clock of these domains for what it lacks, until there is no room for more. */
static void ask_lacking(void) {
    for (size_t place = 0; place < seen_count() && !stopped; place++) {
        bool is_first = !seen_clock(place)->was_asked;
        for (unsigned id = 0; id < collected->count; id++) {
            const struct request *request = lacking(seen_clock(place), id);
            if (request == NULL) continue;
            if (!ask_alone(request, seen_clock(place)->identity, is_first)) return;
            note_asked(place);
        }
    }
}

/* Whether this host has it. */
static bool is_own(const uint8_t clock[8]) {
    uint8_t own[8];
    for (size_t i = 0; own_identity(i, own); i++) {
        if (memcmp(own, clock, sizeof own) == 0) return true;
    }
    return false;
}

/* A clock that was heard or is expected, and has not answered. */
struct absent_clock { struct domain domain; uint8_t identity[8]; };

static struct absent_clock absent[MOST_ABSENT];
static size_t absent_count;
static bool is_absent_let_go;

/* Whether it is asked in its domain, and has not answered. */
static bool is_absent(struct domain domain, const uint8_t clock[8]) {
    return !is_seen(domain, clock) && !is_own(clock) && request_of(domain, 0) != NULL;
}

static void add_absent(struct domain domain, const uint8_t clock[8]) {
    if (absent_count == MOST_ABSENT || !is_absent(domain, clock)) return;
    absent[absent_count].domain = domain;
    memcpy(absent[absent_count++].identity, clock, 8);
}

static int compare_absent(const void *one, const void *other) {
    const struct absent_clock *first = one, *second = other;
    int order = memcmp(first->identity, second->identity, sizeof first->identity);
    if (order == 0) order = first->domain.number - second->domain.number;
    return order == 0 ? first->domain.sdo - second->domain.sdo : order;
}

/* Finds those that are asked in this later round, each once; how many they are. */
static size_t find_absent(const struct task *task, int round) {
    struct domain domain;
    absent_count = 0;
    if (is_absent_let_go || round > task->settings.attempts) return 0;
    const uint8_t *clock;
    for (size_t place = 0; round <= TRIES_OF_HEARD && (clock = heard_clock(place, &domain)) != NULL; place++) add_absent(domain, clock);
    for (size_t place = 0; (clock = expected_clock(place, &domain)) != NULL; place++) add_absent(domain, clock);
    qsort(absent, absent_count, sizeof *absent, compare_absent);
    size_t count = 0;
    for (size_t i = 0; i < absent_count; i++) {
        if (count == 0 || compare_absent(&absent[i], &absent[count - 1]) != 0) absent[count++] = absent[i];
    }
    return absent_count = count;
}

/* Asks them for the first id. A clock that answers lacks the others. */
static void ask_absent(bool is_written) {
    for (size_t i = 0; i < absent_count && !stopped; i++) {
        if (!is_seen(absent[i].domain, absent[i].identity)) ask_alone(request_of(absent[i].domain, 0), absent[i].identity, is_written);
    }
}

/* Asks none of them any more, if too many gave no answer. */
static void let_go_of_absent(void) {
    size_t silent = 0;
    for (size_t i = 0; i < absent_count; i++) silent += !is_seen(absent[i].domain, absent[i].identity);
    if (silent <= MOST_SILENT) return;
    is_absent_let_go = true;
    let_go += silent;
}

static bool is_one_slow(void) {
    struct domain domain;
    const uint8_t *clock;
    for (size_t place = 0; !is_absent_let_go && (clock = heard_clock(place, &domain)) != NULL; place++) {
        if (is_absent(domain, clock)) return true;
    }
    return false;
}

/* Hears the answer of a clock that is heard, and has not answered yet. Once it answers, its other answers follow. */
static void wait_for_slow(const struct task *task) {
    int64_t now, end = latest_sent + (task->timeout > SLOW ? task->timeout : SLOW);
    while (!stopped && (now = milliseconds()) < end && (is_one_slow() || (count_lacking() > 0 && now < latest + task->timeout))) {
        hear_until(now + STEP < end ? now + STEP : end);
    }
}

/* Whether this is for a plan, and no answer is lacking that is known of. */
static bool is_whole(void) {
    if (is_site() || collected == &first_alone) return false;
    return seen_count() > 0 && count_lacking() == 0 && are_all_present() && !is_one_slow();
}

/* Hears answers until none came for one time-out. If a plan lacks none, twice the time of the slowest answer so far is enough. */
static void hear_until_quiet(const struct task *task) {
    int64_t now = milliseconds(), end = now + MOST_TIMEOUTS * task->timeout;
    for (latest = now; now < end && now < latest + task->timeout && !stopped; now = milliseconds()) {
        int64_t enough = latest_sent + (2 * slowest > STEP ? 2 * slowest : STEP), most = latest + task->timeout < end ? latest + task->timeout : end;
        if (now >= enough && is_whole()) return;
        if (now >= enough) enough = now + STEP;
        hear_until(enough < most ? enough : most);
    }
}

/* The rounds in which some domains are asked. */
struct rounds {
    const struct domain *domains;
    size_t count;
    int round, quiet;                   /* the later round that it is; how many of the latest brought nothing new */
    size_t with_census;                 /* how many later rounds had one */
    unsigned asked;                     /* how often every clock was asked something */
    int64_t begun;                      /* when the first one was */
};

/* When the latest round may end. */
static int64_t least_end(const struct rounds *rounds) { return rounds->begun + (rounds->round + 1) * (is_site() ? ROUND : ROUND_OF_PLAN); }

/* Whether fewer clocks have answered in one of these domains than the file says. */
static bool is_short(const struct rounds *rounds) {
    for (size_t i = 0; i < rounds->count; i++) {
        if (answered_in(rounds->domains[i]) < collected->clocks[rounds->domains[i].number]) return true;
    }
    return false;
}

/* Whether in each of these domains as many clocks as the file says have answered all that is asked. Each id that was asked after the first then
   brought no other clock. */
static bool is_counted(const struct rounds *rounds) {
    for (size_t i = 0; i < rounds->count; i++) {
        size_t found = answered_in(rounds->domains[i]);
        if (found == 0 || found != collected->clocks[rounds->domains[i].number]) return false;
    }
    return is_whole();
}

/* Whether no clock is missing, as far as the rounds show. Of what every clock is asked a part has no answer. A clock that is asked N times is
   missed by this part to the power N. */
static bool is_sure(const struct rounds *rounds) {
    if (is_counted(rounds)) return true;
    double missed = (double)(seen_count() + 1) * MOST_MISSED, lost = lost_share();
    for (unsigned i = 0; i < rounds->asked; i++) missed *= lost;
    return rounds->quiet >= QUIET_ROUNDS && missed < 1;
}

/* Hears what still comes in a later round, until it may end. A clock that the file counts is waited for once. */
static void hear_rest(const struct rounds *rounds) {
    int64_t end = least_end(rounds);
    bool waits = rounds->round < QUIET_ROUNDS && is_short(rounds);
    while (!stopped && milliseconds() < end && (waits || !is_whole())) hear_until(milliseconds() + STEP < end ? milliseconds() + STEP : end);
}

/* Asks every clock whether it is there; in how many censuses. Without memory it is none, and no other round has one. */
static unsigned take_census(const struct task *task, struct rounds *rounds) {
    size_t first = request_count;
    unsigned censuses = lost_share() > 0 ? CENSUSES_OF_LOSSY : 1;
    int64_t next = milliseconds();
    for (size_t i = 0; i < censuses * rounds->count; i++) {
        if (start_request(task, rounds->domains[i % rounds->count], (unsigned)(i / rounds->count), true)) continue;
        rounds->round = MOST_ROUNDS;
        return 0;
    }
    for (unsigned census = 0; census < censuses && !stopped && !has_no_transport; census++) {
        hear_until(next);
        if (census > 0 && rounds->round <= task->settings.attempts && count_lacking() <= BURST) ask_lacking();
        next = ask_every(first, census);
    }
    rounds->asked += censuses;
    rounds->with_census++;
    return censuses;
}

/* Asks once more who is there, and each clock for what it lacks; whether there was something to ask. */
static bool ask_again(const struct task *task, struct rounds *rounds) {
    bool is_found = is_sure(rounds) || rounds->round > MOST_ROUNDS;
    size_t lacks = find_absent(task, rounds->round), before = news, base = request_count;
    if (rounds->round <= task->settings.attempts) lacks += count_lacking();
    if (is_found && lacks == 0) return false;
    show_progress("%zu clocks so far; attempt %d for %zu answers that are missing", seen_count(), rounds->round, lacks);
    begin_round();
    ask_absent(rounds->round == 1);
    if (rounds->round <= task->settings.attempts) ask_lacking();
    if (lacks > 0 && !is_found) hear_until(milliseconds() + STEP);
    unsigned censuses = is_found ? 0 : take_census(task, rounds);
    hear_until_quiet(task);
    if (censuses == 1) hear_rest(rounds);
    end_round(censuses);
    stop_requests(base);
    let_go += let_go_of_silent(MOST_SILENT);
    let_go_of_absent();
    rounds->quiet = news == before ? rounds->quiet + 1 : 0;
    return true;
}

/* A clock that a census found may have answered nothing else. */
static void note_sureness(const struct rounds *rounds) {
    sureness.late += late_answers();
    if (rounds->with_census >= sureness.rounds) sureness.rounds = rounds->with_census + 1;
    sureness.is_sure &= is_sure(rounds);
    for (size_t place = 0; place < seen_count(); place++) sureness.is_sure &= seen_clock(place)->answered != 0;
}

/* Asks in this many domains; whether the library would ask at all. */
static bool ask_in(const struct task *task, const struct domain *domains, size_t count) {
    struct rounds rounds = { .domains = domains, .count = count, .asked = (unsigned)collected->count, .begun = milliseconds() };
    for (size_t i = 0; i < count; i++) {
        for (unsigned id = 0; id < collected->count; id++) {
            if (start_request(task, domains[i], id, false)) continue;
            stop_requests(0);
            return false;
        }
    }
    char first[DOMAIN_TEXT];
    write_domain(first, domains[0]);
    show_progress("%zu clocks so far; asking from domain %s on", seen_count(), first);
    begin_rounds();
    is_absent_let_go = false;
    int64_t next = rounds.begun;
    for (unsigned id = 0; id < collected->count && !stopped && !has_no_transport; id++) {
        hear_until(next);
        next = ask_every(0, id);
    }
    hear_until_quiet(task);
    if (!is_counted(&rounds)) hear_until(least_end(&rounds));
    do rounds.round++;
    while (!stopped && !has_no_transport && ask_again(task, &rounds));
    wait_for_slow(task);
    note_sureness(&rounds);
    stop_requests(0);
    return true;
}

/* Says in which sdoId a clock is heard, if it is asked in no domain of it. */
static void advise_on_sdo(const struct domains *domains, const char *verb) {
    struct domain domain;
    for (size_t place = 0; heard_domain(place, &domain); place++) {
        if (is_sdo_asked(domains, domain.sdo)) continue;
        complain("a clock is heard in sdoId 0x%03x: %s--sdo 0x%03x asks there", domain.sdo, verb, domain.sdo);
        return;
    }
}

/* In what else clocks may be. A plan names its domains itself: there these are options of another verb. */
static void advise_on_domains(const struct task *task, const struct domains *domains) {
    const char *verb = task->plan.verb == NO_PLAN ? "" : "status ";
    if (task->path != NULL) complain("a clock in another domain or sdoId was not asked: %s--domain 0-127 and --sdo 0x100 ask there", verb);
    else if (!task->site.is_every_domain) complain("%s--domain all asks in each domain in which a clock is heard", verb);
    if (!task->site.is_every_sdo) advise_on_sdo(domains, verb);
}

/* Clocks lower the hops of what they pass on, and no answer shows it. So clocks past the last one may be there, and were not asked. */
static void tell_lowered_hops(const struct task *task) {
    static bool is_told;
    bool is_at_limit = farthest == HOPS_OF_CLOCKS && farthest_switch == HOPS_OF_CLOCKS && task->settings.hops > HOPS_OF_CLOCKS;
    if (is_told || !is_at_limit) return;
    is_told = true;
    complain("clocks answer past %d boundary clocks, and none further away: some may not be asked, since a ptpm-clock forwards no further "
             "without --hops", HOPS_OF_CLOCKS);
}

const struct sureness *sureness_of_collection(void) {
    sureness.clocks = seen_count();
    sureness.left_out = unseen_answers();
    return &sureness;
}

/* Says what is not known of who is there. */
static void tell_sureness(void) {
    const struct sureness *known = sureness_of_collection();
    if (known->left_out > 0) {
        complain("there is room for %d clocks and %d answers: %lu more answers are left out", MOST_CLOCKS, MOST_KEPT, known->left_out);
    }
    if (!known->is_sure && !stopped && sent > 0) {
        complain("%zu clocks answered in %zu rounds, and more may be there: %zu answers came only after the first round", known->clocks,
                 known->rounds, known->late);
    }
}

/* Writes the names of what a clock lacks; whether it lacks something. */
static bool write_lacking(char *names, size_t room, const struct seen_clock *clock) {
    size_t size = 0;
    for (unsigned id = 0; id < collected->count; id++) {
        if (!is_lacking(clock, id, is_of_port(id))) continue;
        size += (size_t)snprintf(names + size, room - size, "%s%s", size > 0 ? ", " : "", id_name(collected->ids[id]));
    }
    return size > 0;
}

void tell_lacking(void) {
    char domain[DOMAIN_TEXT], names[MOST_COLLECTED * sizeof ", LOG_MIN_PDELAY_REQ_INTERVAL"];
    for (size_t place = 0; place < seen_count(); place++) {
        const struct seen_clock *clock = seen_clock(place);
        if (!write_lacking(names, sizeof names, clock)) continue;
        write_domain(domain, clock->domain);
        complain("no answer from %s in domain %s to a read of %s", identity_text(clock->identity), domain, names);
    }
}

static int end_of_collection(const struct task *task, const struct domains *domains) {
    clear_progress();
    tell_sureness();
    if (let_go > 0) complain("%zu clocks gave no new answer when they were asked one by one: they are asked no more", let_go);
    if (has_no_transport) say_not_sent();
    else if (stopped && task->site.watch == 0) complain("ended by a signal: more may answer");
    else if (sent == 0 && !stopped) complain("nothing was sent: no message is taken at %s", transport_name());
    if (has_no_transport || (sent == 0 && !stopped)) return NOT_ASKED;
    if (stopped) return BY_SIGNAL + stopped;
    tell_lowered_hops(task);
    tell_late(task);
    if (seen_count() > 0) tell_silent_ways();
    if (seen_count() > 0) return ANSWERED;
    complain("no answer at %s in %s to %ld message%s", transport_name(), domains_text(domains), sent, sent == 1 ? "" : "s");
    tell_unfit_interfaces();
    advise_on_domains(task, domains);
    advise_on_every(task);
    return NOT_ANSWERED;
}

/* Asks in these domains; whether the library would ask at all. */
static bool ask_in_all(const struct task *task, const struct domains *domains) {
    struct domain together[DOMAINS_AT_ONCE];
    size_t count, place = 0;
    do {
        for (count = 0; count < DOMAINS_AT_ONCE && next_domain(domains, &place, &together[count]);) count++;
        if (count > 0 && !ask_in(task, together, count)) return false;
    } while (count == DOMAINS_AT_ONCE && !stopped && !has_no_transport);
    return true;
}

/* Asks, and hears what clocks send by themselves meanwhile. What was heard before is written first: a clock that answers no more may have
   sent it while it still answered. */
static bool ask_and_hear(const struct task *task, const struct domains *domains) {
    write_host_note(output);
    forget_silent();
    write_heard(output, true);
    receive_every_type(true);
    bool is_asked = ask_in_all(task, domains);
    receive_every_type(false);
    write_heard(output, false);
    return is_asked;
}

static void note_stranger(const uint8_t *message, size_t size) { note_untaken(OFF_LINK, message, size); }

/* From now on these ids are asked for, and this is where lines go; NULL if nowhere. */
static void begin(const struct collected *what, FILE *to) {
    collected = what;
    see_none(is_site());
    output = to;
    sent = 0;
    let_go = 0;
    slowest = 0;
    sureness = (struct sureness){ .is_sure = true };
    has_no_transport = false;
    farthest = farthest_switch = 0;
    forget_ways();
    hand_strangers(is_site() ? note_stranger : NULL);
}

/* Asks once in each domain of an sdoId. */
static void ask_each_domain(const struct task *task, uint16_t sdo) {
    for (int number = 0; number < DOMAINS && !stopped && !has_no_transport; number++) {
        if (!start_request(task, (struct domain){ (uint8_t)number, sdo }, 0, false)) break;
        send_when_room(requests[number].message, requests[number].size, false);
        hear_until(milliseconds() + DOMAIN_STEP);
    }
    hear_until_quiet(task);
    stop_requests(0);
}

void add_answering_domains(struct domains *domains, const struct task *task) {
    begin(&first_alone, NULL);
    for (size_t i = 0; i < domains->sdo_count; i++) ask_each_domain(task, domains->sdos[i]);
    for (size_t i = 0; i < seen_count(); i++) add_domain(domains, seen_clock(i)->domain);
}

int collect_answers(const struct task *task, const struct collected *what, const struct domains *domains, FILE *to) {
    begin(what, to);
    bool is_asked = is_site() ? ask_and_hear(task, domains) : ask_in_all(task, domains);
    if (!is_asked) return NOT_ASKED;
    int status = end_of_collection(task, domains);
    if (is_site()) write_untaken(to);
    if (domains->has_left_out) add_unseen(1);
    write_sureness_note(to, sureness_of_collection());
    return status;
}

static bool is_left_out(void) {
    bool is_left = unseen_answers() > 0;
    for (int type = 0; type < HEARD_TYPES; type++) is_left |= unheard((enum heard_type)type) > 0;
    return is_left;
}

int collect(const struct task *task) {
    struct domains domains;
    widen_transport();
    find_domains(&domains, task);
    int status = collect_answers(task, &of_site, &domains, stdout);
    return status == ANSWERED && is_left_out() ? NOT_ANSWERED : status;
}
