/* flash [KILLS [SEED]]: a device of three ports whose clock is saved in flash without a file system (docs/image.md). Its hardware is
   asked for each change once. Its power fails at any step: a slot is erased, a page is written, the hardware is asked, or a message
   leaves. What was cut is as it was, torn, or weak: it reads right for now, and wrong after some later start. Managers ask until they are
   answered, and send old copies. What was answered stays, a copy gets the same answer, and a change is answered as done if and only if
   the hardware has it. Then come devices that break one rule each, and each has to be caught. Prints what does not hold, and
   `flash: N passed, M failed`; its status is 1 if one failed. */
#include "checking.h"
#include "ptpm.h"
#include <limits.h>
#include <setjmp.h>
#include <stdlib.h>
#include <string.h>

enum { PORTS = 3, MANAGERS = 3, PLACE = PTPM_CLOCK_IMAGE_BOUND(PORTS, MANAGERS) + PTPM_SEAL_OCTETS, PAGE = 64, SLOTS = 4 };
enum { PAGES = (PLACE + PAGE - 1) / PAGE, MOST_WAITING = 8, MOST_STEPS = 150, FEW_STEPS = 12, BURST = 3, KEPT = 4, EVERY_PORT = 0xffff };
enum { SOURCE = 20, NUMBER = 30, TARGET = 34, TARGET_PORT = 42, TLV = 48, DATA = 54, VALUE = 1 };   /* places in a message; a TLV's type */

/* The rule that a device breaks. */
enum rule { NONE, LOOKS, SAVES_AT_START, READS_BACK, SPARES_THE_NEWEST, RULES };
static const char *const devices[RULES] = {
    "the device", "a device that asks its hardware again after a restart is caught", "one that does not save at its start is caught",
    "one that does not read back is caught", "one that erases the newest slot is caught",
};
static enum rule broken;

struct page { uint8_t octets[PAGE], later[PAGE]; bool is_weak; };
struct request { uint16_t number; uint8_t action, value, answer[64]; size_t size; };    /* its answer, from the TLV on, once there is one */
struct manager { struct request kept[KEPT]; uint16_t number; uint8_t known; };          /* the value of its item by its latest answer */

/* What stays without power. */
static struct page flash[SLOTS][PAGES];
static struct { uint16_t asked, done; } hardware[MANAGERS];     /* the latest request of each manager */
static struct manager managers[MANAGERS];

/* The device's memory. */
static struct ptpm_clock device;
static struct ptpm_sent sent[PTPM_MOST_SENT];
static uint8_t image[PLACE], places[SLOTS * PLACE];
static uint64_t saves;
static size_t next_slot;

static unsigned answers, weak_starts, wrong, steps_left;
static jmp_buf power;
static uint64_t chance;

static const uint8_t identity[8] = { 0xaa, 0xbb, 0xcc, 0xff, 0xfe, 0xdd, 0xee, 0x01 };
static const struct ptpm_manager_settings settings[MANAGERS] = { { { 2 }, 1, 7 }, { { 2 }, 2, 7 }, { { 2 }, 3, 7 } };
/* What each manager sets, at which port, and what it is at first. */
static const struct { uint16_t id, port; uint8_t first; } items[MANAGERS] = {
    { PTPM_ID_PRIORITY1, EVERY_PORT, 128 }, { PTPM_ID_PRIORITY2, EVERY_PORT, 128 }, { PTPM_ID_LOG_ANNOUNCE_INTERVAL, 3, 1 },
};

static uint32_t draw(uint32_t below) {
    chance = chance * 6364136223846793005u + 1442695040888963407u;
    return (uint32_t)((chance >> 32) % below);
}

static void note(bool holds, const char *what) {
    wrong += !holds;
    if (!holds && broken == NONE) printf("failed: %s\n", what);
}

/* ---- what loses its power */

static bool is_cut(void) { return steps_left-- == 0; }

static void step(void) {
    if (is_cut()) longjmp(power, 1);
}

/* What a cut leaves of a page that was to get these octets. */
static void cut(struct page *page, const uint8_t *octets) {
    uint32_t kind = draw(4);
    if (kind == 0) return;
    for (int i = 0; i < PAGE; i++) {
        uint8_t torn = draw(2) ? page->octets[i] : (uint8_t)(octets[i] | draw(256));
        page->octets[i] = kind == 1 ? torn : octets[i];
        page->later[i] = draw(4) ? octets[i] : torn;
    }
    page->is_weak = kind > 1;
}

static void erase_slot(size_t slot) {
    bool is_last = is_cut();
    struct page erased = { .is_weak = false };
    memset(erased.octets, 0xff, PAGE);
    for (int i = 0; i < PAGES; i++) {
        if (is_last) cut(&flash[slot][i], erased.octets);
        else flash[slot][i] = erased;
    }
    if (is_last) longjmp(power, 1);
}

/* Once in a while a page gets another bit. */
static void write_slot(size_t slot, const uint8_t *octets, size_t size) {
    for (size_t at = 0; at < size; at += PAGE) {
        struct page *page = &flash[slot][at / PAGE], whole = *page;
        for (size_t i = 0; i < PAGE && at + i < size; i++) whole.octets[i] &= octets[at + i];
        if (is_cut()) {
            cut(page, whole.octets);
            longjmp(power, 1);
        }
        *page = whole;
        if (draw(100) == 0) page->octets[draw(PAGE)] ^= 1;
    }
}

static void read_slot(size_t slot, uint8_t *octets, size_t size) {
    for (size_t at = 0; at < size; at += PAGE) memcpy(octets + at, flash[slot][at / PAGE].octets, size - at < PAGE ? size - at : PAGE);
}

static void power_up(void) {
    bool is_any = false;
    for (int i = 0; i < SLOTS * PAGES; i++) {
        struct page *page = &flash[i / PAGES][i % PAGES];
        is_any |= page->is_weak;
        if (!page->is_weak || draw(2)) continue;
        memcpy(page->octets, page->later, PAGE);
        page->is_weak = false;
    }
    weak_starts += is_any;
}

/* Once in a while it can't. */
static bool write_to_hardware(const struct ptpm_question *asked) {
    int manager = asked->manager_port - 1;
    step();
    note(hardware[manager].asked != asked->number, "the hardware is asked for no change twice");
    hardware[manager].asked = asked->number;
    bool is_done = draw(8) > 0;
    if (is_done) hardware[manager].done = asked->number;
    step();
    return is_done;
}

static bool hardware_has(const struct ptpm_question *asked) { return hardware[asked->manager_port - 1].done == asked->number; }

/* ---- the managers */

static struct request *request_of(int manager, uint16_t number) { return &managers[manager].kept[number % KEPT]; }

static void begin(int manager) {
    uint16_t number = ++managers[manager].number;
    *request_of(manager, number) = (struct request){ .number = number, .action = draw(4) ? PTPM_SET : PTPM_GET, .value = (uint8_t)draw(5) };
}

/* A request (IEEE 1588-2019, 13.3 and 15.4). */
static size_t message_of(int manager, const struct request *request, uint8_t octets[DATA + 2]) {
    uint16_t port = items[manager].port, id = items[manager].id, number = request->number;
    uint8_t size = request->action == PTPM_SET ? DATA + 2 : DATA;
    const uint8_t head[] = { 0x0d, 0x12, 0, size };
    const uint8_t source[] = { 2, 0, 0, 0, 0, 0, 0, 0, 0, (uint8_t)settings[manager].port, (uint8_t)(number >> 8), (uint8_t)number, 4, 0x7f };
    const uint8_t rest[] = { (uint8_t)(port >> 8), (uint8_t)port, 1, 1, request->action, 0, 0, 1, 0, (uint8_t)(size - TLV - 4),
                             (uint8_t)(id >> 8), (uint8_t)id, request->value, 0 };
    memset(octets, 0, DATA + 2);
    memcpy(octets, head, sizeof head);
    memcpy(octets + SOURCE, source, sizeof source);
    memcpy(octets + TARGET, identity, sizeof identity);
    memcpy(octets + TARGET_PORT, rest, sizeof rest);
    return size;
}

static void judge_first_answer(int manager, const struct request *request) {
    bool is_value = request->answer[1] == VALUE;
    answers++;
    if (request->action == PTPM_GET) {
        note(is_value && request->answer[DATA - TLV] == managers[manager].known, "a GET is answered by what was reported last");
        return;
    }
    note(is_value == (hardware[manager].done == request->number), "a change is answered as done if the hardware has it");
    if (is_value) managers[manager].known = request->value;
}

static void leave(const struct ptpm_sent *message) {
    step();
    int manager = message->octets[TARGET_PORT + 1] - 1;
    struct request *request = request_of(manager, (uint16_t)(message->octets[NUMBER] << 8 | message->octets[NUMBER + 1]));
    size_t size = message->size - TLV;
    bool is_first = request->size == 0;
    if (is_first) memcpy(request->answer, message->octets + TLV, request->size = size);
    if (is_first) judge_first_answer(manager, request);
    note(request->size == size && memcmp(request->answer, message->octets + TLV, size) == 0, "a copy gets the same answer");
}

/* What a clock that was restored has: what was reported, or what a SET without an answer sets. */
static void judge_start(void) {
    for (int i = 0; i < MANAGERS; i++) {
        uint8_t found[PTPM_MOST_READ];
        size_t size;
        const struct request *latest = request_of(i, managers[i].number);
        bool is_asked = latest->size == 0 && latest->action == PTPM_SET;
        ptpm_clock_read(&device, items[i].id, items[i].port, found, sizeof found, &size);
        note(found[0] == managers[i].known || (is_asked && found[0] == latest->value), "what was reported is so after a restart");
    }
}

/* ---- the device */

static bool store(size_t size) {
    static uint8_t again[PLACE];
    size_t sealed;
    if (ptpm_image_seal(image, size, sizeof image, saves + 1, &sealed) != PTPM_SAVED) return false;
    erase_slot(next_slot);
    write_slot(next_slot, image, sealed);
    read_slot(next_slot, again, sealed);
    if (memcmp(image, again, sealed) != 0 && broken != READS_BACK) return false;
    saves++;
    next_slot = (next_slot + (broken != SPARES_THE_NEWEST)) % SLOTS;
    return true;
}

static bool find(const uint8_t **found, size_t *size) {
    for (size_t i = 0; i < SLOTS; i++) read_slot(i, places + i * PLACE, PLACE);
    size_t newest = ptpm_newest_image(places, PLACE, SLOTS, &saves, size);
    *found = places + newest % SLOTS * PLACE;
    next_slot = (newest + (broken != SPARES_THE_NEWEST)) % SLOTS;
    return newest < SLOTS;
}

static void act(bool is_found) {
    static struct ptpm_say say = { .error = PTPM_ERROR_GENERAL_ERROR };
    struct ptpm_question asked;
    struct ptpm_taken taken;
    if (ptpm_clock_under_way(&device, &asked) != PTPM_ASKED_CHANGE) return;
    say.kind = (is_found && broken != LOOKS ? hardware_has(&asked) : write_to_hardware(&asked)) ? PTPM_AGREES : PTPM_OBJECTS;
    note(ptpm_clock_decide(&device, &say, sent, PTPM_MOST_SENT, &taken) == PTPM_ANSWERED_NEW, "what was under way is new");
}

static bool save(void) {
    size_t size;
    uint64_t token;
    if (ptpm_clock_image_of(&device, image, sizeof image, &size, &token) != PTPM_SAVED || !store(size)) return false;
    enum ptpm_saved answer = ptpm_clock_saved(&device, token);
    while (ptpm_clock_next(&device, sent) == 1) leave(sent);
    if (answer == PTPM_ACT_NOW) act(false);
    return true;
}

static void come_in(uint16_t port, const uint8_t *octets, size_t size) {
    static const struct ptpm_say agrees;
    struct ptpm_question asked;
    struct ptpm_taken taken;
    if (ptpm_clock_undertake(&device, port, octets, size, &asked) == PTPM_ASKED_CHANGE) return;
    ptpm_clock_take(&device, port, octets, size, &agrees, 0, sent, PTPM_MOST_SENT, &taken);
    for (size_t i = 0; i < taken.count; i++) leave(&sent[i]);
}

/* The first save is made in the factory, and nothing cuts it. */
static void start(void) {
    struct ptpm_clock_settings own;
    struct ptpm_port_settings ports[PORTS];
    ptpm_clock_defaults(&own);
    memcpy(own.identity, identity, sizeof identity);
    for (int i = 0; i < PORTS; i++) ptpm_port_defaults(&ports[i]);
    steps_left = UINT_MAX;
    ptpm_clock_start(&device, &own, ports, PORTS, settings, MANAGERS);
    ptpm_clock_saving(&device, MOST_WAITING);
    while (!save()) continue;
}

static bool go_on(void) {
    const uint8_t *found;
    size_t size, gone;
    if (!find(&found, &size) || ptpm_clock_restore(&device, identity, PORTS, settings, MANAGERS, found, size, &gone) != PTPM_RESTORED) return false;
    ptpm_clock_saving(&device, MOST_WAITING);
    judge_start();
    while (broken != SAVES_AT_START && !save()) continue;
    act(true);
    return true;
}

/* ---- a run */

/* It comes in at any port. No manager has a request 0. */
static void ask(int manager, uint16_t number) {
    uint8_t octets[DATA + 2];
    const struct request *request = request_of(manager, number);
    if (number != 0 && request->number == number) come_in((uint16_t)(1 + draw(PORTS)), octets, message_of(manager, request, octets));
}

static void live(void) {
    bool is_found = go_on();
    note(is_found, "a state is found");
    if (!is_found) return;
    for (int i = 0; i < MANAGERS; i++) ask(i, managers[i].number);
    for (;;) {
        for (uint32_t left = draw(BURST); left > 0; left--) {
            int manager = (int)draw(MANAGERS);
            if (request_of(manager, managers[manager].number)->size > 0 && draw(3) > 0) begin(manager);
            ask(manager, (uint16_t)(managers[manager].number - (draw(3) ? 0 : draw(KEPT))));
        }
        while (ptpm_clock_unsaved(&device)) save();
    }
}

/* What does not hold, counted, for a device that loses its power so often. */
static unsigned run(enum rule rule, unsigned kills, uint64_t seed) {
    broken = rule, chance = seed, wrong = answers = weak_starts = 0, saves = next_slot = 0;
    memset(flash, 0, sizeof flash), memset(hardware, 0, sizeof hardware), memset(managers, 0, sizeof managers);
    for (int i = 0; i < MANAGERS; i++) managers[i].known = items[i].first, begin(i);
    start();
    for (volatile unsigned killed = 0; killed < kills && wrong == 0; killed++) {
        ptpm_clock_stop(&device);
        power_up();
        steps_left = draw(draw(2) ? MOST_STEPS : FEW_STEPS);
        if (setjmp(power) == 0) live();
    }
    ptpm_clock_stop(&device);
    return wrong;
}

int main(int count, char **words) {
    unsigned kills = count > 1 ? (unsigned)strtoul(words[1], NULL, 10) : 5000;
    uint64_t seed = count > 2 ? strtoull(words[2], NULL, 10) : 1588;
    check(run(NONE, kills, seed) == 0, devices[NONE]);
    printf("%u kills, %u answers, %u starts with a weak page\n", kills, answers, weak_starts);
    for (enum rule rule = NONE + 1; rule < RULES; rule++) check(run(rule, kills, seed) > 0, devices[rule]);
    return print_checks("flash");
}
