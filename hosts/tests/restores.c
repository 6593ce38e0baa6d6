/* restores [COUNT [SEED]]: this many damaged images of clocks, each given to ptpm_clock_restore. An image, and the managers
   beside it, lie in pages that can't be written, right before or right after one that can't be read. What is refused leaves the
   clock that the handle holds. What is restored has just that image, and is asked. No memory is kept. Prints what does not
   hold, how often each answer came, and `restores: N passed, M failed`; its status is 1 if one failed. */
#define _GNU_SOURCE
#include "checking.h"
#include "ptpm.h"
#include <malloc.h>
#include <stdbool.h>
#include <stdlib.h>
#include <string.h>
#include <sys/mman.h>
#include <unistd.h>

enum { BASES = 64, MOST_MANAGERS = 16, FEW_PORTS = 8, ROOM = 65536, PAGE = 4096, REQUESTS = 40, NEW = 400 };
enum { PLACES = PTPM_MOST_SENT_OF(PTPM_MOST_PORTS), IMAGE_OCTETS = PTPM_CLOCK_IMAGE_BOUND(PTPM_MOST_PORTS, MOST_MANAGERS) };
enum { KIND = 4, VERSION = 5, SIZE = 8, HEAD = 12, IDENTITY = 12, MESSAGE = 16, WITH_CHANGE = 3 };

/* A clock, its managers and its image. */
struct base { size_t port_count, manager_count, size; struct ptpm_manager_settings managers[MOST_MANAGERS]; uint8_t *image; };

static struct base bases[BASES];
static const uint8_t identity[8] = { 0xaa, 0xbb, 0xcc, 0xff, 0xfe, 0xdd, 0xee, 0x01 };
static struct ptpm_sent sent[PLACES];
static unsigned long answers[PTPM_OTHER_SESSION];

/* Memory that can be written at one place and only read at another, between pages that can't be read. */
static uint8_t *written, *only_read;

static uint64_t state = 1588;

static uint32_t draw(uint32_t below) {
    state = state * 6364136223846793005u + 1442695040888963407u;
    return (uint32_t)((state >> 32) % below);
}

static bool is_drawn(uint32_t of_hundred) { return draw(100) < of_hundred; }

static void lay_pages(void) {
    int memory = memfd_create("restores", MFD_CLOEXEC);
    uint8_t *all = mmap(NULL, ROOM + 2 * PAGE, PROT_NONE, MAP_PRIVATE | MAP_ANONYMOUS, -1, 0);
    if (memory < 0 || ftruncate(memory, ROOM) || all == MAP_FAILED) exit(2);
    only_read = mmap(all + PAGE, ROOM, PROT_READ, MAP_SHARED | MAP_FIXED, memory, 0);
    written = mmap(NULL, ROOM, PROT_READ | PROT_WRITE, MAP_SHARED, memory, 0);
    if (only_read == MAP_FAILED || written == MAP_FAILED) exit(2);
}

/* Octets at the end of these pages, or at their beginning, aligned to two octets if they have to be. */
static const uint8_t *lay(const void *octets, size_t size, bool is_at_end) {
    size_t place = is_at_end ? ROOM - size : 0;
    memcpy(written + place, octets, size);
    return only_read + place;
}

static void write_two(uint8_t *at, size_t number) {
    at[0] = (uint8_t)(number >> 8);
    at[1] = (uint8_t)number;
}

/* A request of a manager for an id and a port that there may be, with any values (IEEE 1588-2019, 13.3 and 15.4). */
static size_t draw_request(uint8_t octets[256], const struct ptpm_manager_settings *manager, uint16_t number, size_t port_count) {
    static const uint16_t ids[] = {
        0x0000, 0x0002, 0x2000, 0x2001, 0x2002, 0x2003, 0x2004, 0x2005, 0x2006, 0x2007, 0x2009, 0x200a, 0x200b, 0x200d, 0x200e, 0x2010,
        0x2011, 0x6000, 0x6001, 0x2fff,
    };
    static const uint8_t actions[] = { PTPM_GET, PTPM_SET, PTPM_SET, PTPM_COMMAND };
    uint16_t id = ids[draw(sizeof ids / sizeof *ids)];
    size_t field = is_drawn(50) ? 2 : 2 * draw(12);
    memset(octets, 0, 256);
    octets[0] = 0x0d;
    octets[1] = 0x12;
    write_two(octets + 2, 54 + field);
    memcpy(octets + 20, manager->clock, 8);
    write_two(octets + 28, manager->port);
    write_two(octets + 30, number);
    memcpy(octets + 34, identity, 8);
    write_two(octets + 42, is_drawn(50) ? 0xffff : 1 + draw((uint32_t)port_count));
    octets[46] = actions[draw(sizeof actions)];
    octets[49] = 1;
    write_two(octets + 50, 2 + field);
    write_two(octets + 52, id);
    for (size_t i = 0; i < field; i++) octets[54 + i] = (uint8_t)(is_drawn(50) ? draw(4) : draw(256));
    if (id == PTPM_ID_USER_DESCRIPTION && field > 0) octets[54] = (uint8_t)(field - 1 - (field > 1 && is_drawn(50)));
    return 54 + field;
}

static void ask(struct ptpm_clock *clock, const struct base *base) {
    uint8_t request[256];
    size_t count;
    if (base->manager_count == 0) return;
    const struct ptpm_manager_settings *manager = &base->managers[draw((uint32_t)base->manager_count)];
    size_t size = draw_request(request, manager, (uint16_t)draw(NEW), base->port_count);
    ptpm_clock_handle(clock, 1, request, size, sent, PLACES, &count);
}

/* Has a clock keep a change as under way, if what is drawn is one: then its image is of another kind. */
static void undertake(struct ptpm_clock *clock, const struct base *base) {
    static uint8_t image[IMAGE_OCTETS];
    uint8_t request[256];
    uint64_t token;
    size_t size;
    struct ptpm_question asked;
    check(ptpm_clock_saving(clock, PLACES) == PTPM_SAVING && ptpm_clock_image_of(clock, image, sizeof image, &size, &token) == PTPM_SAVED
          && ptpm_clock_saved(clock, token) == PTPM_SAVED, "a clock that saves");
    if (base->manager_count == 0) return;
    for (int i = 0; i < REQUESTS; i++) {
        size = draw_request(request, base->managers, (uint16_t)(NEW + i), base->port_count);
        if (ptpm_clock_undertake(clock, 1, request, size, &asked) == PTPM_ASKED_CHANGE) return;
    }
}

static void draw_base(struct base *base, size_t place) {
    struct ptpm_clock clock = { 0 };
    struct ptpm_clock_settings settings;
    struct ptpm_port_settings ports[PTPM_MOST_PORTS];
    static uint8_t image[IMAGE_OCTETS];
    ptpm_clock_defaults(&settings);
    memcpy(settings.identity, identity, 8);
    settings.domain = (uint8_t)draw(2);
    base->port_count = place == 0 ? PTPM_MOST_PORTS : 1 + draw(is_drawn(50) ? FEW_PORTS : PTPM_MOST_PORTS);
    base->manager_count = place == 0 ? MOST_MANAGERS : place % (MOST_MANAGERS + 1);
    for (size_t i = 0; i < base->port_count; i++) ptpm_port_defaults(&ports[i]);
    for (size_t i = 0; i < base->manager_count; i++) {
        base->managers[i] = (struct ptpm_manager_settings){ { (uint8_t)draw(3), 2, 3, 4, 5, 6, 7, (uint8_t)i }, (uint16_t)draw(3), 7 };
    }
    check(ptpm_clock_start(&clock, &settings, ports, base->port_count, base->managers, base->manager_count) == PTPM_STARTED, "a start");
    for (int i = 0; i < REQUESTS; i++) ask(&clock, base);
    if (place % 2 == 1) undertake(&clock, base);
    check(ptpm_clock_image(&clock, image, sizeof image, &base->size) == PTPM_SAVED, "an image");
    base->image = malloc(base->size);
    if (base->image == NULL) exit(2);
    memcpy(base->image, image, base->size);
    ptpm_clock_stop(&clock);
}

/* Damages octets where they lie; how many there are then. */
static size_t damage(uint8_t *octets, size_t size) {
    uint32_t whole = (uint32_t)size;
    size_t from = draw(whole), count = draw(whole - (uint32_t)from + 1);
    switch (draw(8)) {
    case 0: size = draw(whole + 1); break;
    case 1: octets[size++] = (uint8_t)draw(256); break;
    case 2:
        for (size_t i = from; i < size; i++) octets[i] = (uint8_t)draw(256);
        break;
    case 3:
        memmove(octets + from, octets + from + count, size - from - count);
        size -= count;
        break;
    case 4:
        if (size + count >= ROOM) break;
        memmove(octets + from + count, octets + from, size - from);
        size += count;
        break;
    default:
        for (uint32_t i = 0; i <= draw(3); i++) octets[draw(whole)] = (uint8_t)(is_drawn(50) ? draw(4) : draw(256));
    }
    if (size >= HEAD && is_drawn(80)) {
        memset(octets + SIZE, 0, 2);
        write_two(octets + SIZE + 2, size - HEAD);
    }
    return size;
}

/* The clock's identity in an image, which comes last in one with a change under way. */
static const uint8_t *identity_in(const uint8_t *image) {
    return image + IDENTITY + (image[KIND] == WITH_CHANGE ? MESSAGE + 256 * image[MESSAGE - 2] + image[MESSAGE - 1] : 0);
}

/* Whether that may be the answer: the first refusal that holds, of those that can be seen at the head. */
static bool may_be(enum ptpm_restored answer, const uint8_t *image, size_t size) {
    if (size < HEAD || memcmp(image, "ptpm", 4) != 0) return answer == PTPM_NOT_AN_IMAGE;
    if (image[VERSION] != 1) return answer == PTPM_OTHER_VERSION;
    if (image[KIND] != 1 && image[KIND] != WITH_CHANGE) return answer == PTPM_OTHER_KIND;
    if (answer == PTPM_OTHER_CLOCK) return memcmp(identity_in(image), identity, 8) != 0;
    return answer == PTPM_DAMAGED || answer == PTPM_OTHER_PORTS || answer == PTPM_RESTORED;
}

static bool has_image(const struct ptpm_clock *clock, const uint8_t *image, size_t size) {
    static uint8_t own[IMAGE_OCTETS];
    size_t found;
    return ptpm_clock_image(clock, own, sizeof own, &found) == PTPM_SAVED && found == size && memcmp(own, image, size) == 0;
}

static void restore_whole(struct ptpm_clock *clock, const struct base *base) {
    size_t gone;
    enum ptpm_restored answer = ptpm_clock_restore(clock, identity, base->port_count, base->managers, base->manager_count, base->image,
                                                   base->size, &gone);
    check(answer == PTPM_RESTORED && gone == 0 && has_image(clock, base->image, base->size), "a whole image is restored");
}

/* One image, at a clock that the handle holds. */
static void restore(struct ptpm_clock *clock, const struct base *base) {
    static uint8_t octets[ROOM + 1];
    size_t gone = 7, managers_size = base->manager_count * sizeof *base->managers;
    memcpy(octets, base->image, base->size);
    size_t size = damage(octets, base->size);
    bool is_at_end = is_drawn(50);
    if (size + managers_size + PAGE > ROOM) return;
    const uint8_t *image = lay(octets, size, is_at_end), *managers = lay(base->managers, managers_size, !is_at_end);
    enum ptpm_restored answer = ptpm_clock_restore(clock, identity, base->port_count, (const void *)managers, base->manager_count, image,
                                                   size, &gone);
    if (answer < PTPM_OTHER_SESSION) answers[answer]++;
    check(may_be(answer, octets, size), "an answer that the head permits");
    if (answer != PTPM_RESTORED) {
        check(gone == 0, "nothing is forgotten by a refusal");
        check(has_image(clock, base->image, base->size), "the clock is as it was after a refusal");
        return;
    }
    check(gone <= MOST_MANAGERS && (gone > 0 || has_image(clock, octets, size)), "what is restored has the image that it is restored from");
    for (int i = 0; i < 3; i++) ask(clock, base);
    restore_whole(clock, base);
}

static void print_answers(void) {
    char name[PTPM_MOST_NAME];
    printf("damaged images: %lu restored", answers[PTPM_RESTORED]);
    for (uint32_t i = PTPM_RESTORED + 1; i < PTPM_OTHER_SESSION; i++) {
        if (answers[i] > 0) printf(", %lu %.*s", answers[i], (int)ptpm_answer_name(i, name, sizeof name), name);
    }
    printf("\n");
}

int main(int argc, char **argv) {
    long count = argc > 1 ? atol(argv[1]) : 1000000;
    struct ptpm_clock clock = { 0 };
    if (argc > 2) state = strtoull(argv[2], NULL, 10);
    lay_pages();
    size_t changes = 0;
    for (size_t i = 0; i < BASES; i++) {
        draw_base(&bases[i], i);
        changes += bases[i].image[KIND] == WITH_CHANGE;
    }
    check(changes > 0, "images with a change under way");
    size_t before = mallinfo2().uordblks;
    for (long i = 0; i < count; i++) {
        const struct base *base = &bases[(size_t)i * BASES / (size_t)count];
        if (!has_image(&clock, base->image, base->size)) restore_whole(&clock, base);
        restore(&clock, base);
    }
    ptpm_clock_stop(&clock);
    check(mallinfo2().uordblks < before + ROOM, "no memory is kept, except by the allocator for its next blocks");
    print_answers();
    for (size_t i = 0; i < BASES; i++) free(bases[i].image);
    return print_checks("restores");
}
