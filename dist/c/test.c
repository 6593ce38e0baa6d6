/* Tests of heap.c and os.c, as they are linked with what was proved: `test '' abc ..` prints `N passed, M failed`. Link with
   -Wl,--wrap=malloc,--wrap=realloc, so that memory can be refused. */
#include <errno.h>
#include <stdbool.h>
#include <stddef.h>
#include <stdint.h>
#include <stdio.h>
#include <stdlib.h>
#include <string.h>
#include <sys/types.h>

struct answer {
    bool is_given;
    void *block;
};

struct answer rattle_alloc(size_t size, size_t alignment);
struct answer rattle_realloc(void *block, size_t kept, size_t size, size_t alignment);
void rattle_dealloc(void *block);
int32_t rattle_errno(void);
void rattle_set_errno(int32_t number);
ssize_t rattle_arg(size_t place, unsigned char *room, size_t size);

void *__real_malloc(size_t size);
void *__real_realloc(void *block, size_t size);
void *__wrap_malloc(size_t size);
void *__wrap_realloc(void *block, size_t size);

static int passed, failed;
static bool is_refused;
static size_t asked;

void *__wrap_malloc(size_t size) {
    asked = size;
    return is_refused ? NULL : __real_malloc(size);
}

void *__wrap_realloc(void *block, size_t size) {
    asked = size;
    return is_refused ? NULL : __real_realloc(block, size);
}

static void check(const char *what, bool holds) {
    if (holds) {
        passed++;
    } else {
        failed++;
        printf("failed: %s\n", what);
    }
}

static bool is_aligned(const void *block, size_t alignment) { return (uintptr_t)block % alignment == 0; }

static void try_heap(void) {
    for (size_t alignment = 1; alignment <= 16; alignment *= 2) {
        struct answer made = rattle_alloc(5 * alignment, alignment);
        check("a block is given, aligned", made.is_given && is_aligned(made.block, alignment));
        memset(made.block, 0x5a, 5 * alignment);
        made = rattle_realloc(made.block, 5 * alignment, 5000 * alignment, alignment);
        check("a block grows", made.is_given && is_aligned(made.block, alignment) && ((char *)made.block)[5 * alignment - 1] == 0x5a);
        made = rattle_realloc(made.block, alignment, alignment, alignment);
        check("a block shrinks", made.is_given && ((char *)made.block)[alignment - 1] == 0x5a);
        made = rattle_realloc(made.block, 0, 0, alignment);
        check("a block of no octets is one still", made.is_given && asked == alignment && is_aligned(made.block, alignment));
        rattle_dealloc(made.block);
        made = rattle_alloc(0, alignment);
        check("a block of no octets is given", made.is_given && asked == alignment && is_aligned(made.block, alignment));
        rattle_dealloc(made.block);
    }
}

static void try_refusals(void) {
    struct answer kept = rattle_alloc(8, 8);
    memcpy(kept.block, "ptpm1588", 8);
    is_refused = true;
    struct answer none = rattle_alloc(8, 8);
    check("refused memory is told, by no null", !none.is_given && none.block != NULL);
    none = rattle_alloc(0, 1);
    check("so where nothing was asked for", !none.is_given && none.block != NULL);
    none = rattle_realloc(kept.block, 8, 16, 8);
    check("a block that may not grow is told", !none.is_given && none.block != NULL);
    check("and is as it was", memcmp(kept.block, "ptpm1588", 8) == 0);
    none = rattle_realloc(kept.block, 0, 0, 8);
    check("so where it may not shrink to nothing", !none.is_given && memcmp(kept.block, "ptpm1588", 8) == 0);
    is_refused = false;
    rattle_dealloc(kept.block);
}

/* An argument by a room of each size from none to one more than it takes; what lies behind the room stays. */
static void try_argument(size_t place, const char *word) {
    const size_t length = strlen(word);
    unsigned char *room = malloc(length + 2);
    bool is_told = room != NULL, is_filled = room != NULL;
    for (size_t size = 0; room != NULL && size <= length + 1; size++) {
        memset(room, 0xee, length + 2);
        const ssize_t answer = rattle_arg(place, room, size);
        const size_t written = size < length ? size : length;
        is_told = is_told && answer == (size < length ? -2 : (ssize_t)length);
        is_filled = is_filled && memcmp(room, word, written) == 0 && room[written] == 0xee;
    }
    check("an argument's length, or that it is longer than its room", is_told);
    check("an argument fills what it may, and no more", is_filled);
    free(room);
}

static void try_errno(int count) {
    static const int32_t numbers[] = { 0, ENOMEM, EINVAL, INT32_MAX, INT32_MIN };
    unsigned char room[4];
    for (size_t i = 0; i < sizeof numbers / sizeof numbers[0]; i++) {
        rattle_set_errno(numbers[i]);
        check("errno is what was set", errno == numbers[i] && rattle_errno() == numbers[i]);
        rattle_arg(0, room, sizeof room);
        rattle_arg((size_t)count, room, sizeof room);
        rattle_dealloc(rattle_alloc(8, 8).block);
        check("an argument and a block leave errno", rattle_errno() == numbers[i]);
    }
}

int main(int count, char **words) {
    unsigned char room[1] = { 0xee };
    try_heap();
    try_refusals();
    check("it is given arguments", count > 1);
    for (int i = 0; i < count; i++) try_argument((size_t)i, words[i]);
    check("no argument is behind the last", rattle_arg((size_t)count, room, 1) == -1 && rattle_arg(SIZE_MAX, room, 1) == -1);
    check("and nothing is written of it", room[0] == 0xee);
    try_errno(count);
    printf("%d passed, %d failed\n", passed, failed);
    return failed > 0;
}
