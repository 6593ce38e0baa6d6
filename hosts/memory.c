/* The memory of libptpm_memory.a: what dist/c/heap.c asks of malloc, realloc and free, from one block that the host gives. The
   block consists of adjacent pieces; each begins with its size and that of the piece below it. Two free pieces are never adjacent. A
   clock has two pieces: its managers' slots, and then itself. They are taken from the lowest place that has room, and all others from
   the highest. So what lies between clocks is room for clocks, and a clock that was stopped can be started again. One of over eight
   ports has further pieces, of its ports and of what it keeps of them for each manager. These are among the others. */
#include "ptpm_memory.h"
#include <stdint.h>
#if __STDC_HOSTED__
#include <string.h>
#else
#define memcpy __builtin_memcpy
#endif

/* A piece lies at a multiple of UNIT, and its size is one. Its two words take UNIT octets on every machine. A clock takes CLOCK
   octets for itself and SLOT for each manager. */
enum { UNIT = 16, CLOCK = 640, SLOT = 2144 };

struct piece {
    size_t size;                /* with these two words; odd if the piece is taken */
    size_t below;               /* the size of the piece below it, if there is one */
} __attribute__((__aligned__(UNIT)));

static struct piece *lowest, *highest;
static unsigned char *end;
static size_t taken, most_taken;

void *take_block(size_t size);
void *grow_block(void *block, size_t size);
void return_block(void *block);

static size_t size_of(const struct piece *piece) { return piece->size & ~(size_t)1; }

/* Whether a clock asks for this many octets. Another request for as many is only taken from another place. */
static bool is_for_clock(size_t size) { return size == CLOCK || size % SLOT == 0; }

static bool is_free(const struct piece *piece) { return (piece->size & 1) == 0; }

static struct piece *piece_at(unsigned char *place) { return (struct piece *)(void *)place; }

static struct piece *piece_of(void *block) { return (struct piece *)block - 1; }

/* The piece above this one; null for the highest. */
static struct piece *above(struct piece *piece) {
    return piece == highest ? NULL : piece_at((unsigned char *)piece + size_of(piece));
}

/* The piece below this one; null for the lowest. */
static struct piece *below(struct piece *piece) {
    return piece == lowest ? NULL : piece_at((unsigned char *)piece - piece->below);
}

/* Gives a piece its size, and has the piece above it know that. */
static void lay(struct piece *piece, size_t size, bool is_taken) {
    unsigned char *top = (unsigned char *)piece + size;
    piece->size = size | is_taken;
    if (top == end) highest = piece;
    else piece_at(top)->below = size;
}

/* Takes this much of a free piece, its lower or its upper part. */
static struct piece *take(struct piece *piece, size_t size, bool is_lower) {
    size_t rest = size_of(piece) - size, lower = is_lower ? size : rest;
    struct piece *upper = piece_at((unsigned char *)piece + lower);
    taken += size;
    if (taken > most_taken) most_taken = taken;
    if (rest == 0) {
        lay(piece, size, true);
        return piece;
    }
    lay(upper, is_lower ? rest : size, !is_lower);
    lay(piece, lower, is_lower);
    return is_lower ? piece : upper;
}

void *take_block(size_t size) {
    size_t asked = (size + UNIT - 1) / UNIT * UNIT + sizeof(struct piece);
    bool is_lower = is_for_clock(size);
    struct piece *piece = is_lower ? lowest : highest;
    if (size > SIZE_MAX / 2) return NULL;
    while (piece != NULL && (!is_free(piece) || size_of(piece) < asked)) piece = is_lower ? above(piece) : below(piece);
    return piece != NULL ? take(piece, asked, is_lower) + 1 : NULL;
}

void return_block(void *block) {
    struct piece *piece = piece_of(block), *upper = above(piece), *lower = below(piece);
    size_t size = size_of(piece);
    taken -= size;
    if (upper != NULL && is_free(upper)) size += size_of(upper);
    if (lower != NULL && is_free(lower)) {
        size += size_of(lower);
        piece = lower;
    }
    lay(piece, size, false);
}

/* A block that grows moves. If there is no room for it, it stays as it was. */
void *grow_block(void *block, size_t size) {
    size_t room = size_of(piece_of(block)) - sizeof(struct piece);
    void *other = size > room ? take_block(size) : block;
    if (other == NULL || other == block) return other;
    memcpy(other, block, room);
    return_block(block);
    return other;
}

bool ptpm_memory_give(void *block, size_t size) {
    size_t skipped = (size_t)(-(uintptr_t)block) % UNIT;
    if (taken != 0 || size < skipped + 2 * UNIT) return false;
    lowest = piece_at((unsigned char *)block + skipped);
    size = (size - skipped) / UNIT * UNIT;
    end = (unsigned char *)lowest + size;
    lay(lowest, size, false);
    most_taken = 0;
    return true;
}

size_t ptpm_memory_taken(void) { return taken; }

size_t ptpm_memory_most_taken(void) { return most_taken; }
