/* What the program asks of its machine, in a page: memory, its words, and its three streams. The page gives the words and standard
   input, and takes what is written (worker.js). Each call of the program has a memory of its own, which ends with it. */
#include "portable.h"

#define FROM_PAGE(name) __attribute__((import_module("page"), import_name(#name)))

/* The octets of the word at a place, or -1 behind the last word. */
FROM_PAGE(word_size) int32_t page_word_size(uint32_t place);
/* Writes the first octets of a word. */
FROM_PAGE(word) void page_word(uint32_t place, void *room, uint32_t size);
/* Answers how many octets of standard input there were, at most `size`. */
FROM_PAGE(read) uint32_t page_read(void *room, uint32_t size);
FROM_PAGE(write) void page_write(uint32_t stream, const void *from, uint32_t size);

enum { NO_ARGUMENT = -1, NO_ROOM = -2, OCTETS_OF_A_PAGE = 65536, FEWEST_PAGES = 16, LEAST_BLOCK = 32, HEAD = 8, CLASSES = 27 };

/* What is before each block: how large it may get. A block that was given back has the next such block of its class behind that. */
struct head {
    uint32_t class;
    struct head *next;
};

/* As the compiler has an integer of 128 bits in memory. */
struct product {
    u64 low, high;
};

extern unsigned char __heap_base;

static struct head *given_back[CLASSES];
static uintptr_t unused, end;
static int32_t number;

/* A block of the class has 32 octets, 64, 128 and so on, its head among them. */
static size_t octets_of(uint32_t class) { return (size_t)LEAST_BLOCK << class; }

static uint32_t class_of(size_t size) {
    uint32_t class = 0;
    while (class < CLASSES && octets_of(class) - HEAD < size) class++;
    return class;
}

/* Asks the engine for so many more octets; answers whether there are. */
static int grow(size_t octets) {
    size_t pages = (octets + OCTETS_OF_A_PAGE - 1) / OCTETS_OF_A_PAGE;
    if (pages < FEWEST_PAGES) pages = FEWEST_PAGES;
    if (__builtin_wasm_memory_grow(0, pages) == (size_t)-1) return 0;
    end = __builtin_wasm_memory_size(0) * (uintptr_t)OCTETS_OF_A_PAGE;
    return 1;
}

/* A block that nobody had, or NULL. */
static struct head *new_block(uint32_t class) {
    struct head *block;
    if (unused == 0) {
        unused = ((uintptr_t)&__heap_base + HEAD - 1) / HEAD * HEAD;
        end = __builtin_wasm_memory_size(0) * (uintptr_t)OCTETS_OF_A_PAGE;
    }
    if (end - unused < octets_of(class) && !grow(octets_of(class) - (end - unused))) return NULL;
    block = (struct head *)unused;
    unused += octets_of(class);
    block->class = class;
    return block;
}

void *malloc(size_t size);
void *realloc(void *block, size_t size);
void free(void *block);

void *malloc(size_t size) {
    uint32_t class = class_of(size);
    struct head *block;
    if (class == CLASSES) return NULL;
    block = given_back[class];
    if (block != NULL) given_back[class] = block->next;
    else block = new_block(class);
    return block != NULL ? (unsigned char *)block + HEAD : NULL;
}

void free(void *block) {
    struct head *head = (struct head *)((unsigned char *)block - HEAD);
    head->next = given_back[head->class];
    given_back[head->class] = head;
}

void *realloc(void *block, size_t size) {
    struct head *head = (struct head *)((unsigned char *)block - HEAD);
    size_t room = octets_of(head->class) - HEAD;
    void *other;
    if (size <= room) return block;
    other = malloc(size);
    if (other == NULL) return NULL;
    memcpy(other, block, room);
    free(block);
    return other;
}

void __multi3(struct product *answer, u64 low, u64 high, u64 other_low, u64 other_high);
u32 program_rattle_errno(void);
void program_rattle_set_errno(u32 now);
u64 program_rattle_arg(u64 place, address room, u64 size);
u32 program_open(address path, u32 flags);
u32 program_close(u32 stream);
u32 program___xpg_strerror_r(u32 error, address room, u64 size);
u64 program_read(u32 stream, address room, u64 size);
u64 program_write(u32 stream, address from, u64 size);
u64 program___write(u32 stream, address from, u64 size);
u64 program___sysv_signal(u32 signal, u64 action);
address program___x86_get_cpuid_feature_leaf(u32 leaf);

/* The compiler asks for products of 128 bits by this name, with the low half of each first. If it optimised these lines, it would ask for
   such a product in them too. */
__attribute__((optnone, noinline)) void __multi3(struct product *answer, u64 low, u64 high, u64 other_low, u64 other_high) {
    u64 half = 0xffffffffu, x0 = low & half, x1 = low >> 32, y0 = other_low & half, y1 = other_low >> 32;
    u64 middle = (x0 * y0 >> 32) + (x0 * y1 & half) + (x1 * y0 & half);
    answer->low = low * other_low;
    answer->high = x1 * y1 + (x0 * y1 >> 32) + (x1 * y0 >> 32) + (middle >> 32) + high * other_low + low * other_high;
}

u32 program_rattle_errno(void) { return (u32)number; }

void program_rattle_set_errno(u32 now) { number = (int32_t)now; }

/* As dist/c/os.c answers: the length of a word, or which of the two is wrong. */
u64 program_rattle_arg(u64 place, address room, u64 size) {
    int32_t length = place <= INT32_MAX ? page_word_size((uint32_t)place) : -1;
    if (length < 0) return (u64)(i64)NO_ARGUMENT;
    page_word((uint32_t)place, AT(room), (uint32_t)((u64)length < size ? (u64)length : size));
    return (u64)length <= size ? (u64)length : (u64)(i64)NO_ROOM;
}

/* A page has no files: ENOENT of Linux. */
u32 program_open(address path, u32 flags) {
    (void)path;
    (void)flags;
    number = 2;
    return (u32)-1;
}

u32 program_close(u32 stream) {
    (void)stream;
    return 0;
}

/* The only error of a system call that a page has is that of open. */
u32 program___xpg_strerror_r(u32 error, address room, u64 size) {
    static const char text[] = "No such file or directory";
    unsigned char *to = AT(room);
    (void)error;
    for (u64 at = 0; at < size && at < sizeof text; at++) to[at] = (unsigned char)text[at];
    return 0;
}

u64 program_read(u32 stream, address room, u64 size) {
    (void)stream;
    return page_read(AT(room), size < OCTETS_OF_A_PAGE ? (uint32_t)size : OCTETS_OF_A_PAGE);
}

u64 program_write(u32 stream, address from, u64 size) {
    page_write(stream, AT(from), (uint32_t)size);
    return size;
}

u64 program___write(u32 stream, address from, u64 size) { return program_write(stream, from, size); }

/* A page has no signals. */
u64 program___sysv_signal(u32 signal, u64 action) {
    (void)signal;
    (void)action;
    return 0;
}

/* The program asks whether its processor has what its module was made for. Each instruction of the module is here. */
address program___x86_get_cpuid_feature_leaf(u32 leaf) {
    static u32 all[8] = { ~0u, ~0u, ~0u, ~0u, ~0u, ~0u, ~0u, ~0u };
    (void)leaf;
    return ADDRESS(all);
}
