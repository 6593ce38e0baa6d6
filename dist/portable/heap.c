/* The heap that libptpm.c asks for memory, over malloc, realloc and free. What is promised of it is what dist/c/heap.c keeps. An
   alignment is not kept beyond what malloc gives: libptpm.c reads and writes memory at any place. */
#include "portable.h"
#if __STDC_HOSTED__
#include <stdlib.h>
#else
void *malloc(size_t size);
void *realloc(void *block, size_t size);
void free(void *block);
#endif

struct pair portable_rattle_alloc(u64 size, u64 alignment);
struct pair portable_rattle_realloc(address block, u64 kept, u64 size, u64 alignment);
void portable_rattle_dealloc(address block);

/* Where nothing is given the address is of something too. */
static struct pair answer(void *block) {
    static unsigned char none;
    struct pair given;
    given.m0 = block != NULL;
    given.m1 = ADDRESS(block != NULL ? block : &none);
    return given;
}

/* Whether the machine has as many octets at all. */
static int is_possible(u64 size) { return size <= SIZE_MAX / 2; }

/* malloc may answer a request for no octets with null. */
static size_t asked(u64 size, u64 alignment) { return (size_t)(size > 0 ? size : alignment); }

struct pair portable_rattle_alloc(u64 size, u64 alignment) {
    return answer(is_possible(size) ? malloc(asked(size, alignment)) : NULL);
}

/* Keeps the first `kept` octets, as realloc does without being asked. If it is refused, the block is as it was. */
struct pair portable_rattle_realloc(address block, u64 kept, u64 size, u64 alignment) {
    (void)kept;
    return answer(is_possible(size) ? realloc(AT(block), asked(size, alignment)) : NULL);
}

void portable_rattle_dealloc(address block) { free(AT(block)); }
