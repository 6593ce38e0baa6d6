/* The heap that the proved code asks for memory, over malloc, realloc and free of the program that it is part of. Its declarations, with
   what is promised of them, are the toolchain's (module heap of its library libc). */
#include <stdbool.h>
#include <stddef.h>
#include <stdlib.h>

/* What came of a request: the block, or where there is none any pointer that is not null. */
struct answer {
    bool is_given;
    void *block;
};

/* malloc may answer a request for no octets with null, so such a block has as many as its alignment says. An alignment divides 16, and malloc
   aligns each block to what divides its size up to that. */
static size_t asked(size_t size, size_t alignment) { return size > 0 ? size : alignment; }

static struct answer answer(void *block) {
    static unsigned char none;
    const struct answer given = { true, block }, refused = { false, &none };
    return block != NULL ? given : refused;
}

struct answer rattle_alloc(size_t size, size_t alignment);
struct answer rattle_realloc(void *block, size_t kept, size_t size, size_t alignment);
void rattle_dealloc(void *block);

struct answer rattle_alloc(size_t size, size_t alignment) { return answer(malloc(asked(size, alignment))); }

/* Keeps the first `kept` octets, as realloc does without being told. Where it is refused, the block is as it was. */
struct answer rattle_realloc(void *block, size_t kept, size_t size, size_t alignment) {
    (void)kept;
    return answer(realloc(block, asked(size, alignment)));
}

void rattle_dealloc(void *block) { free(block); }
