/* What the program ptpm asks of C beside its heap: its arguments, and errno. The declarations, with what is promised of them, are the
   toolchain's (module c of its library os). */
#include <errno.h>
#include <stddef.h>
#include <stdint.h>
#include <sys/types.h>

enum { NO_ARGUMENT = -1, NO_ROOM = -2 };

static size_t argument_count;
static char **arguments;

/* The GNU C library calls what stands in .init_array with the arguments of main, before main itself, which proved code defines. */
static void keep_arguments(int count, char **words) {
    argument_count = count > 0 ? (size_t)count : 0;
    arguments = words;
}

__attribute__((used, section(".init_array"))) static void (*const keeps_arguments)(int, char **) = keep_arguments;

int32_t rattle_errno(void);
void rattle_set_errno(int32_t number);
ssize_t rattle_arg(size_t place, unsigned char *room, size_t size);

int32_t rattle_errno(void) { return errno; }

void rattle_set_errno(int32_t number) { errno = number; }

/* Writes the argument at a place, from 0 on, without its end, and answers its length. Where it is longer than the room it fills the room. */
ssize_t rattle_arg(size_t place, unsigned char *room, size_t size) {
    if (place >= argument_count || arguments[place] == NULL) return NO_ARGUMENT;
    const char *word = arguments[place];
    size_t length = 0;
    for (; word[length] != '\0'; length++) {
        if (length == size) return NO_ROOM;
        room[length] = (unsigned char)word[length];
    }
    return (ssize_t)length;
}
