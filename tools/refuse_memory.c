/*
 * A library to be loaded before a program, by LD_PRELOAD: refuses it the Nth memory that it asks for, counted from 1, where
 * REFUSE_MEMORY is N, and that one alone; if it is N+, each later one too. A refusal is shown by a 1 in the file that
 * REFUSE_MEMORY_TOLD names.
 */

/* The C library's own names: the toolchain has no headers. */
typedef __SIZE_TYPE__ size_t;
extern void *__libc_malloc(size_t size);
extern void *__libc_calloc(size_t count, size_t size);
extern void *__libc_realloc(void *block, size_t size);
extern void *__libc_memalign(size_t alignment, size_t size);
extern char *getenv(const char *name);
extern int creat(const char *path, unsigned int mode);
extern long write(int file, const void *octets, size_t count);
extern int close(int file);
extern int *__errno_location(void);

enum { NO_MEMORY = 12 }; /* ENOMEM */

static unsigned long asked;

static void tell(void) {
    const char *path = getenv("REFUSE_MEMORY_TOLD");
    int file = path ? creat(path, 0600) : -1;
    if (file >= 0) {
        (void)!write(file, "1", 1);
        close(file);
    }
}

static int is_refused(void) {
    const char *wanted = getenv("REFUSE_MEMORY");
    unsigned long number = 0;
    asked++;
    while (wanted && *wanted >= '0' && *wanted <= '9')
        number = 10 * number + (unsigned long)(*wanted++ - '0');
    if (number == 0 || asked < number || (asked > number && *wanted != '+'))
        return 0;
    tell();
    *__errno_location() = NO_MEMORY;
    return 1;
}

void *malloc(size_t size) {
    return is_refused() ? 0 : __libc_malloc(size);
}

void *calloc(size_t count, size_t size) {
    return is_refused() ? 0 : __libc_calloc(count, size);
}

void *realloc(void *block, size_t size) {
    return is_refused() ? 0 : __libc_realloc(block, size);
}

void *aligned_alloc(size_t alignment, size_t size) {
    return is_refused() ? 0 : __libc_memalign(alignment, size);
}

int posix_memalign(void **block, size_t alignment, size_t size) {
    void *made = is_refused() ? 0 : __libc_memalign(alignment, size);
    if (made)
        *block = made;
    return made ? 0 : NO_MEMORY;
}
