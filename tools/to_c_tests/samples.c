/* Calls each sample with drawn operands, and prints its name and a sum of what it answered. samples.h lists the samples: each is
   SAMPLE(name). It is compiled over LLVM's own code for them, and with PORTABLE over what the translator made. */
#include <inttypes.h>
#include <stdint.h>
#include <stdio.h>

#ifdef PORTABLE
#include "portable.h"
#define NAMED(name) portable_##name
#else
#define IS_LITTLE_ENDIAN 1
#define NAMED(name) name
#endif

void portable_fill(void);

#define SAMPLE(name) uint64_t NAMED(name)(uint64_t a, uint64_t b, uint64_t c);
#include "samples.h"
#undef SAMPLE

enum { CALLS = 3000 };

static uint64_t state;

static uint64_t next(void) {
    state ^= state << 13;
    state ^= state >> 7;
    return state ^= state << 17;
}

/* A number of any size; often one beside a power of two, and often a small one. */
static uint64_t drawn(void) {
    uint64_t way = next() % 8, number = next();
    if (way < 2) return number;
    if (way < 4) return number >> next() % 64;
    if (way < 6) return (UINT64_C(1) << number % 64) - 1 + number / 64 % 3;
    return way < 7 ? number % 3 - 1 : ~(number >> next() % 64);
}

static uint64_t sum_of(uint64_t (*sample)(uint64_t a, uint64_t b, uint64_t c)) {
    uint64_t sum = 0;
    state = 1588;
    for (int i = 0; i < CALLS; i++) {
        uint64_t a = drawn(), b = i % 16 == 0 ? a : drawn(), c = drawn();
        sum = (sum ^ sample(a, b, c)) * UINT64_C(0x9e3779b97f4a7c15);
        sum ^= sum >> 32;
    }
    return sum;
}

int main(void) {
#if !IS_LITTLE_ENDIAN
    portable_fill();
#endif
#define SAMPLE(name) printf("%s %016" PRIx64 "\n", #name, sum_of(NAMED(name)));
#include "samples.h"
    return 0;
}
