#include "counts.h"
#include "output.h"

enum { ANSWERS = 128 };

static const char *const names[COUNTS] = {
    [DROPPED] = "dropped", [NOT_ON_LINK] = "not on the link", [NOT_PASSED_ON_AGAIN] = "not passed on again",
    [OVER_RATE_PASSED_ON] = "not passed on over the rate", [OVER_RATE_ANSWERED] = "not answered over the rate",
    [OVER_RATE_OF_MANAGERS] = "not taken of managers over their rate", [SAVES] = "saved", [SAVES_FAILED] = "not saved",
    [LEAST_SAVE] = "microseconds of a save, least", [MEAN_SAVE] = "microseconds of a save, mean",
    [MOST_SAVE] = "microseconds of a save, most", [AGREED] = "the device agreed", [OBJECTED] = "the device objected",
    [SILENT] = "the device said nothing", [NOT_TAKEN_MEANWHILE] = "not taken while the device was asked", [OBSERVED] = "observed",
    [NOT_OBSERVED] = "not observed",
};
unsigned long long counts[COUNTS];
static unsigned long long answers[ANSWERS];

void count_answer(uint32_t answer) {
    if (answer < ANSWERS) answers[answer]++;
}

void print_counts(void) {
    for (int i = 0; i < ANSWERS; i++) {
        if (answers[i] > 0) print_line("answer %d: %llu", i, answers[i]);
    }
    for (int i = 0; i < COUNTS; i++) {
        if (counts[i] > 0) print_line("%s: %llu", names[i], counts[i]);
    }
    if (lines_lost() > 0) print_line("lines not printed: %lu", lines_lost());
}
