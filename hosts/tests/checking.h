/* What holds in a test that is a program, and what doesn't: counted, and each failure reported. */
#pragma once

#include <stdbool.h>
#include <stdio.h>

static unsigned passed, failed;

static void check(bool holds, const char *what) {
    if (holds) passed++;
    else failed++, printf("failed: %s\n", what);
}

/* The last line of a test, and its status. */
static int print_checks(const char *name) {
    printf("%s: %u passed, %u failed\n", name, passed, failed);
    return failed > 0;
}
