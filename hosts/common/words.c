#include "words.h"
#include <stdio.h>

int64_t large_decimal(const char *text, int64_t most) {
    int64_t number = 0;
    if (*text == '\0') return -1;
    for (; *text != '\0'; text++) {
        if (*text < '0' || *text > '9') return -1;
        number = number * 10 + (*text - '0');
        if (number > most) return -1;
    }
    return number;
}

long decimal(const char *text, long most) { return (long)large_decimal(text, most); }

static int digit(char c) {
    if (c >= '0' && c <= '9') return c - '0';
    if (c >= 'a' && c <= 'f') return c - 'a' + 10;
    if (c >= 'A' && c <= 'F') return c - 'A' + 10;
    return -1;
}

size_t read_octets(const char **text, uint8_t *octets, size_t most) {
    size_t count = 0;
    for (; count < most && digit((*text)[0]) >= 0 && digit((*text)[1]) >= 0; count++, *text += 2) {
        octets[count] = (uint8_t)(digit((*text)[0]) * 16 + digit((*text)[1]));
    }
    return count;
}

bool is_ascii(const char *line) {
    for (; *line != '\0'; line++) {
        if ((*line < ' ' || *line > '~') && *line != '\t' && *line != '\r') return false;
    }
    return true;
}

const char *identity_text(const uint8_t identity[8]) {
    static char texts[2][IDENTITY_TEXT];
    static unsigned calls;
    char *text = texts[calls++ % 2];
    for (int i = 0; i < 8; i++) snprintf(text + 2 * i, 3, "%02x", identity[i]);
    return text;
}
