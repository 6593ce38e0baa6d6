#include "text.h"
#include <langinfo.h>
#include <locale.h>
#include <stdbool.h>
#include <string.h>

const char *utc_text(const char *format, time_t time) {
    static char text[sizeof "2026-01-01T00:00:00Z"];
    struct tm parts;
    bool is_time = gmtime_r(&time, &parts) != NULL && strftime(text, sizeof text, format, &parts) > 0;
    return is_time ? text : "";
}

/* How many octets the character at the head has, and its number; 0 if there is no well-formed one (RFC 3629). */
static size_t character(const uint8_t *octets, size_t size, uint32_t *number) {
    static const uint32_t least[] = { 0, 0, 0x80, 0x800, 0x10000 };
    uint8_t head = octets[0];
    size_t count = head < 0x80 ? 1 : head >> 5 == 6 ? 2 : head >> 4 == 14 ? 3 : head >> 3 == 30 ? 4 : 0;
    if (count == 0 || count > size) return 0;
    *number = count == 1 ? head : head & (0xffu >> (count + 1));
    for (size_t i = 1; i < count; i++) {
        if (octets[i] >> 6 != 2) return 0;
        *number = *number << 6 | (octets[i] & 63u);
    }
    return *number < least[count] || *number > 0x10ffff || (*number >= 0xd800 && *number < 0xe000) ? 0 : count;
}

/* Control characters, and those that are unseen, such as fillers, or change the direction of what follows them. */
static bool is_shown(uint32_t number) {
    static const struct { uint32_t first, last; } hidden[] = {
        { 0, 0x1f }, { '\\', '\\' }, { 0x7f, 0x9f }, { 0xad, 0xad }, { 0x34f, 0x34f }, { 0x61c, 0x61c }, { 0x115f, 0x1160 },
        { 0x17b4, 0x17b5 }, { 0x180b, 0x180f }, { 0x200b, 0x200f }, { 0x2028, 0x202e }, { 0x2060, 0x206f }, { 0x2800, 0x2800 },
        { 0x3164, 0x3164 }, { 0xfe00, 0xfe0f }, { 0xfeff, 0xfeff }, { 0xffa0, 0xffa0 }, { 0xfff9, 0xfffb }, { 0xe0000, 0x10ffff },
    };
    for (size_t i = 0; i < sizeof hidden / sizeof *hidden; i++) {
        if (number >= hidden[i].first && number <= hidden[i].last) return false;
    }
    return true;
}

/* Whether the user's locale reads UTF-8. Any other may treat an octet from 0x80 to 0x9f as a control character. */
static bool reads_utf8(void) {
    static bool is_read, is_asked;
    if (is_asked) return is_read;
    locale_t locale = newlocale(LC_CTYPE_MASK, "", (locale_t)0);
    is_asked = true;
    is_read = locale != (locale_t)0 && strcmp(nl_langinfo_l(CODESET, locale), "UTF-8") == 0;
    if (locale != (locale_t)0) freelocale(locale);
    return is_read;
}

static bool has_control(const uint8_t *octets, size_t size) {
    for (size_t i = 0; i < size; i++) {
        if (octets[i] >= 0x80 && octets[i] <= 0x9f) return true;
    }
    return false;
}

/* Whether a character is printed as it is. It has `count` octets, 0 if it is none. */
static bool is_plain_character(const uint8_t *octets, size_t count, uint32_t number) {
    return count > 0 && is_shown(number) && (reads_utf8() || !has_control(octets, count));
}

/* Prints one character, with this number. It has `count` octets, 0 if it is none. */
typedef void printing(FILE *to, const uint8_t *octets, size_t count, uint32_t number);

static void print_each(FILE *to, const uint8_t *octets, size_t size, printing *print) {
    for (size_t i = 0, count; i < size; i += count > 0 ? count : 1) {
        uint32_t number = 0;
        count = character(octets + i, size - i, &number);
        print(to, octets + i, count, number);
    }
}

static void print_octets(FILE *to, const uint8_t *octets, size_t count, bool is_plain) {
    if (is_plain) fwrite(octets, 1, count, to);
    for (size_t i = 0; i < count && !is_plain; i++) fprintf(to, "\\x%02x", octets[i]);
}

static void print_of_text(FILE *to, const uint8_t *octets, size_t count, uint32_t number) {
    print_octets(to, octets, count > 0 ? count : 1, is_plain_character(octets, count, number));
}

static void print_of_line(FILE *to, const uint8_t *octets, size_t count, uint32_t number) {
    (void)number;
    if (count == 0) count = 1;
    print_octets(to, octets, count, reads_utf8() || !has_control(octets, count));
}

void print_text(FILE *to, const uint8_t *octets, size_t size) { print_each(to, octets, size, print_of_text); }

void print_lines(FILE *to, const char *text, size_t size) { print_each(to, (const uint8_t *)text, size, print_of_line); }

/* A character by its number: beyond 16 bits in two halves (RFC 8259, 7). */
static void print_json_number(FILE *to, uint32_t number) {
    if (number <= 0xffff) fprintf(to, "\\u%04x", number);
    else fprintf(to, "\\u%04x\\u%04x", 0xd800 + ((number - 0x10000) >> 10), 0xdc00 + ((number - 0x10000) & 0x3ff));
}

static void print_json_character(FILE *to, const uint8_t *octets, size_t count, uint32_t number) {
    if (count == 0) print_json_number(to, 0xfffd);
    else if (is_plain_character(octets, count, number)) fwrite(octets, 1, count, to);
    else print_json_number(to, number);
}

/* What is ASCII has its meaning in JSON. */
static void print_of_json(FILE *to, const uint8_t *octets, size_t count, uint32_t number) {
    if (*octets < 0x7f) putc(*octets, to);
    else print_json_character(to, octets, count, number);
}

static void print_of_json_text(FILE *to, const uint8_t *octets, size_t count, uint32_t number) {
    if (*octets == '"' || *octets == '\\') fprintf(to, "\\%c", *octets);
    else print_json_character(to, octets, count, number);
}

void print_json(FILE *to, const char *text, size_t size) { print_each(to, (const uint8_t *)text, size, print_of_json); }

void print_json_text(FILE *to, const uint8_t *octets, size_t size) {
    putc('"', to);
    print_each(to, octets, size, print_of_json_text);
    putc('"', to);
}
