#include "commands.h"
#include <stdarg.h>
#include <stdio.h>
#include <stdlib.h>
#include <string.h>

enum { MOST_NAMES = 64, MOST_SAID = 1 << 20, RUN = 8 };

struct name { char *name; uint8_t *octets; size_t size; };

static struct name names[MOST_NAMES];
static size_t name_count;
static char text[MOST_SAID];
static size_t text_size;
long counted = -1;

void say(const char *format, ...) {
    va_list more;
    va_start(more, format);
    int size = vsnprintf(text + text_size, MOST_SAID - text_size, format, more);
    va_end(more);
    if (size < 0 || (size_t)size >= MOST_SAID - text_size) exit(2);
    text_size += (size_t)size;
}

void say_misspelt(const char *word) { say("what is '%s'?\n", word); }
const char *said(void) { return text; }

void clear_said(void) {
    text_size = 0;
    text[0] = '\0';
}

char *next_word(char **words) {
    char *word = strsep(words, " ");
    while (word != NULL && *word == '\0') word = strsep(words, " ");
    return word;
}

bool takes_word(char **words, const char *word) {
    size_t size = strlen(word);
    if (*words == NULL) return false;
    *words += strspn(*words, " ");
    if (strncmp(*words, word, size) != 0 || ((*words)[size] != ' ' && (*words)[size] != '\0')) return false;
    next_word(words);
    return true;
}

long long next_number(char **words, long long without) {
    char *word = next_word(words), *end;
    if (word == NULL) return without;
    long long number = *word == '-' ? strtoll(word, &end, 0) : (long long)strtoull(word, &end, 0);
    if (*end != '\0') say_misspelt(word);
    return number;
}

uint16_t next_hex(char **words) {
    char *word = next_word(words), *end = word;
    unsigned long number = word == NULL ? 0 : strtoul(word, &end, 16);
    if (word == NULL || *end != '\0') say_misspelt(word == NULL ? "" : word);
    return (uint16_t)number;
}

uint8_t next_action(char **words) {
    return takes_word(words, "GET") ? PTPM_GET : takes_word(words, "SET") ? PTPM_SET
           : takes_word(words, "COMMAND") ? PTPM_COMMAND : (uint8_t)next_number(words, 0);
}

static const struct name *name_of(const char *word) {
    for (size_t i = 0; i < name_count; i++) {
        if (strcmp(names[i].name, word) == 0) return &names[i];
    }
    return NULL;
}

void put_name(const char *name, const uint8_t *octets, size_t size) {
    struct name *place = (struct name *)name_of(name);
    if (place == NULL) {
        if (name_count == MOST_NAMES) exit(2);
        place = &names[name_count++];
        place->name = strdup(name);
    } else {
        free(place->octets);
    }
    place->octets = malloc(size + 1);
    place->size = size;
    if (place->name == NULL || place->octets == NULL) exit(2);
    memcpy(place->octets, octets, size);
}

void forget_names(void) {
    while (name_count > 0) {
        free(names[--name_count].name);
        free(names[name_count].octets);
    }
}

static int digit_of(char letter) {
    const char *digits = "0123456789abcdef", *place = strchr(digits, letter);
    return letter == '\0' || place == NULL ? -1 : (int)(place - digits);
}

/* The octets of a name or of hexadecimal digits, from a place on; how many they are. */
static size_t put_octets(const char *word, uint8_t *at, size_t most) {
    const struct name *name = name_of(word);
    size_t size = name != NULL ? name->size : strlen(word) / 2;
    if (size > most) {
        say_misspelt(word);
        return 0;
    }
    if (name != NULL) memcpy(at, name->octets, size);
    for (size_t i = 0; name == NULL && i < size; i++) {
        int high = digit_of(word[2 * i]), low = digit_of(word[2 * i + 1]);
        if (high < 0 || low < 0) {
            say_misspelt(word);
            return 0;
        }
        at[i] = (uint8_t)(16 * high + low);
    }
    if (name == NULL && strlen(word) % 2 == 1) say_misspelt(word);
    return size;
}

/* What the word after @ does to the octets so far. */
static void edit_octets(const char *word, struct octets *octets) {
    char *end;
    bool is_cut = strncmp(word, "..", 2) == 0;
    size_t place = strtoul(is_cut ? word + 2 : word, &end, 0);
    if (place > octets->size || (is_cut ? *end != '\0' : *end != '=')) say_misspelt(word);
    else if (is_cut) octets->size = place;
    else put_octets(end + 1, octets->at + place, octets->size - place);
}

static void read_word(const char *word, struct octets *octets) {
    const char *star = strchr(word, '*');
    unsigned long times = star == NULL ? 1 : strtoul(word, NULL, 10);
    if (*word == '@') {
        edit_octets(word + 1, octets);
        return;
    }
    for (unsigned long i = 0; i < times && strcmp(word, "-") != 0; i++) {
        octets->size += put_octets(star == NULL ? word : star + 1, octets->at + octets->size, MOST_OCTETS - octets->size);
    }
}

void read_octets(char **words, struct octets *octets) {
    octets->size = 0;
    for (const char *word; (word = next_word(words)) != NULL;) read_word(word, octets);
}

void read_exactly(const char *word, uint8_t *octets, size_t size) {
    static struct octets found;
    found.size = 0;
    read_word(word == NULL ? "" : word, &found);
    if (found.size != size) say_misspelt(word == NULL ? "" : word);
    memset(octets, 0, size);
    memcpy(octets, found.at, found.size < size ? found.size : size);
}

const char *answer_name(uint32_t answer, const char *done) {
    static char name[PTPM_MOST_NAME + 1];
    if (answer == 0) return done;
    name[ptpm_answer_name(answer, name, PTPM_MOST_NAME)] = '\0';
    return name;
}

void say_outcome(uint32_t answer, const char *done) { say("%s\n", answer_name(answer, done)); }

/* How many octets from here on have the value of the first. */
static size_t run_of(const uint8_t *octets, size_t size) {
    size_t run = 0;
    while (run < size && octets[run] == octets[0]) run++;
    return run;
}

void say_octets(const uint8_t *octets, size_t size) {
    bool is_run = false;
    if (size == 0) say("-");
    for (size_t i = 0; i < size;) {
        size_t run = run_of(octets + i, size - i);
        if (i > 0 && (is_run || run >= RUN)) say(" ");
        is_run = run >= RUN;
        if (is_run) say("%zu*", run);
        say("%02x", octets[i]);
        i += is_run ? run : 1;
    }
}

/* A part of a message: by its name if it has one, and otherwise its octets. */
static void say_part(const uint8_t *octets, size_t size, bool is_counted) {
    for (size_t i = 0; size >= RUN && i < name_count; i++) {
        if (names[i].size != size || memcmp(names[i].octets, octets, size) != 0) continue;
        say("%s", names[i].name);
        return;
    }
    if (is_counted && counted >= 0 && 256 * octets[size - 2] + octets[size - 1] == counted) {
        for (size_t i = 0; i + 2 < size; i++) say("%02x", octets[i]);
        say("####");
        return;
    }
    for (size_t i = 0; i < size; i++) say("%02x", octets[i]);
}

void say_message(const uint8_t *octets, size_t size) {
    /* The first octets to messageTypeSpecific, sourcePortIdentity, sequenceId, controlField and logMessageInterval,
       targetPortIdentity, hops, actionField and a reserved octet, tlvType, lengthField, managementId. In an error status there come
       managementErrorId, managementId and four reserved octets. */
    static const size_t parts[] = { 6, 14, 8, 2, 2, 2, 8, 2, 2, 2, 2, 2, 2, 2, 4 };
    enum { NUMBER = 4, TLV = 48, ERROR_STATUS = 2, COUNT = sizeof parts / sizeof *parts };
    size_t place = 0, count = size > TLV + 1 && octets[TLV + 1] == ERROR_STATUS ? COUNT : COUNT - 2;
    for (size_t i = 0; i < count && place + parts[i] <= size; i++) {
        if (place > 0) say(" ");
        say_part(octets + place, parts[i], i == NUMBER || parts[i] == RUN);
        place += parts[i];
    }
    if (place < size) {
        say(" ");
        say_octets(octets + place, size - place);
    }
    say("\n");
}
