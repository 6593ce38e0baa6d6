#include "clock_names.h"
#include "notices.h"
#include "program.h"
#include "ptpm.h"
#include "words.h"
#include <ctype.h>
#include <errno.h>
#include <stdio.h>
#include <stdlib.h>
#include <string.h>
#include <sys/stat.h>

/* As many clocks as a site shows, and what a name may have: a command line has room for them all. */
enum { MOST_NAMES = 4096, MOST_NAME = 128, NAME_AT = IDENTITY_TEXT, MOST_OCTETS = 1 << 24 };

static char *names[MOST_NAMES];
static size_t count;

/* The place of a clock among the names; `count` if it has none yet. */
static size_t place_of(const uint8_t identity[8]) {
    const char *text = identity_text(identity);
    size_t place = 0;
    while (place < count && memcmp(names[place], text, IDENTITY_TEXT - 1) != 0) place++;
    return place;
}

/* Whether a name is UTF-8. The library takes no other word, for a userDescription either. */
static bool is_utf8(const char *name) {
    uint8_t octets[PTPM_MOST_READ];
    size_t size, member;
    return ptpm_field_parse(PTPM_ID_USER_DESCRIPTION, name, strlen(name) + 1, octets, sizeof octets, &size, &member) != PTPM_NOT_WORDS;
}

/* Names the clock at this place, which is `count` if it is a new one. */
static void put_name(size_t place, const uint8_t identity[8], const char *name) {
    char *named;
    if (asprintf(&named, "%s=%s", identity_text(identity), name) < 0) give_up("the names");
    free(names[place]);
    names[place] = named;
    if (place == count) count++;
}

/* Takes a line without its end: of a clock that is named twice the later name counts. */
static void take_line(const char *path, size_t number, const char *line) {
    static const char blanks[] = " \t";
    uint8_t identity[8];
    size_t size = strcspn(line, blanks);
    const char *name = line + size + strspn(line + size, blanks);
    bool is_named = line[size] != '\0' && ptpm_identity_parse(line, size, identity);
    if (!is_named) refuse("--names %s: line %zu has no clockIdentity with a name after it", path, number);
    if (*name == '\0' || strlen(name) > MOST_NAME) refuse("--names %s: line %zu: a name has 1 to %d octets", path, number, MOST_NAME);
    if (!is_utf8(name)) refuse("--names %s: line %zu: the name is not UTF-8", path, number);
    size_t place = place_of(identity);
    if (place == MOST_NAMES) refuse("--names %s: it has more than %d clocks", path, MOST_NAMES);
    put_name(place, identity, name);
}

/* Opens a file or a pipe that may be read to its end. */
static FILE *open_names(const char *path) {
    struct stat found;
    FILE *file = fopen(path, "re");
    if (file == NULL || fstat(fileno(file), &found)) refuse("--names %s: %s", path, strerror(errno));
    if (!S_ISREG(found.st_mode) && !S_ISFIFO(found.st_mode)) refuse("--names %s: it is not a regular file", path);
    if (found.st_size > MOST_OCTETS) refuse("--names %s: it has over %d octets", path, MOST_OCTETS);
    return file;
}

void read_clock_names(const char *path) {
    char *line = NULL;
    size_t room = 0, number = 0;
    FILE *file = open_names(path);
    for (ssize_t size; (size = getline(&line, &room, file)) >= 0;) {
        number++;
        if (strlen(line) != (size_t)size) refuse("--names %s: line %zu has an octet 0", path, number);
        while (size > 0 && isspace((unsigned char)line[size - 1])) line[--size] = '\0';
        if (size > 0 && line[0] != '#') take_line(path, number, line);
    }
    if (ferror(file)) refuse("--names %s: %s", path, strerror(errno));
    free(line);
    fclose(file);
}

size_t clock_name_count(void) { return count; }

const char *clock_name(size_t place) { return names[place]; }

bool find_named_clock(const char *name, uint8_t identity[8]) {
    size_t found = 0;
    for (size_t place = 0; place < count; place++) {
        if (strcmp(names[place] + NAME_AT, name) != 0) continue;
        ptpm_identity_parse(names[place], IDENTITY_TEXT - 1, identity);
        found++;
    }
    if (found > 1) refuse("--target %s: %zu clocks have this name", name, found);
    return found == 1;
}
