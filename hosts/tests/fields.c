/* fields: whether the dataField of a SET comes back from its text. The lines of ptpm_field_text are words for ptpm_field_parse.
   Tried are each value of an id with one member, each of UTC_PROPERTIES, and texts that are drawn. Reserved bits are 0 (IEEE
   1588-2019, 15.5.3). So are a name in upper case, and only the value of a sole member. Prints what does not hold and `fields: N
   passed, M failed`; its status is 1 if one failed. */
#include "checking.h"
#include "ptpm.h"
#include <ctype.h>
#include <stdbool.h>
#include <stdio.h>
#include <string.h>

enum { OCTETS = 256, MOST_TEXT = 128, TEXTS = 500000, SEED = 1588 };

/* An id whose dataField has one octet and a reserved one, and which bits that octet has. */
static const struct { uint16_t id; uint8_t bits; } sole[] = {
    { PTPM_ID_PRIORITY1, 0xff }, { PTPM_ID_PRIORITY2, 0xff }, { PTPM_ID_DOMAIN, 0xff }, { PTPM_ID_SLAVE_ONLY, 1 },
    { PTPM_ID_LOG_ANNOUNCE_INTERVAL, 0xff }, { PTPM_ID_ANNOUNCE_RECEIPT_TIMEOUT, 0xff }, { PTPM_ID_LOG_SYNC_INTERVAL, 0xff },
    { PTPM_ID_VERSION_NUMBER, 15 }, { PTPM_ID_CLOCK_ACCURACY, 0xff }, { PTPM_ID_DELAY_MECHANISM, 0xff },
    { PTPM_ID_LOG_MIN_PDELAY_REQ_INTERVAL, 0xff },
};

/* The words of lines, a zero octet after each; how many octets they have. */
static size_t words_of(uint16_t id, const uint8_t *octets, size_t size, char words[PTPM_MOST_FIELD_TEXT]) {
    size_t length = ptpm_field_text(id, octets, size, words, PTPM_MOST_FIELD_TEXT);
    bool is_name = true;
    for (size_t i = 0; i < length; i++) {
        bool is_end = words[i] == '\n' || (words[i] == ' ' && is_name);
        if (words[i] == '\n' || words[i] == ' ') is_name = words[i] == '\n';
        if (is_end) words[i] = '\0';
    }
    return length;
}

/* Whether words are read as this dataField. */
static bool are_read(uint16_t id, const char *words, size_t length, const uint8_t *octets, size_t size) {
    uint8_t found[PTPM_MOST_READ];
    size_t count, member;
    return ptpm_field_parse(id, words, length, found, sizeof found, &count, &member) == PTPM_PARSED && count == size &&
           memcmp(found, octets, size) == 0 && member == 0;
}

/* Whether a dataField comes back from its words. */
static bool comes_back(uint16_t id, const uint8_t *octets, size_t size) {
    char words[PTPM_MOST_FIELD_TEXT];
    return are_read(id, words, words_of(id, octets, size, words), octets, size);
}

/* Whether it comes back from the value without the name, and with the name in upper case. */
static bool comes_back_from_value(uint16_t id, const uint8_t *octets, size_t size) {
    char words[PTPM_MOST_FIELD_TEXT];
    size_t length = words_of(id, octets, size, words), name = strlen(words) + 1;
    if (!are_read(id, words + name, length - name, octets, size)) return false;
    for (char *at = words; *at != '\0'; at++) *at = (char)toupper((unsigned char)*at);
    return are_read(id, words, length, octets, size);
}

/* Counts a dataField, and names one that does not come back. */
static void try_field(int holds, uint16_t id, const uint8_t *octets, size_t size) {
    char what[2 * PTPM_MOST_READ + 8] = "";
    if (!holds) {
        int at = snprintf(what, sizeof what, "%04x ", id);
        for (size_t i = 0; i < size; i++) at += snprintf(what + at, sizeof what - (size_t)at, "%02x", octets[i]);
    }
    check(holds, what);
}

static void sole_members(void) {
    for (size_t i = 0; i < sizeof sole / sizeof *sole; i++) {
        for (unsigned value = 0; value < OCTETS; value++) {
            uint8_t octets[2] = { (uint8_t)value, 0 };
            if ((value & ~sole[i].bits & 0xff) != 0) continue;
            try_field(comes_back(sole[i].id, octets, 2) && comes_back_from_value(sole[i].id, octets, 2), sole[i].id, octets, 2);
        }
    }
}

/* currentUtcOffset, and the flags leap61, leap59 and currentUtcOffsetValid. */
static void utc_properties(void) {
    for (uint32_t value = 0; value < 1 << 19; value++) {
        uint8_t octets[4] = { (uint8_t)(value >> 11), (uint8_t)(value >> 3), value & 7, 0 };
        try_field(comes_back(PTPM_ID_UTC_PROPERTIES, octets, 4), PTPM_ID_UTC_PROPERTIES, octets, 4);
    }
}

/* A number that is drawn, below a limit: the high bits of a linear congruential generator. */
static uint32_t drawn(uint32_t limit) {
    static uint64_t state = SEED;
    state = state * 6364136223846793005u + 1442695040888963407u;
    return (uint32_t)((state >> 33) % limit);
}

/* The octets of a character in UTF-8 (RFC 3629), of as many octets as are asked for; of three, it is none of the surrogates. */
static void draw_character(uint8_t *octets, unsigned count) {
    static const uint32_t first[] = { 0, 0x80, 0x800, 0x10000 }, end[] = { 0x80, 0x800, 0xd800, 0x110000 };
    uint32_t number = first[count - 1] + drawn(end[count - 1] - first[count - 1]);
    for (unsigned i = count - 1; i > 0; i--, number >>= 6) octets[i] = (uint8_t)(0x80 | (number & 63));
    octets[0] = (uint8_t)(count == 1 ? number : (0xf00u >> count & 0xff) | number);
}

/* Texts of 0 to 128 octets, a PTPText (5.3.9) each. Every fourth is of controls and backslashes for the most part. */
static void descriptions(void) {
    static const char marks[] = "\\x5c\t\n x41";
    for (unsigned i = 0; i < TEXTS; i++) {
        uint8_t octets[MOST_TEXT + 2] = { (uint8_t)drawn(MOST_TEXT + 1) };
        for (size_t at = 1, count; at <= octets[0]; at += count) {
            count = 1 + drawn(4);
            if (count > octets[0] + 1u - at) count = 1;
            draw_character(octets + at, (unsigned)count);
            if (count == 1 && i % 4 == 0) octets[at] = (uint8_t)marks[drawn(sizeof marks)];
        }
        size_t size = (octets[0] + 2u) / 2 * 2;
        int holds = comes_back(PTPM_ID_USER_DESCRIPTION, octets, size);
        try_field(holds && comes_back_from_value(PTPM_ID_USER_DESCRIPTION, octets, size), PTPM_ID_USER_DESCRIPTION, octets, size);
    }
}

/* Each id is one of these, has no octets in a SET, or can only be read. */
static void ids(void) {
    size_t members = 0, empty = 0, read_only = 0, count, member;
    uint8_t octets[PTPM_MOST_READ];
    for (size_t place = 0; ptpm_id_at(place) != PTPM_NO_ID; place++) {
        uint16_t id = (uint16_t)ptpm_id_at(place);
        enum ptpm_parsed answer = ptpm_field_parse(id, "", 0, octets, sizeof octets, &count, &member);
        if (answer == PTPM_PARSED && count == 0) empty++;
        else if (id >= PTPM_ID_DEFAULT_DATA_SET && id <= PTPM_ID_PORT_DATA_SET) read_only++;
        else members++;
    }
    check(members == sizeof sole / sizeof *sole + 2 && empty == 3 && read_only == 5, "the ids that are tried here");
}

/* The longest text: a CLOCK_DESCRIPTION (15.5.3.1.2) that fills a message, with four texts of no printable octet. The rest is the
   physicalAddress, so that the addressField is a minus sign. */
static void longest_text(void) {
    enum { CLOCK_DESCRIPTION = 1, MOST_OCTETS = 1418, TEXT = 255, ADDRESS = 376 };
    static char text[PTPM_MOST_FIELD_TEXT];
    static uint8_t octets[MOST_OCTETS];
    uint8_t *at = octets + 2;
    memset(octets, 0xff, sizeof octets);
    at += 1 + TEXT;
    *at++ = ADDRESS >> 8;
    *at++ = ADDRESS & 0xff;
    at += ADDRESS;
    memset(at + 2, 0, 2);                   /* after networkProtocol there is no addressField */
    size_t size = ptpm_field_text(CLOCK_DESCRIPTION, octets, sizeof octets, text, sizeof text);
    check(size == PTPM_MOST_FIELD_TEXT && memcmp(text, "clockType 0xffff\n", 17) == 0, "the longest text has PTPM_MOST_FIELD_TEXT octets");
}

/* The longest text of what a member takes. */
static void longest_takes(void) {
    size_t most = 0;
    for (size_t at = 0; ptpm_id_at(at) != PTPM_NO_ID; at++) {
        char text[PTPM_MOST_FIELD_TEXT];
        for (size_t place = 0, size = 1; size > 0; place++) {
            size = ptpm_field_takes((uint16_t)ptpm_id_at(at), place, text, sizeof text);
            if (size > most) most = size;
        }
    }
    check(most == PTPM_MOST_TAKES, "the longest text of what a member takes has PTPM_MOST_TAKES octets");
}

int main(void) {
    ids();
    longest_text();
    longest_takes();
    sole_members();
    utc_properties();
    descriptions();
    return print_checks("fields");
}
