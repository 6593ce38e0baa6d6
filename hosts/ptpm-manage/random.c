#include "random.h"
#include "notices.h"
#include <errno.h>
#include <stdbool.h>
#include <string.h>
#include <sys/random.h>

void draw_octets(uint8_t *octets, size_t size) {
    if (getrandom(octets, size, 0) != (ssize_t)size) refuse("nothing was sent: there are no random octets: %s", strerror(errno));
}

uint16_t draw_number(void) {
    uint8_t octets[2];
    draw_octets(octets, sizeof octets);
    return (uint16_t)(octets[0] << 8 | octets[1]);
}

uint16_t next_number(void) {
    static uint16_t number;
    static bool is_drawn;
    if (!is_drawn) number = draw_number();
    is_drawn = true;
    return ++number;
}
