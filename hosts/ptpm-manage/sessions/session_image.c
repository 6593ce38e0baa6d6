#include "session_image.h"
#include "message_places.h"
#include <string.h>

/* The places of the members, from the mark at the head on. Numbers of two octets are big-endian. */
enum {
    MANAGER = 12, MANAGER_PORT = 20, TARGET = 22, PORTS = 30, FIRST = 31, LOW_ISSUED = 42, IS_UNDER_WAY = 52,
    ACTION = 53, ID = 54, PORT = 56, SIZE = 58, OCTETS = 60,
};

static void read_request(struct session_image *image, const uint8_t *octets, size_t size) {
    if (size < OCTETS || number_at(octets + SIZE) > size - OCTETS) return;
    image->is_under_way = true;
    image->action = octets[ACTION];
    image->id = number_at(octets + ID);
    image->port = number_at(octets + PORT) == EVERY_PORT ? 0 : number_at(octets + PORT);
    image->size = number_at(octets + SIZE);
    image->octets = octets + OCTETS;
}

struct session_image read_image(const uint8_t *octets, size_t size) {
    struct session_image image = { 0 };
    if (size <= IS_UNDER_WAY) return image;
    memcpy(image.manager, octets + MANAGER, sizeof image.manager);
    memcpy(image.target, octets + TARGET, sizeof image.target);
    image.manager_port = number_at(octets + MANAGER_PORT);
    image.ports = octets[PORTS];
    image.first = number_at(octets + FIRST);
    image.number = (uint16_t)(image.first + number_at(octets + LOW_ISSUED) - 1);
    if (octets[IS_UNDER_WAY] == 1) read_request(&image, octets, size);
    return image;
}
