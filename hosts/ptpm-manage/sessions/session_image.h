/* What this program itself reads of a session's image, which the library made (ptpm_session_image). The library decides whether octets are
   one. */
#pragma once

#include <stdbool.h>
#include <stddef.h>
#include <stdint.h>

struct session_image {
    uint8_t manager[8], target[8];              /* clockIdentities */
    uint16_t manager_port, ports;               /* the manager's portNumber, and how many ports the clock has */
    uint16_t first;                             /* the sequenceId of the session's first request */
    uint16_t number;                            /* and of its latest */
    bool is_under_way;                          /* the latest request has no answer yet, and is what follows */
    uint8_t action;
    uint16_t id, port;                          /* the clock's, of an id of a port; else 0 */
    size_t size;
    const uint8_t *octets;                      /* its dataField */
};

/* Reads octets at the places of an image. If there are too few for one, all members are 0. */
struct session_image read_image(const uint8_t *octets, size_t size);
