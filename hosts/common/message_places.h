/* The places of members in a message, as octets from its beginning. They are in the header of all messages (IEEE 1588-2019, 13.3), in
   the head of a management message (15.4), and in its TLV (15.5). */
#pragma once

#include <stddef.h>
#include <stdint.h>

enum {
    TYPE_AT = 0,                /* messageType, in the lower half of the octet */
    VERSION_AT = 1,             /* versionPTP, in the lower half */
    LENGTH_AT = 2,              /* messageLength */
    DOMAIN_AT = 4,              /* domainNumber */
    SDO_AT = 5,                 /* minorSdoId; majorSdoId is the upper half of the first octet */
    SOURCE_AT = 20,             /* sourcePortIdentity, a clockIdentity */
    SOURCE_PORT_AT = 28,        /* and its portNumber */
    SEQUENCE_AT = 30,           /* sequenceId */
    INTERVAL_AT = 33,           /* logMessageInterval */
    TARGET_AT = 34,             /* targetPortIdentity, a clockIdentity and a portNumber */
    STARTING_HOPS_AT = 44,      /* startingBoundaryHops */
    HOPS_AT = 45,               /* boundaryHops */
    ACTION_AT = 46,             /* actionField, in the lower half */
    TLV_AT = 48,                /* tlvType */
    ID_AT = 52,                 /* managementId */
    FIELD_AT = 54,              /* dataField */
    LEAST_MESSAGE = FIELD_AT    /* how many octets a management message with one TLV has at least */
};

/* How many octets a clockIdentity and a portIdentity have. */
enum { CLOCK_IDENTITY = 8, PORT_IDENTITY = 10 };

/* The clockIdentity of every clock, and the portNumber of every port (15.4.1). */
static const uint8_t every_clock[CLOCK_IDENTITY] = { 0xff, 0xff, 0xff, 0xff, 0xff, 0xff, 0xff, 0xff };
enum { EVERY_PORT = 0xffff };

/* A half of an octet, messageTypes, the actionField of a RESPONSE and of an ACKNOWLEDGE (15.4.1), and the tlvType of a MANAGEMENT_ERROR_STATUS (15.5.4). */
enum { LOWER_HALF = 0x0f, ANNOUNCE_TYPE = 0xb, MANAGEMENT_TYPE = 0xd, RESPONSE = 2, ACKNOWLEDGE = 4, ERROR_TLV = 2 };

/* A number of two octets, the higher one first. */
static inline uint16_t number_at(const uint8_t *at) { return (uint16_t)(at[0] << 8 | at[1]); }

static inline void put_number(uint8_t *at, size_t number) {
    at[0] = (uint8_t)(number >> 8);
    at[1] = (uint8_t)number;
}
