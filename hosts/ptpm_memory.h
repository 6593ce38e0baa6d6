/* The library in a block that the host provides, for a device without malloc. Link libptpm_memory.a instead of libptpm.a: it
   has the same calls (ptpm.h), and takes all its memory from the block that ptpm_memory_give names. It calls no malloc, realloc
   or free, only the host's memcpy, memmove and memset. A call that finds too little of the block left returns PTPM_NO_MEMORY,
   as ptpm.h says.

   Only one thread at a time may be in a call that allocates or frees memory, even if the handles differ. The library has no lock.
   These calls are the starts, the restores, the stops, and the three below. For a clock also ptpm_clock_saving, and over eight
   ports ptpm_clock_image_of. For a session ptpm_session_begin, ptpm_session_begin_at, ptpm_session_give_up and
   ptpm_session_receive. For a survey ptpm_survey_receive, and for an asker each call that hands something out. All others
   allocate none, and may run in parallel with handles of their own, including ptpm_clock_handle. */
#ifndef PTPM_MEMORY_H
#define PTPM_MEMORY_H

#include <stdbool.h>
#include <stddef.h>

#ifdef __cplusplus
extern "C" {
#endif

/* What a clock with this many ports, 1 to 64, and managers, 0 to 64, takes from its start or restore on. Up to eight ports take
   as much as one. PTPM_CLOCK_MEMORY is enough for any clock of up to eight ports and sixteen managers. A block that holds only
   clocks with equally many managers needs no more than the sum. Clocks of over eight ports must also have equally many ports.
   They may start and stop in any order. A restore in a live handle has both clocks for a moment. A table of the device's own ids
   (ptpm_clock_relay) takes PTPM_PIECE(10 * ids) more. */
#define PTPM_CLOCK_MEMORY_OF(ports, managers) \
    ((size_t)688 + ((managers) > 0 ? PTPM_PIECE((size_t)(managers) * 2144) : 0) \
     + ((ports) > 8 ? PTPM_OF_MANY_PORTS((size_t)(ports), (size_t)(managers)) : 0))
#define PTPM_OF_MANY_PORTS(ports, managers) \
    (PTPM_PIECE(16 * (ports)) + PTPM_PIECE(160 * (ports)) + (managers) * (PTPM_PIECE(ports) + PTPM_PIECE(80 * (ports))))
#define PTPM_PIECE(octets) (((octets) + 31) / 16 * 16)
#define PTPM_CLOCK_MEMORY 35008

/* What ptpm_clock_saving takes in addition, for a clock of this many ports and with places for this many messages. */
#define PTPM_SAVING_MEMORY_OF(ports, places) \
    ((size_t)1024 + PTPM_PIECE((size_t)(places) * 1476) + ((ports) > 8 ? 5 * PTPM_PIECE(16 * (size_t)(ports)) : 0))

/* The most that a session takes, whatever its requests and their answers are. A restore in a live handle has both sessions for a
   moment. */
#define PTPM_SESSION_MEMORY 7408

/* Enough for an asker, whatever its requests and their answers are. */
#define PTPM_ASKER_MEMORY 13424

/* The most that a survey takes after it has kept this many answers, 1 to 16,384, each with this many octets of dataField. Its
   tables have room for a power of two of answers, and move as they grow. How much of the gaps that they leave is used again
   depends on the answers. */
#define PTPM_SURVEY_MEMORY(answers, octets) \
    (1088 + 130 * PTPM_SURVEY_PLACES(answers) + (size_t)(answers) * (((size_t)(octets) + ((octets) < 1) + 31) / 16 * 16))
#define PTPM_SURVEY_PLACES(answers) \
    ((answers) > 8192 ? (size_t)16384 : (answers) > 4096 ? (size_t)8192 : (answers) > 2048 ? (size_t)4096 : \
     (answers) > 1024 ? (size_t)2048 : (answers) > 512 ? (size_t)1024 : (answers) > 256 ? (size_t)512 : \
     (answers) > 128 ? (size_t)256 : (answers) > 64 ? (size_t)128 : (answers) > 32 ? (size_t)64 : \
     (answers) > 16 ? (size_t)32 : (answers) > 8 ? (size_t)16 : (size_t)8)

/* Gives the library its memory, before the first call that needs some, and again only while no handle holds anything.
   Takes:   size octets, which are the library's from then on. They count from the first multiple of 16, so a block is best
            aligned to that.
   Returns: whether they are the library's now; false if something is held in those that it has, or if they are fewer than 32. */
bool ptpm_memory_give(void *block, size_t size);

/* Reports how much of the block is taken.
   Returns: how many octets, including those that the library keeps for itself. */
size_t ptpm_memory_taken(void);

/* Reports how much of the block was taken at once, at most, since it was given.
   Returns: the most octets. */
size_t ptpm_memory_most_taken(void);

#ifdef __cplusplus
}
#endif

#endif
