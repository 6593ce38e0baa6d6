/* An asker of the library is driven: what it hands out is sent, what comes in is handed in, and it is woken in time. What is to be noted
   and saved is its owner's. */
#pragma once

#include "task.h"
#include "transport.h"
#include <stdbool.h>
#include <stdint.h>

struct driver {
    struct ptpm_asker *asker;
    const struct task *task;        /* how often and how long it asks */
    struct ptpm_handed handed;      /* what is to be done next */
    uint16_t number;                /* of the latest message, and how many with it there were */
    int attempt;
    long sent;                      /* messages of the request that went out */
    int64_t now, wake;              /* the time as the asker knows it, and when it is woken */
    int64_t opened;                 /* when a new session was taken: nothing was sent in it since, so its wait began then. 0 if there is none */
    struct way way;                 /* by which the clock's first answer came, if one has: its others count only there */
    bool has_way, is_elsewhere_said;
    bool is_unsent;                 /* nothing of the request left */
    bool is_way_said;               /* that there is no way is said */
};

/* From now on messages of another request, or of a question before it, are counted. */
void begin_driving(struct driver *driver);

/* Drives the asker until there is something for its owner to do: PTPM_NOTE_BEGUN, PTPM_NOTE_ANSWER or PTPM_SAVE_IT, which `handed` has
   too. Or PTPM_FAILED: no answer came, or a signal did. */
uint32_t drive(struct driver *driver);

/* The owner noted it. */
void say_noted(struct driver *driver);

/* The owner saved it; whether the asker rests now. */
bool say_saved(struct driver *driver);

/* Begins a request, or sends the one that an earlier run left again. */
void ask_request(struct driver *driver, uint64_t tag, const struct task *request);
void settle_request(struct driver *driver, uint64_t tag, uint8_t domain);
