/* Values of ids that the clock lacks, and its device gives (--give). The octets of a file are the dataField of the answer to a GET, and
   to a SET that the device has made (--relay). */
#pragma once

#include "options.h"
#include "ptpm.h"
#include "rounds.h"
#include <stdbool.h>
#include <stdint.h>

/* What the device says of a datagram that came in at this clock. That is the value that it is asked for, as its file has
   it now, or the first of these. NULL if it says nothing. A file without a value is said once. What is returned stays until the
   next call. */
const struct ptpm_say *value_to_give(const struct ptpm_clock *clock, struct heard *heard);

/* The port at which a datagram is handed in, whose identity the answer then has. It is the one whose value a GET of this clock asks for, or
   whose id of --relay a SET or COMMAND names. Otherwise it is the one at which it came in. */
uint16_t port_asked(const struct heard *heard);

/* What the device says of a change to which it agrees. For a SET that is the value of its file as it is now, if there is one. What is
   returned stays until the next call. */
const struct ptpm_say *value_by_now(const struct heard *change, const struct ptpm_say *say);

/* After a turn with `value_to_give`: how many messages there are once each port whose value is given answers by itself. */
size_t answer_from_ports(struct ptpm_clock *clock, const struct heard *heard, struct ptpm_sent *places, size_t count);
