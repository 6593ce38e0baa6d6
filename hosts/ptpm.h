/* PTP management (IEEE 1588-2019, clause 15) for a host in C. An agent has the data sets of one clock, and judges each management
   message that comes in at its ports. A session of a manager has one request at a time to one clock. An agent carries each
   request out once, however often it is sent. A survey is one GET to every clock, or to one, and keeps the first answer of each
   port. The library opens no socket, reads no clock and starts no thread. Link libptpm.a or libptpm.so. Both need only the C
   library, and call malloc, realloc and free of the host; libptpm_memory.a calls none of these (ptpm_memory.h). This file is C99,
   C11, C17 and C++17, for gcc and clang.

   The proofs about a call hold for callers that keep these rules:

   - No pointer is null, even if its size is 0 (any valid address will do then), except the handle of a stop. Each pointer is aligned
     as its type requires.
   - The memory that a pointer and its size describe may be read, and written unless it is const. It stays the caller's: the library
     keeps no pointer to it after the call. Output buffers must not overlap other arguments.
   - Only one thread at a time makes calls with a given handle, table or bucket. Calls with different ones may run in parallel.
   - A handle is all zeros before its first call. A start frees what the handle holds, and would free whatever an uninitialised
     handle points to. There is one live copy of a handle. The host may move it, and neither reads nor writes anything inside it.
   - malloc, realloc and free come from one allocator. malloc aligns each block to the greatest power of two up to 16 that divides
     its size. No call is made from a signal handler, or in a forked child of a process with threads.
   - The stack has room for the call. As the library is built for x86-64 and aarch64, most calls take 600 octets. The restore of a
     clock takes 5,600, a start of one and ptpm_rollout_turn 5,200, ptpm_journal_add 4,800, and the restore of an asker 4,600. The
     call ptpm_clock_image_of takes 4,100, ptpm_clock_saving 3,100, ptpm_clock_image 2,800, ptpm_clock_observe 2,600, and
     ptpm_clock_take 2,500. The calls ptpm_clock_decide and ptpm_field_parse take 2,200, ptpm_clock_ask and ptpm_clock_undertake
     1,800, the message of a survey 1,700, and ptpm_rollout_open 1,200. The calls ptpm_clock_set, ptpm_asker_ask and
     ptpm_asker_wake, and the images and the restore of a session, take 1,000. The calls ptpm_clock_handle,
     ptpm_clock_handle_shared and ptpm_journal_next take 800.
     The library as C takes more (docs/embedding.md, "On any other processor"). Besides, a call takes the stack of the host's malloc,
     realloc, free, memcpy, memmove and memset. No call calls itself.

   A call that only reads takes a const handle, and leaves it as it is. If several errors apply, the first is returned. Only
   ptpm_clock_start, and ptpm_clock_restore of a clock of over eight ports, may return PTPM_NO_MEMORY instead. Every other call
   asks for memory only if no other error applies. */
#ifndef PTPM_H
#define PTPM_H

#include <stdbool.h>
#include <stddef.h>
#include <stdint.h>

#ifdef __cplusplus
extern "C" {
#endif

/* The version of this file and of its library: what `ptpm --version` prints. And the same as a number: 10,000 times the first part,
   100 times the second, and the third. */
#define PTPM_VERSION "0.1.0"
#define PTPM_VERSION_NUMBER 100

/* The managementIds of this profile (15.5.2.3, table 59). ptpm_id_named finds an id by its name, and ptpm_id_name gives an id's name. */
enum {
    PTPM_ID_NULL_PTP_MANAGEMENT = 0x0000, PTPM_ID_USER_DESCRIPTION = 0x0002, PTPM_ID_DEFAULT_DATA_SET = 0x2000,
    PTPM_ID_CURRENT_DATA_SET = 0x2001, PTPM_ID_PARENT_DATA_SET = 0x2002, PTPM_ID_TIME_PROPERTIES_DATA_SET = 0x2003,
    PTPM_ID_PORT_DATA_SET = 0x2004, PTPM_ID_PRIORITY1 = 0x2005, PTPM_ID_PRIORITY2 = 0x2006, PTPM_ID_DOMAIN = 0x2007,
    PTPM_ID_SLAVE_ONLY = 0x2008, PTPM_ID_LOG_ANNOUNCE_INTERVAL = 0x2009, PTPM_ID_ANNOUNCE_RECEIPT_TIMEOUT = 0x200a,
    PTPM_ID_LOG_SYNC_INTERVAL = 0x200b, PTPM_ID_VERSION_NUMBER = 0x200c, PTPM_ID_ENABLE_PORT = 0x200d,
    PTPM_ID_DISABLE_PORT = 0x200e, PTPM_ID_CLOCK_ACCURACY = 0x2010, PTPM_ID_UTC_PROPERTIES = 0x2011,
    PTPM_ID_DELAY_MECHANISM = 0x6000, PTPM_ID_LOG_MIN_PDELAY_REQ_INTERVAL = 0x6001
};

/* A struct with numbers of eight octets is at a multiple of eight on every machine. Some compilers would take four. */
#define PTPM_AT_EIGHT __attribute__((__aligned__(8)))

/* A handle has 16 octets on every machine, eight of them for an address. */
#if __SIZEOF_POINTER__ == 8
#define PTPM_TO_EIGHT
#else
#define PTPM_TO_EIGHT uint32_t rest; PTPM_AT_EIGHT
#endif

/* The most ports and managers that a clock has, and the most ids of its device (ptpm_clock_relay). */
enum { PTPM_MOST_PORTS = 64, PTPM_MOST_MANAGERS = 64, PTPM_MOST_IDS = 32 };

/* A clock: one pointer to its memory (ptpm_clock_start). With up to eight ports that is 2,784 octets with one manager, and 34,944
   with sixteen. All zeros hold no clock: struct ptpm_clock clock = { 0 }; */
struct ptpm_clock { void *at; PTPM_TO_EIGHT bool live; bool restored; };

/* The start values of a clock's own members: ptpm_clock_defaults writes them all, then the host writes its own over them.
   A flag is set if it is not 0. Without its has_ flag a member of the grandmaster is the clock's own, and the parent is the
   clock's port 0. An offsetScaledLogVariance is 256 times the base-2 logarithm of the variance in seconds squared, plus 0x8000
   (7.6.3). */
struct ptpm_clock_settings {
    PTPM_AT_EIGHT int64_t offset_from_master; /* in nanoseconds times 2^16 */
    int64_t mean_path_delay;            /* in nanoseconds times 2^16 */
    int32_t observed_rate;              /* observedParentClockPhaseChangeRate */
    uint16_t variance;                  /* offsetScaledLogVariance */
    uint16_t steps_removed;
    uint16_t observed_variance;         /* observedParentOffsetScaledLogVariance */
    uint16_t grandmaster_variance;      /* offsetScaledLogVariance of grandmasterClockQuality */
    uint16_t parent_port_number;
    int16_t utc_offset;                 /* currentUtcOffset: TAI minus UTC, in seconds */
    uint8_t identity[8];                /* neither all ones nor all zeros */
    uint8_t parent_port_clock[8];
    uint8_t grandmaster[8];
    uint8_t domain;
    uint8_t two_step;
    uint8_t priority1;
    uint8_t clock_class;
    uint8_t clock_accuracy;             /* 0x17 to 0x31, or 0xFE */
    uint8_t priority2;
    uint8_t parent_stats;
    uint8_t grandmaster_priority1;
    uint8_t grandmaster_class;
    uint8_t grandmaster_accuracy;
    uint8_t grandmaster_priority2;
    uint8_t leap61;                     /* at most one of the two leaps */
    uint8_t leap59;
    uint8_t utc_valid;
    uint8_t ptp_timescale;
    uint8_t time_traceable;
    uint8_t frequency_traceable;
    uint8_t time_source;
    uint8_t has_parent_port;
    uint8_t has_grandmaster;
    uint8_t has_grandmaster_priority1;
    uint8_t has_grandmaster_class;
    uint8_t has_grandmaster_accuracy;
    uint8_t has_grandmaster_variance;
    uint8_t has_grandmaster_priority2;
    uint8_t user_description_size;      /* at most 128 */
    uint8_t user_description[129];      /* UTF-8 */
};

/* The states of a port (9.2.5), by their numbers as a portState (8.2.15.3.1). */
enum {
    PTPM_STATE_INITIALIZING = 1, PTPM_STATE_FAULTY = 2, PTPM_STATE_DISABLED = 3, PTPM_STATE_LISTENING = 4,
    PTPM_STATE_PRE_MASTER = 5, PTPM_STATE_MASTER = 6, PTPM_STATE_PASSIVE = 7, PTPM_STATE_UNCALIBRATED = 8, PTPM_STATE_SLAVE = 9
};

/* The delay mechanisms of this profile, by their numbers as a delayMechanism (8.2.15.4.4). NONE is the standard's NO_MECHANISM. */
enum { PTPM_DELAY_E2E = 1, PTPM_DELAY_P2P = 2, PTPM_DELAY_NONE = 0xFE };

/* The start values of a port: ptpm_port_defaults writes them all. A member log_.. is the base-2 logarithm of an interval in seconds
   (7.7.2). */
struct ptpm_port_settings {
    PTPM_AT_EIGHT int64_t peer_delay;   /* in nanoseconds times 2^16 */
    uint8_t state;                      /* portState, PTPM_STATE_INITIALIZING to PTPM_STATE_SLAVE */
    int8_t log_min_delay_req;           /* logMinDelayReqInterval */
    int8_t log_announce;                /* logAnnounceInterval, -4 to 4 */
    uint8_t receipt_timeout;            /* announceReceiptTimeout, 2 to 10 announce intervals (7.7.3.1) */
    int8_t log_sync;                    /* logSyncInterval, -8 to 1 */
    uint8_t delay_mechanism;            /* delayMechanism: PTPM_DELAY_E2E, PTPM_DELAY_P2P or PTPM_DELAY_NONE */
    int8_t log_min_pdelay;              /* logMinPdelayReqInterval, -8 to 5 */
};

/* What a host observes about its clock, by its servo, its port state machines and its best master clock algorithm (clause 8.2 of
   IEEE 1588-2019). Start from all zeros, struct ptpm_observed_clock observed = { 0 }; a member without its has_ flag stays. A
   flag is set if it is not 0. A grandmaster is observed as a whole. If is_grandmaster is set, the grandmaster is the clock
   itself, and the members of a grandmaster and of the parent port do not count. Otherwise, if has_grandmaster is set, the
   grandmaster is the one that these members name. If neither is set, the grandmaster stays. A clock that is its own grandmaster
   afterwards shows its observed quality as the grandmaster's. What only managers set can't be observed. Managers may also set
   clock_accuracy, utc_offset, the two leaps and utc_valid: the later value counts. */
struct ptpm_observed_clock {
    PTPM_AT_EIGHT int64_t offset_from_master; /* in nanoseconds times 2^16 */
    int64_t mean_path_delay;            /* in nanoseconds times 2^16 */
    int32_t observed_rate;              /* observedParentClockPhaseChangeRate */
    uint16_t variance;                  /* offsetScaledLogVariance of the clock itself; clock_class and clock_accuracy are the clock's own too */
    uint16_t steps_removed;
    uint16_t observed_variance;         /* observedParentOffsetScaledLogVariance */
    uint16_t grandmaster_variance;      /* offsetScaledLogVariance of grandmasterClockQuality */
    uint16_t parent_port_number;
    int16_t utc_offset;                 /* currentUtcOffset: TAI minus UTC, in seconds */
    uint8_t parent_port_clock[8];
    uint8_t grandmaster[8];
    uint8_t clock_class;
    uint8_t clock_accuracy;             /* 0x17 to 0x31, or 0xFE */
    uint8_t parent_stats;
    uint8_t grandmaster_priority1;
    uint8_t grandmaster_class;
    uint8_t grandmaster_accuracy;
    uint8_t grandmaster_priority2;
    uint8_t leap61;                     /* at most one of the two leaps afterwards */
    uint8_t leap59;
    uint8_t utc_valid;
    uint8_t ptp_timescale;
    uint8_t time_traceable;
    uint8_t frequency_traceable;
    uint8_t time_source;
    uint8_t has_clock_class;
    uint8_t has_clock_accuracy;
    uint8_t has_variance;
    uint8_t has_steps_removed;
    uint8_t has_offset_from_master;
    uint8_t has_mean_path_delay;
    uint8_t has_parent_stats;
    uint8_t has_observed_variance;
    uint8_t has_observed_rate;
    uint8_t is_grandmaster;
    uint8_t has_grandmaster;
    uint8_t has_utc_offset;
    uint8_t has_leap61;
    uint8_t has_leap59;
    uint8_t has_utc_valid;
    uint8_t has_ptp_timescale;
    uint8_t has_time_traceable;
    uint8_t has_frequency_traceable;
    uint8_t has_time_source;
};

/* What a host observes of a port. Only a manager's command enters or leaves state 3, DISABLED. Observing that state at an enabled
   port is refused. A disabled port stays disabled, whatever is observed. A number that is not a portState counts as 3. */
struct ptpm_observed_port {
    PTPM_AT_EIGHT int64_t peer_delay;   /* in nanoseconds times 2^16 */
    uint8_t state;                      /* portState, PTPM_STATE_INITIALIZING to PTPM_STATE_SLAVE */
    uint8_t has_state;
    uint8_t has_peer_delay;
};

enum { PTPM_CLOCK_SET = 1, PTPM_PORT_SET = 2, PTPM_PORT_COMMAND = 4 };

/* Who may change the clock, and what. A manager without rights may read: its requests are numbered, and saved. The library takes
   any value here. But a manager with the clock's own identity is never heard: what it sends is a PTPM_OWN_MESSAGE. And bits of the
   rights other than the three above do not count. So a host whose settings come from people refuses both, as ptpm-clock does. */
struct ptpm_manager_settings {
    uint8_t clock[8];
    uint16_t port;
    uint8_t rights;                     /* a sum of the three above */
};

/* A message, and the port that it is to be sent at. The octets past size stay as they were. */
struct ptpm_sent {
    uint16_t port;
    uint16_t size;
    uint8_t octets[1472];
};

/* An answer, and the port that it is to be sent at (ptpm_clock_handle_shared). The octets past size have no meaning. */
struct ptpm_answer {
    uint16_t port;
    uint16_t size;
    uint8_t octets[184];
};

/* What is sent for a datagram if the datagram itself is forwarded, and not a copy of it (ptpm_clock_handle_shared). */
struct ptpm_shared {
    PTPM_AT_EIGHT uint64_t ports;       /* the ports at which it is forwarded: bit n is port n + 1 */
    uint64_t size;                      /* how many of its octets are forwarded; 0 if none */
    uint64_t count;                     /* how many answers were written */
};

/* Which members a datagram changed: of the clock, and of port 1, port 2 and so on. */
struct ptpm_changed {
    uint32_t clock;                     /* PTPM_CHANGED_IDENTITY to PTPM_CHANGED_TIME_SOURCE, summed up */
    uint8_t ports[64];                  /* PTPM_CHANGED_PORT_STATE to PTPM_CHANGED_PORT_LOG_MIN_PDELAY, summed up */
};

/* Members of a clock, in the order of PTPM_BAD_IDENTITY to PTPM_BAD_TIME_SOURCE. */
enum {
    PTPM_CHANGED_IDENTITY = 1 << 0, PTPM_CHANGED_DOMAIN = 1 << 1, PTPM_CHANGED_USER_DESCRIPTION = 1 << 2,
    PTPM_CHANGED_TWO_STEP = 1 << 3, PTPM_CHANGED_PRIORITY1 = 1 << 4, PTPM_CHANGED_CLOCK_CLASS = 1 << 5,
    PTPM_CHANGED_CLOCK_ACCURACY = 1 << 6, PTPM_CHANGED_VARIANCE = 1 << 7, PTPM_CHANGED_PRIORITY2 = 1 << 8,
    PTPM_CHANGED_STEPS_REMOVED = 1 << 9, PTPM_CHANGED_OFFSET_FROM_MASTER = 1 << 10, PTPM_CHANGED_MEAN_PATH_DELAY = 1 << 11,
    PTPM_CHANGED_PARENT_PORT = 1 << 12, PTPM_CHANGED_PARENT_STATS = 1 << 13, PTPM_CHANGED_OBSERVED_VARIANCE = 1 << 14,
    PTPM_CHANGED_OBSERVED_RATE = 1 << 15, PTPM_CHANGED_GRANDMASTER_PRIORITY1 = 1 << 16,
    PTPM_CHANGED_GRANDMASTER_CLASS = 1 << 17, PTPM_CHANGED_GRANDMASTER_ACCURACY = 1 << 18,
    PTPM_CHANGED_GRANDMASTER_VARIANCE = 1 << 19, PTPM_CHANGED_GRANDMASTER_PRIORITY2 = 1 << 20,
    PTPM_CHANGED_GRANDMASTER = 1 << 21, PTPM_CHANGED_UTC_OFFSET = 1 << 22, PTPM_CHANGED_LEAP61 = 1 << 23,
    PTPM_CHANGED_LEAP59 = 1 << 24, PTPM_CHANGED_UTC_VALID = 1 << 25, PTPM_CHANGED_PTP_TIMESCALE = 1 << 26,
    PTPM_CHANGED_TIME_TRACEABLE = 1 << 27, PTPM_CHANGED_FREQUENCY_TRACEABLE = 1 << 28, PTPM_CHANGED_TIME_SOURCE = 1 << 29
};

/* Members of a port, in the order of PTPM_BAD_STATE to PTPM_BAD_LOG_MIN_PDELAY; each has a second name without PORT. */
enum {
    PTPM_CHANGED_PORT_STATE = 1 << 0, PTPM_CHANGED_PORT_LOG_MIN_DELAY_REQ = 1 << 1, PTPM_CHANGED_PORT_PEER_DELAY = 1 << 2,
    PTPM_CHANGED_PORT_LOG_ANNOUNCE = 1 << 3, PTPM_CHANGED_PORT_RECEIPT_TIMEOUT = 1 << 4, PTPM_CHANGED_PORT_LOG_SYNC = 1 << 5,
    PTPM_CHANGED_PORT_DELAY_MECHANISM = 1 << 6, PTPM_CHANGED_PORT_LOG_MIN_PDELAY = 1 << 7,
    PTPM_CHANGED_STATE = PTPM_CHANGED_PORT_STATE, PTPM_CHANGED_LOG_MIN_DELAY_REQ = PTPM_CHANGED_PORT_LOG_MIN_DELAY_REQ,
    PTPM_CHANGED_PEER_DELAY = PTPM_CHANGED_PORT_PEER_DELAY, PTPM_CHANGED_LOG_ANNOUNCE = PTPM_CHANGED_PORT_LOG_ANNOUNCE,
    PTPM_CHANGED_RECEIPT_TIMEOUT = PTPM_CHANGED_PORT_RECEIPT_TIMEOUT, PTPM_CHANGED_LOG_SYNC = PTPM_CHANGED_PORT_LOG_SYNC,
    PTPM_CHANGED_DELAY_MECHANISM = PTPM_CHANGED_PORT_DELAY_MECHANISM,
    PTPM_CHANGED_LOG_MIN_PDELAY = PTPM_CHANGED_PORT_LOG_MIN_PDELAY
};

/* What came of a datagram (ptpm_clock_take). */
struct ptpm_taken {
    PTPM_AT_EIGHT uint64_t count;       /* how many messages were written */
    uint64_t waiting;                   /* how many more wait until the clock is saved (ptpm_clock_next) */
    struct ptpm_changed changed;        /* the members that the datagram changed */
};

/* What a device is asked (ptpm_clock_ask): to carry out a SET or a COMMAND, or for the value of a GET. All zeros: nothing. */
struct ptpm_question {
    uint8_t manager[8];                 /* sourcePortIdentity of the request: the clock, and the port */
    uint16_t manager_port;
    uint16_t number;                    /* sequenceId */
    uint16_t id;                        /* managementId */
    uint16_t port;                      /* portNumber of the target; 0xFFFF is every port */
    uint16_t size;                      /* of the dataField of a SET or COMMAND; 0 for a GET */
    uint8_t action;                     /* PTPM_GET, PTPM_SET or PTPM_COMMAND */
    uint8_t octets[130];                /* this dataField, and zeros after it */
};

/* What a device says of a request. Any other kind is refused with PTPM_BAD_SAY. */
enum { PTPM_AGREES = 0, PTPM_OBJECTS = 1, PTPM_GIVES = 2 };

/* The errors that a device may give (15.5.4.3). */
enum {
    PTPM_ERROR_WRONG_VALUE = 4, PTPM_ERROR_NOT_SETABLE = 5, PTPM_ERROR_NOT_SUPPORTED = 6, PTPM_ERROR_GENERAL_ERROR = 0xFFFE
};

/* What a device says of a datagram (ptpm_clock_take). All zeros: it agrees, or has nothing to say. */
struct ptpm_say {
    uint16_t error;                     /* with PTPM_OBJECTS: one of the four */
    uint16_t size;                      /* with PTPM_GIVES: of the dataField, even, and 1,418 at most */
    uint8_t kind;                       /* PTPM_AGREES, PTPM_OBJECTS or PTPM_GIVES */
    uint8_t octets[1418];               /* with PTPM_GIVES: the dataField */
};

/* The values that a device's hardware has for an id at a port (ptpm_limits_say). They are values of the first octet of the
   dataField of a SET. Value n is bit n % 8 of values[n / 8]. A log_.. of -8 is value 0xF8. */
struct ptpm_limit {
    uint16_t id;                        /* managementId */
    uint16_t port;                      /* portNumber; 0xFFFF is every port */
    uint8_t values[32];                 /* ptpm_limit_range writes them. All zeros: no value */
};

/* An id that the clock lacks and its device has (ptpm_clock_relay): which SETs and COMMANDs of it reach the device. */
enum { PTPM_OF_CLOCK = 0, PTPM_OF_PORT = 1, PTPM_MAY_SET = 2, PTPM_MAY_COMMAND = 4 };
struct ptpm_relayed_id {
    uint16_t id;                        /* managementId: none of the 21 that the clock knows */
    uint8_t scope;                      /* PTPM_OF_CLOCK or PTPM_OF_PORT */
    uint8_t actions;                    /* PTPM_MAY_SET, PTPM_MAY_COMMAND, or their sum */
    uint8_t right;                      /* what a manager needs: rights of ptpm_manager_settings, summed up, no other bit. 0: none */
    uint16_t least;                     /* how many octets its dataField has at least */
    uint16_t most;                      /* and at most: 130 or fewer */
};

/* A session of a manager: one pointer to its memory, about 1,600 octets. All zeros hold no session. */
struct ptpm_session { void *at; PTPM_TO_EIGHT bool live; bool restored; };

/* One manager, the clock that it manages, and how its requests are numbered and sent. A clock treats a request as new if its
   number is up to 32,767 ahead of the latest that it accepted from this manager. So a manager that starts again continues with
   the number after the last that it began. */
struct ptpm_session_settings {
    uint16_t port;                      /* portNumber of the manager */
    uint16_t target_ports;              /* how many ports the managed clock has at most, 1 to 255 */
    uint16_t first;                     /* the sequenceId of the first request */
    uint8_t clock[8];                   /* clockIdentity of the manager, not all ones */
    uint8_t target[8];                  /* clockIdentity of the managed clock: not the manager's, and neither all ones nor all zeros */
    uint8_t domain;
    uint8_t hops;                       /* startingBoundaryHops of each request */
    uint8_t attempts;                   /* how often a request may be sent before it is given up */
};

/* What a clock may be asked for: the actionField of a request. */
enum { PTPM_GET = 0, PTPM_SET = 1, PTPM_COMMAND = 3 };

/* A survey of a manager: one pointer to what it asks and its answers. All zeros hold no survey. */
struct ptpm_survey { void *at; PTPM_TO_EIGHT bool live; bool restored; };

/* One manager, and the GET that it sends to every port of every clock, or of one clock. A GET to every clock is answered whatever its
   number is. A late answer to an earlier GET with the same number and id counts for this survey. So choose a number that no
   message still on its way has. No session may have the same portIdentity. Port 0 stands for PTPM_SURVEY_PORT, which no session should
   have. */
struct ptpm_survey_settings {
    uint16_t port;                      /* portNumber of the manager; 0 for PTPM_SURVEY_PORT */
    uint16_t number;                    /* sequenceId */
    uint16_t id;                        /* managementId */
    uint8_t clock[8];                   /* clockIdentity of the manager, not all ones */
    uint8_t domain;
    uint8_t hops;                       /* startingBoundaryHops */
};

/* An asker: one pointer to a session and what is to be sent, saved and noted next, about 1,900 octets. All zeros hold no asker. */
struct ptpm_asker { void *at; PTPM_TO_EIGHT bool live; bool restored; };

/* The session of an asker, and how long it waits. Times are in milliseconds, from any moment on, and never go back. */
struct ptpm_asker_settings {
    struct ptpm_session_settings session;   /* `domain` is not read. `first`, drawn at random, counts only without a file */
    uint16_t nobody;                    /* the portNumber of its anonymous reads: one that no manager has, from 61440 on */
    uint32_t timeout;                   /* how long an answer is waited for before a request is sent again */
    uint32_t wait;                      /* how long a new session waits: longer than any copy of a message is on its way */
};

/* What an asker hands out: what its host does next, and then reports. */
struct ptpm_handed {
    uint64_t tag;                       /* the tag that the host gave its request: after PTPM_NOTE_BEGUN and PTPM_NOTE_ANSWER */
    uint64_t time;                      /* when to wake the asker: after PTPM_SEND_IT, PTPM_SEND_READ and PTPM_WAIT */
    uint32_t what;                      /* one of the names below */
    uint16_t number;                    /* the sequenceId of the request: after PTPM_NOTE_BEGUN and PTPM_NOTE_ANSWER */
    bool was_sent;                      /* after PTPM_FAILED: whether a message of the request left */
    bool is_read_answered;              /* after PTPM_FAILED: whether the clock answered an anonymous read */
};

/* What an asker hands out. After PTPM_NOTE_BEGUN, PTPM_SAVE_IT and PTPM_NOTE_ANSWER it hands out nothing else before the host has done that. */
enum {
    PTPM_NOTHING = 0,
    PTPM_NOTE_BEGUN = 1,                /* note that this request is begun, and then call ptpm_asker_noted */
    PTPM_SAVE_IT = 2,                   /* save the session's image, and then call ptpm_asker_saved */
    PTPM_SEND_IT = 3,                   /* send the message */
    PTPM_SEND_READ = 4,                 /* send the message; it is an anonymous read, from the port `nobody` */
    PTPM_WAIT = 5,
    PTPM_NOTE_ANSWER = 6,               /* note what the report says, and then call ptpm_asker_noted */
    PTPM_FAILED = 7                     /* there is no answer */
};

/* The journal of a change of several clocks: its steps, and what became of each, some 50 octets a step. All zeros hold no journal. */
struct ptpm_journal { void *at; PTPM_TO_EIGHT bool live; bool restored; };

/* A record of a journal. A member that its kind lacks is not read, and is written as 0. Steps count from 0. */
struct ptpm_journal_record {
    PTPM_AT_EIGHT uint64_t time;        /* of PTPM_RECORD_BEGUN to PTPM_RECORD_END: in seconds since 1970 */
    uint32_t first;                     /* the first group of octets begins at this octet of what ptpm_journal_next was given */
    uint32_t second;                    /* the same for the second group; ptpm_journal_add ignores both places and both sizes */
    uint16_t first_size;
    uint16_t second_size;
    uint16_t count;                     /* PTPM_RECORD_HEAD: how many steps there are */
    uint16_t port;                      /* PTPM_RECORD_HEAD: the manager's; PTPM_RECORD_STEP: the host's choice */
    uint16_t id;                        /* PTPM_RECORD_STEP: the managementId that is set */
    uint16_t step;                      /* PTPM_RECORD_BEGUN to PTPM_RECORD_TOLD; PTPM_RECORD_END: at which the change ended, or PTPM_NO_STEP */
    uint16_t number;                    /* PTPM_RECORD_BEGUN: the sequenceId */
    uint16_t error;                     /* PTPM_RECORD_TOLD: the managementErrorId of a refusal */
    uint8_t clock[8];                   /* PTPM_RECORD_HEAD: the manager's; PTPM_RECORD_STEP: the one that is changed */
    uint8_t kind;                       /* one of the names below */
    uint8_t flags;                      /* PTPM_RECORD_HEAD and PTPM_RECORD_POLICY: the sum of flags */
    uint8_t together;                   /* PTPM_RECORD_HEAD and PTPM_RECORD_POLICY: how many clocks are asked side by side */
    uint8_t domain;                     /* PTPM_RECORD_STEP */
    uint8_t group;                      /* PTPM_RECORD_STEP: the group of the plan, from 1 to 6 */
    uint8_t what;                       /* PTPM_RECORD_TOLD: the outcome; PTPM_RECORD_END: the ending; PTPM_RECORD_TEXT: the host's choice */
    uint8_t zero[2];
};

/* The kinds of records. Two of them have two groups of octets, and two have one. */
enum {
    PTPM_RECORD_HEAD = 1,               /* comes first; the change's name, and that of the one that it rolls back: 255 octets each at most */
    PTPM_RECORD_STEP = 2,               /* these come next; the dataField before, and the one that is set: 4,096 octets each at most */
    PTPM_RECORD_BEGUN = 3,              /* a message of the step may leave from now on */
    PTPM_RECORD_NOT_BEGUN = 4,          /* no message of the step left after all */
    PTPM_RECORD_LET_GO = 5,             /* the step is given up: no run sends it again */
    PTPM_RECORD_TOLD = 6,               /* the step is answered; the dataField of the answer: 4,096 octets at most */
    PTPM_RECORD_POLICY = 7,             /* the flags and `together` from here on */
    PTPM_RECORD_END = 8,                /* nothing comes after it */
    PTPM_RECORD_TEXT = 9                /* a text of the host: 4,096 octets at most */
};

/* The flags of a journal. PTPM_KEEPS_GOING: if one clock fails, the change goes on at others. PTPM_IN_ONE_ROW: no step begins before all
   earlier steps are done. */
enum { PTPM_KEEPS_GOING = 1, PTPM_IN_ONE_ROW = 2 };

/* The outcome of a step (ANSWERED: by a different value); how a change ends; and the number for no step. */
enum { PTPM_STEP_DONE = 1, PTPM_STEP_REFUSED = 2, PTPM_STEP_ANSWERED = 3 };
enum {
    PTPM_END_COMPLETE = 1, PTPM_END_REFUSED = 2, PTPM_END_ANSWERED = 3, PTPM_END_CHANGED = 4, PTPM_END_GIVEN_UP = 5,
    PTPM_END_ROLLED_BACK = 6, PTPM_END_STOPPED = 7, PTPM_END_IN_PART = 8
};
enum { PTPM_NO_STEP = 65535 };

/* What a journal says of a step. */
enum {
    PTPM_MARK_UNTOUCHED = 0, PTPM_MARK_BEGUN = 1, PTPM_MARK_DONE = 2, PTPM_MARK_REFUSED = 3, PTPM_MARK_ANSWERED = 4, PTPM_MARK_LET_GO = 5,
    PTPM_MARK_NONE = 6                  /* there is no such step */
};

/* A change of several clocks, as it goes on from its journal. A lane is one of its clocks: the lanes are in the order of the
   clockIdentities. All zeros hold none. */
struct ptpm_rollout { void *at; PTPM_TO_EIGHT bool live; bool restored; };

/* How a change goes on: it stops where a step fails, goes on at other clocks, or is given up, which sends nothing.
   PTPM_SETTLE_ALONE only completes the step that an earlier run left without an answer, before a rollback. */
enum { PTPM_STOP_AT_FAILURE = 0, PTPM_KEEP_GOING = 1, PTPM_GIVE_UP = 2, PTPM_SETTLE_ALONE = 3 };

/* The outcome of an action. A member that its kind lacks is not read. */
struct ptpm_rollout_event {
    PTPM_AT_EIGHT uint64_t time;        /* in seconds since 1970, for what is noted */
    uint32_t what;                      /* one of the names below */
    uint16_t number;                    /* PTPM_EVENT_BEGINS: the sequenceId */
    uint16_t error;                     /* PTPM_EVENT_REFUSED: the managementErrorId */
};

enum {
    PTPM_EVENT_BEGIN = 0,               /* the first */
    PTPM_EVENT_FOUND = 1,               /* to PTPM_DO_LOOK: the octets are what the session's file has; none without a file */
    PTPM_EVENT_BEGINS = 2,              /* to PTPM_DO_ASK: the asker handed out PTPM_NOTE_BEGUN */
    PTPM_EVENT_UNSENT = 3,              /* the asker failed, and no message of the step left in this run */
    PTPM_EVENT_VALUE = 4,               /* the clock answered: the octets are the dataField */
    PTPM_EVENT_REFUSED = 5,
    PTPM_EVENT_SILENT = 6,              /* there was no answer */
    PTPM_EVENT_DONE = 7,                /* the action is done; what it writes is on the disk */
    PTPM_EVENT_PASSES = 8,              /* to PTPM_DO_CHECK: the change goes on */
    PTPM_EVENT_STOPS = 9,               /* to PTPM_DO_CHECK: it does not */
    PTPM_EVENT_NOT_WRITTEN = 10,        /* a file could not be written; to any action */
    PTPM_EVENT_INTERRUPTED = 11         /* the host ends; to any action */
};

/* What the host does next. */
struct ptpm_rollout_action {
    uint32_t what;                      /* one of the names below */
    uint16_t lane;
    uint16_t step;                      /* PTPM_NO_STEP if there is none */
    uint8_t domain;                     /* PTPM_DO_SETTLE, PTPM_DO_READ */
    uint8_t ending;                     /* PTPM_DO_END: how the change ended, or 0 if it is open */
    uint8_t why;                        /* PTPM_DO_END of an open change: why it is open */
    uint8_t zero;
};

enum {
    PTPM_DO_LOOK = 1,                   /* hand in what the file of the lane's session has */
    PTPM_DO_SETTLE = 2,                 /* send again what an earlier run left, or, if step is PTPM_NO_STEP, what another program left */
    PTPM_DO_LET_GO = 3,                 /* give up what is under way in the session, and save that */
    PTPM_DO_READ = 4,                   /* read the member of the step in this domain, from the port `nobody` */
    PTPM_DO_CHECK = 5,                  /* say whether the change goes on: its next step is at a further clock */
    PTPM_DO_ASK = 6,                    /* ask the step */
    PTPM_DO_NOTE = 7,                   /* append the record to the journal's file, and synchronize it */
    PTPM_DO_GO_ON = 8,                  /* the note is made: call ptpm_asker_noted, and do what it hands out */
    PTPM_DO_LEAVE = 9,                  /* no step of the lane is to come */
    PTPM_DO_END = 10                    /* it is over */
};

/* Why a change stays open. */
enum {
    PTPM_OPEN_SILENT = 1,               /* an answer is missing */
    PTPM_OPEN_UNKNOWN = 2,              /* another program used the session of an unanswered step, or the session's file is gone */
    PTPM_OPEN_NOT_WRITTEN = 3,
    PTPM_OPEN_INTERRUPTED = 4,
    PTPM_OPEN_SETTLED = 5               /* it was opened with PTPM_SETTLE_ALONE, and nothing of it is uncertain */
};

/* What an earlier run left under way. */
enum { PTPM_NOTHING_LEFT = 0, PTPM_QUESTION_LEFT = 1, PTPM_GET_LEFT = 2, PTPM_CHANGE_LEFT = 3 };

/* What ptpm_number_named returns if no number has the name. */
enum { PTPM_NO_NUMBER = 65536 };

#undef PTPM_TO_EIGHT

/* The port that gave an answer. */
struct ptpm_source {
    uint8_t clock[8];
    uint16_t port;
};

/* Which messages were forwarded last, 4,096 at most, about 197,000 octets. All zeros record none. The host draws a seed, so
   that nobody else can predict where a message is recorded. It writes nothing else inside. */
struct ptpm_passed_on {
    PTPM_AT_EIGHT uint64_t seed;
    uint64_t places[4096][6];
};

/* A bucket of tokens: N per second, and at most those of one second at once. ptpm_rate_start makes it. The host writes nothing
   inside it. */
struct ptpm_rate {
    PTPM_AT_EIGHT uint64_t rate;        /* tokens per second */
    uint64_t left;                      /* thousandths of a token */
    uint64_t time;                      /* the latest time at which it was asked, in milliseconds */
};

/* No compiler flag may lay a struct out differently from the library. If one does, the compiler refuses an array with the name
   of the struct, since its size is negative. C99 has no static assertion. */
#define PTPM_HAS_SIZE(name, size) typedef char name##_is_laid_out_otherwise[sizeof(struct name) == (size) ? 1 : -1]
PTPM_HAS_SIZE(ptpm_clock, 16);
PTPM_HAS_SIZE(ptpm_clock_settings, 216);
PTPM_HAS_SIZE(ptpm_port_settings, 16);
PTPM_HAS_SIZE(ptpm_observed_clock, 88);
PTPM_HAS_SIZE(ptpm_observed_port, 16);
PTPM_HAS_SIZE(ptpm_manager_settings, 12);
PTPM_HAS_SIZE(ptpm_sent, 1476);
PTPM_HAS_SIZE(ptpm_answer, 188);
PTPM_HAS_SIZE(ptpm_shared, 24);
PTPM_HAS_SIZE(ptpm_changed, 68);
PTPM_HAS_SIZE(ptpm_taken, 88);
PTPM_HAS_SIZE(ptpm_question, 150);
PTPM_HAS_SIZE(ptpm_say, 1424);
PTPM_HAS_SIZE(ptpm_limit, 36);
PTPM_HAS_SIZE(ptpm_relayed_id, 10);
PTPM_HAS_SIZE(ptpm_session, 16);
PTPM_HAS_SIZE(ptpm_session_settings, 26);
PTPM_HAS_SIZE(ptpm_survey, 16);
PTPM_HAS_SIZE(ptpm_survey_settings, 16);
PTPM_HAS_SIZE(ptpm_source, 10);
PTPM_HAS_SIZE(ptpm_passed_on, 196616);
PTPM_HAS_SIZE(ptpm_rate, 24);
PTPM_HAS_SIZE(ptpm_asker, 16);
PTPM_HAS_SIZE(ptpm_asker_settings, 36);
PTPM_HAS_SIZE(ptpm_handed, 24);
PTPM_HAS_SIZE(ptpm_journal, 16);
PTPM_HAS_SIZE(ptpm_journal_record, 48);
PTPM_HAS_SIZE(ptpm_rollout, 16);
PTPM_HAS_SIZE(ptpm_rollout_event, 16);
PTPM_HAS_SIZE(ptpm_rollout_action, 12);
#undef PTPM_HAS_SIZE

/* Maxima. */
enum {
    PTPM_MOST_SENT = 15,                /* messages that a clock of up to eight ports sends for a datagram */
    PTPM_MOST_READ = 130,               /* octets of a dataField that a clock itself has */
    PTPM_MOST_OCTETS = 1472,            /* octets of a message, its dataField included */
    PTPM_SESSION_IMAGE_OCTETS = 1478,   /* octets of a session's image */
    PTPM_CLOCK_IMAGE_OCTETS = 27385     /* octets of the image of a clock of up to eight ports and sixteen managers */
};

/* The most messages that a clock with this number of ports sends for a datagram. The most octets of the image of a clock with these
   numbers of ports and of managers. */
#define PTPM_MOST_SENT_OF(ports) (2 * (ports) - 1)
#define PTPM_CLOCK_IMAGE_BOUND(ports, managers) (417 + 15 * (ports) + (managers) * (1438 + 30 * ((ports) > 8 ? (ports) : 8)))

/* The most octets of a record of a journal. */
enum { PTPM_RECORD_OCTETS = 8221 };

/* How many octets a seal has. It comes after an image. */
enum { PTPM_SEAL_OCTETS = 16 };

/* The most ports whose answers a survey keeps. The portNumber that a survey has if its host gives none. */
enum { PTPM_MOST_ANSWERS = 16384, PTPM_SURVEY_PORT = 65534 };

/* What calls return. 0 says that the call was done. 1 to 31 say what became of a datagram or of a request. From 32 on the call was
   refused (ptpm_is_refusal). 48 to 63 say why nothing starts, or an observation is refused. 64 to 101 say which member is out of
   its range. 104 to 110 say why a restore is refused. 112 says that a request can't be given up. 113 to 117 say why words are not a
   dataField. 118 and 119 say that something is not saved. 120 says that a handle holds no asker. 121 says that the library refuses
   what a device says. 123 and 124 say that a change of the device is under way, or none. 126 to 132 say why a record of a journal, or
   an event of a rollout, is refused. 133 to 138 say why a table of ids is refused.

   Each kind of call has a type for its answers. With -Wenum-compare gcc, g++ and clang++ warn if an answer is compared with a
   name of a different kind. A name that several kinds of calls return is a plain number, and compares with each type. Each type has
   it again with the kind in front, such as PTPM_HANDLE_NO_CLOCK for PTPM_NO_CLOCK, so that -Wswitch and debuggers know it. A
   uint32_t holds any answer. */

/* From now on a clock shows no change before it is saved (ptpm_clock_saving). */
#define PTPM_SAVING 0

/* A datagram belongs to another domain. */
#define PTPM_OTHER_DOMAIN 1

/* Why a session or a survey ignores a datagram. It also ignores other domains, and what is not a management message. */
#define PTPM_NOT_A_REPLY 10             /* its action is neither RESPONSE nor ACKNOWLEDGE */
#define PTPM_OTHER_TARGET 11            /* its targetPortIdentity is not that of the manager */
#define PTPM_OTHER_SOURCE 12            /* it is from another clock, or from a different port than the one asked */
#define PTPM_OTHER_NUMBER 14            /* its sequenceId is not that of the request */
#define PTPM_OTHER_CONTENT 15           /* it has another managementId, or its action answers no request of this action */

/* Why a datagram holds no management message of this profile. The first that holds is returned, in this order. */
#define PTPM_TOO_SHORT 16               /* it has under 54 octets */
#define PTPM_NOT_MANAGEMENT 17          /* its messageType is not 0xD */
#define PTPM_BAD_VERSION 18             /* its versionPTP is not 2 */
#define PTPM_BAD_LENGTH 19              /* its messageLength is under 54, over 1,472, or over the size of the datagram */
#define PTPM_BAD_ACTION 20              /* its actionField is over 4 */
#define PTPM_BAD_TLV_TYPE 21            /* its tlvType is not MANAGEMENT, nor MANAGEMENT_ERROR_STATUS in an answer */
#define PTPM_BAD_TLV_LENGTH 22          /* its lengthField is odd or too small, or its TLV ends before or after the message */
#define PTPM_BAD_TEXT 23                /* the displayData of its error status is not a PTPText */

/* Why nothing changed. */
#define PTPM_NO_CLOCK 32                /* the handle holds none; or the call is only for clocks that save, or that do not (ptpm_clock_saving) */
#define PTPM_NO_PORT 33                 /* the clock lacks the port */
#define PTPM_NO_ROOM 34                 /* the host gives too few places, or too few octets */
#define PTPM_NO_MEMORY 35
#define PTPM_NO_SESSION 37              /* the handle holds none */
#define PTPM_IDLE 43                    /* no request is unanswered */
#define PTPM_NO_SURVEY 46               /* the handle holds none */
#define PTPM_NO_ASKER 120               /* the handle holds none */
#define PTPM_NO_JOURNAL 126             /* the handle holds none */
#define PTPM_NO_ROLLOUT 130             /* the handle holds none */
#define PTPM_OTHER_SIZES 47             /* a struct of the caller has a different size than the library's */
#define PTPM_GRANDMASTER_DIFFERS 50     /* a clock is its own grandmaster, with another priority or quality */
#define PTPM_TOO_MANY_MANAGERS 51       /* over PTPM_MOST_MANAGERS */
#define PTPM_MANAGER_TWICE 52           /* a manager is given twice; or `nobody` of an asker is its manager's port */
#define PTPM_IDENTITY_IS_ZERO 56        /* the clock's identity is all zeros */
#define PTPM_UNSAVED 118                /* the clock is not saved, and this call needs a save first */
#define PTPM_UNDER_WAY 123              /* a change of the device is under way, and this call has to wait for ptpm_clock_decide */
#define PTPM_BAD_CLOCK_ACCURACY 70
#define PTPM_BAD_LEAP59 88              /* both leaps are set */
#define PTPM_BAD_STATE 94

/* A type of answers has four octets, as in the library, even if -fshort-enums would give it one. In C, clang accepts the form of C++
   after __extension__. */
#if defined(__cplusplus) || defined(__clang__)
#define PTPM_FOUR_OCTETS(name) name : uint32_t
#else
#define PTPM_FOUR_OCTETS(name) __attribute__((__mode__(__SI__))) name
#endif

/* The starts. A session is refused with PTPM_MANAGER_IS_EVERY, PTPM_TARGET_IS_EVERY, PTPM_SAME_CLOCK, PTPM_NO_PORTS,
   PTPM_TOO_MANY_PORTS, PTPM_TARGET_IS_ZERO or PTPM_NO_MEMORY, in this order. A survey of every clock is refused with the first or
   the last of these. A survey of one clock is refused with any of them except the two about ports. An asker is refused as a
   session is, and with PTPM_MANAGER_TWICE before PTPM_NO_MEMORY if `nobody` is the manager's port. A clock is refused with
   PTPM_NO_PORTS, PTPM_TOO_MANY_PORTS, PTPM_NO_MEMORY or one of the other names below. PTPM_IDENTITY_IS_ZERO is judged last, and
   PTPM_OTHER_SIZES before all others, but only by ptpm_clock_start_sized and the like. */
__extension__ enum PTPM_FOUR_OCTETS(ptpm_started) {
    PTPM_STARTED = 0,
    PTPM_START_NO_MEMORY = PTPM_NO_MEMORY,
    PTPM_START_OTHER_SIZES = PTPM_OTHER_SIZES,
    PTPM_NO_PORTS = 48,
    PTPM_TOO_MANY_PORTS = 49,           /* of a clock over PTPM_MOST_PORTS, of a session over 255 */
    PTPM_START_GRANDMASTER_DIFFERS = PTPM_GRANDMASTER_DIFFERS,
    PTPM_START_TOO_MANY_MANAGERS = PTPM_TOO_MANY_MANAGERS,
    PTPM_START_MANAGER_TWICE = PTPM_MANAGER_TWICE,
    PTPM_MANAGER_IS_EVERY = 53,         /* the manager's identity is all ones */
    PTPM_TARGET_IS_EVERY = 54,          /* the managed clock's identity is all ones */
    PTPM_SAME_CLOCK = 55,               /* the managed clock has the manager's identity */
    PTPM_START_IDENTITY_IS_ZERO = PTPM_IDENTITY_IS_ZERO,
    PTPM_TARGET_IS_ZERO = 57,           /* the managed clock's identity is all zeros */
    PTPM_BAD_IDENTITY = 64,             /* a member is out of its range, here and below */
    PTPM_BAD_USER_DESCRIPTION = 66,
    PTPM_START_BAD_CLOCK_ACCURACY = PTPM_BAD_CLOCK_ACCURACY,
    PTPM_START_BAD_LEAP59 = PTPM_BAD_LEAP59,
    PTPM_START_BAD_STATE = PTPM_BAD_STATE,
    PTPM_BAD_LOG_ANNOUNCE = 97,
    PTPM_BAD_RECEIPT_TIMEOUT = 98,
    PTPM_BAD_LOG_SYNC = 99,
    PTPM_BAD_DELAY_MECHANISM = 100,
    PTPM_BAD_LOG_MIN_PDELAY = 101
};

/* The members that are never out of range, since every value of their types is in range. No call returns these names;
   ptpm_answer_name knows them. */
enum {
    PTPM_BAD_DOMAIN = 65, PTPM_BAD_TWO_STEP = 67, PTPM_BAD_PRIORITY1, PTPM_BAD_CLOCK_CLASS, PTPM_BAD_VARIANCE = 71,
    PTPM_BAD_PRIORITY2, PTPM_BAD_STEPS_REMOVED, PTPM_BAD_OFFSET_FROM_MASTER, PTPM_BAD_MEAN_PATH_DELAY, PTPM_BAD_PARENT_PORT,
    PTPM_BAD_PARENT_STATS, PTPM_BAD_OBSERVED_VARIANCE, PTPM_BAD_OBSERVED_RATE, PTPM_BAD_GRANDMASTER_PRIORITY1,
    PTPM_BAD_GRANDMASTER_CLASS, PTPM_BAD_GRANDMASTER_ACCURACY, PTPM_BAD_GRANDMASTER_VARIANCE, PTPM_BAD_GRANDMASTER_PRIORITY2,
    PTPM_BAD_GRANDMASTER, PTPM_BAD_UTC_OFFSET, PTPM_BAD_LEAP61, PTPM_BAD_UTC_VALID = 89, PTPM_BAD_PTP_TIMESCALE,
    PTPM_BAD_TIME_TRACEABLE, PTPM_BAD_FREQUENCY_TRACEABLE, PTPM_BAD_TIME_SOURCE, PTPM_BAD_LOG_MIN_DELAY_REQ = 95,
    PTPM_BAD_PEER_DELAY
};

/* ptpm_clock_handle, _take, _decide and _saving. The last returns only PTPM_SAVING, PTPM_NO_CLOCK, PTPM_NO_ROOM and PTPM_NO_MEMORY,
   and the others never PTPM_SAVING or PTPM_NO_MEMORY. */
__extension__ enum PTPM_FOUR_OCTETS(ptpm_handled) {
    PTPM_HANDLE_OTHER_DOMAIN = PTPM_OTHER_DOMAIN,
    PTPM_OWN_MESSAGE = 2,               /* the clock sent it */
    PTPM_NOT_ADDRESSED = 3,             /* it is for other clocks */
    PTPM_NOT_A_REQUEST = 4,             /* it is an answer */
    PTPM_ANSWERED_NEW = 5,              /* a new request from a manager */
    PTPM_ANSWERED_REPEAT = 6,           /* the latest request of a manager again */
    PTPM_DROPPED_OLD = 7,               /* a manager's request older than its latest */
    PTPM_DROPPED_CONFLICT = 8,          /* another request with the number of the manager's latest */
    PTPM_ANSWERED_UNNUMBERED = 9,       /* a request from anyone else, or to every clock */
    PTPM_HANDLE_TOO_SHORT = PTPM_TOO_SHORT,
    PTPM_HANDLE_NOT_MANAGEMENT = PTPM_NOT_MANAGEMENT,
    PTPM_HANDLE_BAD_VERSION = PTPM_BAD_VERSION,
    PTPM_HANDLE_BAD_LENGTH = PTPM_BAD_LENGTH,
    PTPM_HANDLE_BAD_ACTION = PTPM_BAD_ACTION,
    PTPM_HANDLE_BAD_TLV_TYPE = PTPM_BAD_TLV_TYPE,
    PTPM_HANDLE_BAD_TLV_LENGTH = PTPM_BAD_TLV_LENGTH,
    PTPM_HANDLE_BAD_TEXT = PTPM_BAD_TEXT,
    PTPM_HANDLE_NO_CLOCK = PTPM_NO_CLOCK,
    PTPM_HANDLE_NO_PORT = PTPM_NO_PORT,
    PTPM_HANDLE_NO_ROOM = PTPM_NO_ROOM, /* room is smaller than ptpm_clock_most_sent */
    PTPM_HANDLE_NO_MEMORY = PTPM_NO_MEMORY,
    PTPM_HANDLE_UNSAVED = PTPM_UNSAVED,
    PTPM_BAD_SAY = 121,                 /* *say is of an unknown kind, has an error that no device gives, or gives what can't be a dataField */
    PTPM_HANDLE_UNDER_WAY = PTPM_UNDER_WAY, /* ptpm_clock_take */
    PTPM_NOTHING_UNDER_WAY = 124        /* ptpm_clock_decide */
};

/* ptpm_clock_relay. The number of ids is judged first. Then each id is judged in turn, by the five refusals after PTPM_TOO_MANY_IDS. */
__extension__ enum PTPM_FOUR_OCTETS(ptpm_relaying) {
    PTPM_RELAYING = 0,
    PTPM_RELAY_NO_CLOCK = PTPM_NO_CLOCK,
    PTPM_TOO_MANY_IDS = 133,            /* over PTPM_MOST_IDS */
    PTPM_CLOCK_HAS_ID = 134,            /* the clock knows the id */
    PTPM_RELAYED_TWICE = 135,
    PTPM_BAD_SCOPE = 136,
    PTPM_BAD_ACTIONS = 137,             /* neither PTPM_MAY_SET nor PTPM_MAY_COMMAND, or another action */
    PTPM_BAD_SIZES = 138,               /* least is over most, or most is over 130 */
    PTPM_RELAY_NO_MEMORY = PTPM_NO_MEMORY
};

/* ptpm_clock_ask, _undertake and _under_way. Only the second returns the last two. */
__extension__ enum PTPM_FOUR_OCTETS(ptpm_asking) {
    PTPM_ASKED_NOTHING = 0,
    PTPM_ASKED_CHANGE = 29,             /* a manager's new SET or COMMAND, which nobody but the device may still refuse */
    PTPM_ASKED_VALUE = 30,              /* a GET that would be answered, of an id that the clock lacks */
    PTPM_ASKING_NO_CLOCK = PTPM_NO_CLOCK,
    PTPM_ASKING_NO_PORT = PTPM_NO_PORT,
    PTPM_ASKING_UNSAVED = PTPM_UNSAVED,
    PTPM_ASKING_UNDER_WAY = PTPM_UNDER_WAY
};

/* ptpm_clock_set. */
__extension__ enum PTPM_FOUR_OCTETS(ptpm_set_here) {
    PTPM_SET_HERE = 0,
    PTPM_SET_REFUSED = 26,              /* a manager with every right would be refused with *error */
    PTPM_SET_NO_CLOCK = PTPM_NO_CLOCK,
    PTPM_SET_NO_PORT = PTPM_NO_PORT,    /* it is neither a port of the clock nor 0xFFFF */
    PTPM_SET_NOT_PERMITTED = 40,        /* the action is neither PTPM_SET nor PTPM_COMMAND */
    PTPM_SET_BAD_VALUE = 41,            /* the dataField has an odd number of octets, or over 1,418 */
    PTPM_SET_UNDER_WAY = PTPM_UNDER_WAY /* it is a SET of DOMAIN, and a change is under way */
};

/* ptpm_clock_observe. */
__extension__ enum PTPM_FOUR_OCTETS(ptpm_observed) {
    PTPM_OBSERVED = 0,
    PTPM_OBSERVE_NO_CLOCK = PTPM_NO_CLOCK,
    PTPM_OBSERVE_NO_PORT = PTPM_NO_PORT,
    PTPM_OBSERVE_GRANDMASTER_DIFFERS = PTPM_GRANDMASTER_DIFFERS,
    PTPM_OBSERVE_BAD_CLOCK_ACCURACY = PTPM_BAD_CLOCK_ACCURACY,
    PTPM_OBSERVE_BAD_LEAP59 = PTPM_BAD_LEAP59,
    PTPM_OBSERVE_BAD_STATE = PTPM_BAD_STATE
};

/* ptpm_clock_read. */
__extension__ enum PTPM_FOUR_OCTETS(ptpm_read) {
    PTPM_READ = 0,
    PTPM_READ_NO_CLOCK = PTPM_NO_CLOCK,
    PTPM_READ_NO_PORT = PTPM_NO_PORT,
    PTPM_READ_NO_ROOM = PTPM_NO_ROOM,   /* room is smaller than PTPM_MOST_READ */
    PTPM_NOT_READABLE = 36              /* the id is not in the table, or permits no GET */
};

/* ptpm_session_begin and ptpm_session_begin_at. */
__extension__ enum PTPM_FOUR_OCTETS(ptpm_begun) {
    PTPM_BEGUN = 0,
    PTPM_BEGIN_NO_MEMORY = PTPM_NO_MEMORY,
    PTPM_BEGIN_NO_SESSION = PTPM_NO_SESSION,
    PTPM_BUSY = 38,                     /* a request is not answered yet */
    PTPM_NEEDS_PORT = 39,               /* no port of the clock is named: for an id of a port, or for any id with ptpm_session_begin_at */
    PTPM_NOT_PERMITTED = 40,            /* the action is none of the three */
    PTPM_BAD_VALUE = 41,                /* the dataField has an odd number of octets, or over 1,418 */
    PTPM_COUNT_AT_MAXIMUM = 42          /* the session has begun 1,000,000 requests */
};

/* ptpm_session_send and ptpm_survey_send. The second never returns PTPM_IDLE or PTPM_GAVE_UP. */
__extension__ enum PTPM_FOUR_OCTETS(ptpm_sending) {
    PTPM_SENT = 0,
    PTPM_SEND_NO_ROOM = PTPM_NO_ROOM,   /* room is smaller than PTPM_MOST_OCTETS */
    PTPM_SEND_NO_SESSION = PTPM_NO_SESSION,
    PTPM_SEND_IDLE = PTPM_IDLE,
    PTPM_GAVE_UP = 44,                  /* no attempts are left */
    PTPM_SEND_NO_SURVEY = PTPM_NO_SURVEY
};

/* ptpm_session_resume. */
__extension__ enum PTPM_FOUR_OCTETS(ptpm_resumed) {
    PTPM_RESUMED = 0,
    PTPM_RESUME_NO_SESSION = PTPM_NO_SESSION,
    PTPM_RESUME_IDLE = PTPM_IDLE
};

/* ptpm_session_give_up. */
__extension__ enum PTPM_FOUR_OCTETS(ptpm_given_up) {
    PTPM_GIVEN_UP = 0,
    PTPM_GIVE_UP_NO_SESSION = PTPM_NO_SESSION,
    PTPM_GIVE_UP_IDLE = PTPM_IDLE,
    PTPM_OUT_OF_REACH = 112             /* 32,767 requests were begun since the latest that was answered */
};

/* ptpm_session_retune. */
__extension__ enum PTPM_FOUR_OCTETS(ptpm_retuned) {
    PTPM_RETUNED = 0,
    PTPM_RETUNE_NO_SESSION = PTPM_NO_SESSION
};

/* ptpm_session_receive. */
__extension__ enum PTPM_FOUR_OCTETS(ptpm_session_received) {
    PTPM_ANSWERED = 0,                  /* it answers the unanswered request */
    PTPM_SESSION_OTHER_DOMAIN = PTPM_OTHER_DOMAIN,
    PTPM_SESSION_NOT_A_REPLY = PTPM_NOT_A_REPLY,
    PTPM_SESSION_OTHER_TARGET = PTPM_OTHER_TARGET,
    PTPM_SESSION_OTHER_SOURCE = PTPM_OTHER_SOURCE,
    PTPM_NOTHING_ASKED = 13,
    PTPM_SESSION_OTHER_NUMBER = PTPM_OTHER_NUMBER,
    PTPM_SESSION_OTHER_CONTENT = PTPM_OTHER_CONTENT,
    PTPM_SESSION_TOO_SHORT = PTPM_TOO_SHORT,
    PTPM_SESSION_NOT_MANAGEMENT = PTPM_NOT_MANAGEMENT,
    PTPM_SESSION_BAD_VERSION = PTPM_BAD_VERSION,
    PTPM_SESSION_BAD_LENGTH = PTPM_BAD_LENGTH,
    PTPM_SESSION_BAD_ACTION = PTPM_BAD_ACTION,
    PTPM_SESSION_BAD_TLV_TYPE = PTPM_BAD_TLV_TYPE,
    PTPM_SESSION_BAD_TLV_LENGTH = PTPM_BAD_TLV_LENGTH,
    PTPM_SESSION_BAD_TEXT = PTPM_BAD_TEXT,
    PTPM_SESSION_NO_MEMORY = PTPM_NO_MEMORY,
    PTPM_SESSION_NO_SESSION = PTPM_NO_SESSION
};

/* ptpm_survey_receive. */
__extension__ enum PTPM_FOUR_OCTETS(ptpm_survey_received) {
    PTPM_TAKEN = 0,                     /* it is the first answer of its port */
    PTPM_SURVEY_OTHER_DOMAIN = PTPM_OTHER_DOMAIN,
    PTPM_SURVEY_NOT_A_REPLY = PTPM_NOT_A_REPLY,
    PTPM_SURVEY_OTHER_TARGET = PTPM_OTHER_TARGET,
    PTPM_SURVEY_OTHER_SOURCE = PTPM_OTHER_SOURCE, /* only for a survey of one clock */
    PTPM_SURVEY_OTHER_NUMBER = PTPM_OTHER_NUMBER,
    PTPM_SURVEY_OTHER_CONTENT = PTPM_OTHER_CONTENT,
    PTPM_SURVEY_TOO_SHORT = PTPM_TOO_SHORT,
    PTPM_SURVEY_NOT_MANAGEMENT = PTPM_NOT_MANAGEMENT,
    PTPM_SURVEY_BAD_VERSION = PTPM_BAD_VERSION,
    PTPM_SURVEY_BAD_LENGTH = PTPM_BAD_LENGTH,
    PTPM_SURVEY_BAD_ACTION = PTPM_BAD_ACTION,
    PTPM_SURVEY_BAD_TLV_TYPE = PTPM_BAD_TLV_TYPE,
    PTPM_SURVEY_BAD_TLV_LENGTH = PTPM_BAD_TLV_LENGTH,
    PTPM_SURVEY_BAD_TEXT = PTPM_BAD_TEXT,
    PTPM_AGAIN = 27,                    /* it is a further answer of its port */
    PTPM_FULL = 28,                     /* it is the first answer of one port too many */
    PTPM_SURVEY_NO_MEMORY = PTPM_NO_MEMORY,
    PTPM_SURVEY_NO_SURVEY = PTPM_NO_SURVEY
};

/* ptpm_session_report, ptpm_survey_answer and ptpm_asker_report. */
__extension__ enum PTPM_FOUR_OCTETS(ptpm_reported) {
    PTPM_VALUE = 0,                     /* the clock answered with a dataField */
    PTPM_DONE = 25,                     /* it carried a COMMAND out */
    PTPM_REFUSED = 26,                  /* it answered with a managementErrorId */
    PTPM_REPORT_NO_ROOM = PTPM_NO_ROOM, /* room is smaller than the dataField */
    PTPM_REPORT_NO_SESSION = PTPM_NO_SESSION,
    PTPM_NO_REPORT = 45,                /* no request was begun, or the latest is not answered; the survey has no such answer */
    PTPM_REPORT_NO_SURVEY = PTPM_NO_SURVEY,
    PTPM_REPORT_NO_ASKER = PTPM_NO_ASKER
};

/* ptpm_session_image, _image_of and _saved, ptpm_clock_image, _image_of and _saved, and ptpm_image_seal. */
__extension__ enum PTPM_FOUR_OCTETS(ptpm_saved) {
    PTPM_SAVED = 0,
    PTPM_ACT_NOW = 31,                  /* ptpm_clock_saved: saved, and now the device is asked for what is under way */
    PTPM_SAVE_NO_CLOCK = PTPM_NO_CLOCK,
    PTPM_SAVE_NO_ROOM = PTPM_NO_ROOM,   /* room is smaller than the image, or than the image with its seal */
    PTPM_SAVE_NO_MEMORY = PTPM_NO_MEMORY, /* ptpm_clock_image_of, of a clock of over eight ports */
    PTPM_SAVE_NO_SESSION = PTPM_NO_SESSION,
    PTPM_OTHER_IMAGE = 119              /* not the latest image, or the image was confirmed already */
};

/* ptpm_session_restore, ptpm_clock_restore and ptpm_image_unseal. */
__extension__ enum PTPM_FOUR_OCTETS(ptpm_restored) {
    PTPM_RESTORED = 0,
    PTPM_RESTORE_NO_MEMORY = PTPM_NO_MEMORY,
    PTPM_RESTORE_TOO_MANY_MANAGERS = PTPM_TOO_MANY_MANAGERS,
    PTPM_RESTORE_MANAGER_TWICE = PTPM_MANAGER_TWICE,
    PTPM_RESTORE_IDENTITY_IS_ZERO = PTPM_IDENTITY_IS_ZERO,
    PTPM_NOT_AN_IMAGE = 104,            /* under 12 octets, or the first four are not "ptpm" */
    PTPM_OTHER_VERSION = 105,           /* an image of another version */
    PTPM_OTHER_KIND = 106,              /* an image of something else: a session's image for a clock, or a clock's for a session */
    PTPM_DAMAGED = 107,                 /* octets are missing, further ones follow, or one has a value that no image has */
    PTPM_OTHER_CLOCK = 108,             /* of a clock of a different identity */
    PTPM_OTHER_PORTS = 109,             /* of a clock with a different number of ports */
    PTPM_OTHER_SESSION = 110            /* another manager or clock, another number of ports, or another first number */
};

/* ptpm_field_parse. */
__extension__ enum PTPM_FOUR_OCTETS(ptpm_parsed) {
    PTPM_PARSED = 0,
    PTPM_PARSE_NO_ROOM = PTPM_NO_ROOM,  /* room is smaller than the dataField */
    PTPM_NOT_WORDS = 113,               /* there are octets and the last is not a zero, a word is not UTF-8, or there are over 20 words */
    PTPM_UNKNOWN_ID = 114,              /* this profile lacks the id */
    PTPM_WORD_COUNT = 115,              /* more or fewer words than a name and a value for each member */
    PTPM_OTHER_NAME = 116,              /* a word is not the name of the member that comes next */
    PTPM_NO_VALUE = 117                 /* a word is not a value of the member, or no SET has the member */
};

/* ptpm_asker_restore. */
__extension__ enum PTPM_FOUR_OCTETS(ptpm_asker_restored) {
    PTPM_ASKER_RESTORED = 0,
    PTPM_ASKER_RESTORE_NO_MEMORY = PTPM_NO_MEMORY,
    PTPM_ASKER_RESTORE_NO_PORTS = PTPM_NO_PORTS,
    PTPM_ASKER_RESTORE_TOO_MANY_PORTS = PTPM_TOO_MANY_PORTS,
    PTPM_ASKER_RESTORE_MANAGER_TWICE = PTPM_MANAGER_TWICE,
    PTPM_ASKER_RESTORE_MANAGER_IS_EVERY = PTPM_MANAGER_IS_EVERY,
    PTPM_ASKER_RESTORE_TARGET_IS_EVERY = PTPM_TARGET_IS_EVERY,
    PTPM_ASKER_RESTORE_SAME_CLOCK = PTPM_SAME_CLOCK,
    PTPM_ASKER_RESTORE_TARGET_IS_ZERO = PTPM_TARGET_IS_ZERO,
    PTPM_ASKER_RESTORE_NOT_AN_IMAGE = PTPM_NOT_AN_IMAGE,
    PTPM_ASKER_RESTORE_OTHER_VERSION = PTPM_OTHER_VERSION,
    PTPM_ASKER_RESTORE_OTHER_KIND = PTPM_OTHER_KIND,
    PTPM_ASKER_RESTORE_DAMAGED = PTPM_DAMAGED,
    PTPM_ASKER_RESTORE_OTHER_SESSION = PTPM_OTHER_SESSION
};

/* The other calls of an asker. Only ptpm_asker_ask returns PTPM_BUSY to PTPM_BAD_VALUE. */
__extension__ enum PTPM_FOUR_OCTETS(ptpm_asked) {
    PTPM_ASKED = 0,
    PTPM_ASK_NO_ROOM = PTPM_NO_ROOM,    /* room is smaller than the message or the image: ptpm_asker_message and ptpm_asker_image */
    PTPM_ASK_NO_MEMORY = PTPM_NO_MEMORY,
    PTPM_ASK_BUSY = PTPM_BUSY,          /* the asker has something under way, or an earlier run's request is not settled */
    PTPM_ASK_NEEDS_PORT = PTPM_NEEDS_PORT,
    PTPM_ASK_NOT_PERMITTED = PTPM_NOT_PERMITTED,
    PTPM_ASK_BAD_VALUE = PTPM_BAD_VALUE,
    PTPM_ASK_COUNT_AT_MAXIMUM = PTPM_COUNT_AT_MAXIMUM, /* the file has 1,000,000 requests, and the latest is a freshness check */
    PTPM_ASK_IDLE = PTPM_IDLE,          /* ptpm_asker_settle and ptpm_asker_let_go: an earlier run left nothing */
    PTPM_ASK_OUT_OF_REACH = PTPM_OUT_OF_REACH,  /* ptpm_asker_let_go */
    PTPM_ASK_NO_ASKER = PTPM_NO_ASKER
};

/* The calls of a journal. */
__extension__ enum PTPM_FOUR_OCTETS(ptpm_journaled) {
    PTPM_JOURNALED = 0,
    PTPM_JOURNAL_NO_ROOM = PTPM_NO_ROOM,
    PTPM_JOURNAL_NO_MEMORY = PTPM_NO_MEMORY,
    PTPM_JOURNAL_OTHER_VERSION = PTPM_OTHER_VERSION,    /* ptpm_journal_next */
    PTPM_JOURNAL_DAMAGED = PTPM_DAMAGED,                /* ptpm_journal_next: these octets are not a record that may come here */
    PTPM_JOURNAL_NO_JOURNAL = PTPM_NO_JOURNAL,
    PTPM_NO_RECORD = 127,               /* ptpm_journal_add: the record's kind, outcome or ending does not exist, or it has too many octets */
    PTPM_NOT_ALLOWED = 128,             /* ptpm_journal_add: no run makes this record here */
    PTPM_JOURNAL_WHOLE = 129            /* ptpm_journal_next: there is no further record; octets that are left were torn */
};

/* The calls of a rollout. */
__extension__ enum PTPM_FOUR_OCTETS(ptpm_rolled) {
    PTPM_ROLLED = 0,
    PTPM_ROLLOUT_NO_ROOM = PTPM_NO_ROOM,                /* ptpm_rollout_record */
    PTPM_ROLLOUT_NO_MEMORY = PTPM_NO_MEMORY,
    PTPM_ROLLOUT_BAD_VALUE = PTPM_BAD_VALUE,            /* ptpm_rollout_open: there is no such choice */
    PTPM_ROLLOUT_OTHER_VERSION = PTPM_OTHER_VERSION,    /* ptpm_rollout_open: another version wrote the journal */
    PTPM_ROLLOUT_DAMAGED = PTPM_DAMAGED,                /* ptpm_rollout_open: no run makes this journal */
    PTPM_ROLLOUT_NO_ROLLOUT = PTPM_NO_ROLLOUT,
    PTPM_HAS_ENDED = 131,               /* ptpm_rollout_open: the journal has an end */
    PTPM_OUT_OF_TURN = 132              /* ptpm_rollout_turn: the event answers no action that is due */
};

/* With this the header refuses a compiler that does not take these forms of an enum. */
#define PTPM_IS_WIDE(name) typedef char name##_has_not_four_octets[sizeof(enum name) == 4 ? 1 : -1]
PTPM_IS_WIDE(ptpm_started);
PTPM_IS_WIDE(ptpm_handled);
PTPM_IS_WIDE(ptpm_observed);
PTPM_IS_WIDE(ptpm_read);
PTPM_IS_WIDE(ptpm_begun);
PTPM_IS_WIDE(ptpm_sending);
PTPM_IS_WIDE(ptpm_resumed);
PTPM_IS_WIDE(ptpm_given_up);
PTPM_IS_WIDE(ptpm_retuned);
PTPM_IS_WIDE(ptpm_session_received);
PTPM_IS_WIDE(ptpm_survey_received);
PTPM_IS_WIDE(ptpm_reported);
PTPM_IS_WIDE(ptpm_saved);
PTPM_IS_WIDE(ptpm_restored);
PTPM_IS_WIDE(ptpm_parsed);
PTPM_IS_WIDE(ptpm_asker_restored);
PTPM_IS_WIDE(ptpm_asked);
PTPM_IS_WIDE(ptpm_journaled);
PTPM_IS_WIDE(ptpm_rolled);
PTPM_IS_WIDE(ptpm_asking);
PTPM_IS_WIDE(ptpm_set_here);
PTPM_IS_WIDE(ptpm_relaying);
#undef PTPM_IS_WIDE
#undef PTPM_FOUR_OCTETS

/* Whether a call with this answer was refused. It then changed nothing, except that a start leaves nothing in its handle.
   PTPM_REFUSED is not one: it says that the clock which was asked refused the request.
   Takes:   what a call with one of these types returned. */
static inline bool ptpm_is_refusal(uint32_t answer) { return answer >= 32; }

/* Each call below says what it takes, and what it returns. It says which of the host's memory it writes besides its handle, and
   what memory it gets from malloc. "Caller" is what the caller has to do then. A line that is missing would say "nothing". */

/* Reports the version of the library that is linked: PTPM_VERSION_NUMBER of its own header.
   Returns: the number. */
uint32_t ptpm_version(void);

/* Compares the sizes of a caller's structs with those of the library, so that a header of another version is found.
   Takes:   count sizes: those that ptpm_header_agrees below passes, in its order.
   Returns: PTPM_STARTED if the library has these structs, of these sizes; or PTPM_OTHER_SIZES. */
enum ptpm_started ptpm_sizes_agree(const size_t *sizes, size_t count);

/* Compares the sizes of the header that the caller was compiled with. */
static inline enum ptpm_started ptpm_header_agrees(void) {
    static const size_t sizes[] = {
        sizeof(struct ptpm_clock), sizeof(struct ptpm_clock_settings), sizeof(struct ptpm_port_settings),
        sizeof(struct ptpm_observed_clock), sizeof(struct ptpm_observed_port), sizeof(struct ptpm_manager_settings),
        sizeof(struct ptpm_sent), sizeof(struct ptpm_answer), sizeof(struct ptpm_shared), sizeof(struct ptpm_changed),
        sizeof(struct ptpm_session), sizeof(struct ptpm_session_settings), sizeof(struct ptpm_survey),
        sizeof(struct ptpm_survey_settings), sizeof(struct ptpm_source), sizeof(struct ptpm_passed_on),
        sizeof(struct ptpm_rate), sizeof(struct ptpm_asker), sizeof(struct ptpm_asker_settings), sizeof(struct ptpm_handed),
        sizeof(struct ptpm_question), sizeof(struct ptpm_say), sizeof(struct ptpm_limit), sizeof(struct ptpm_relayed_id),
        sizeof(struct ptpm_taken),
        sizeof(struct ptpm_journal), sizeof(struct ptpm_journal_record), sizeof(struct ptpm_rollout), sizeof(struct ptpm_rollout_event),
        sizeof(struct ptpm_rollout_action)
    };
    return ptpm_sizes_agree(sizes, sizeof sizes / sizeof *sizes);
}

/* Makes the settings of a clock of identity 0 in domain 0 that is its own grandmaster, with this profile's defaults.
   Writes:  all of *settings.
   Caller:  writes the identity, and the other values of its clock, over them. No clock starts with an identity of
            zeros. */
void ptpm_clock_defaults(struct ptpm_clock_settings *settings);

/* Makes the settings of a port that is MASTER, with this profile's defaults.
   Writes:  all of *settings. */
void ptpm_port_defaults(struct ptpm_port_settings *settings);

/* Starts a clock instead of what the handle holds, which is freed first.
   Takes:   1 to PTPM_MOST_PORTS ports, and 0 to PTPM_MOST_MANAGERS managers. The first port is port 1. All port_count settings are
            read, even if they are too many.
   Returns: PTPM_STARTED; or why not, and then the handle holds nothing.
   Memory:  the clock, until it is stopped: 640 octets, and 2,144 for each manager. A clock of over eight ports takes 16 more for each
            port, and 81 for each port of each manager. And a copy of the ports until the call returns.
   Caller:  stops the clock. */
enum ptpm_started ptpm_clock_start(struct ptpm_clock *clock, const struct ptpm_clock_settings *settings,
                                   const struct ptpm_port_settings *ports, size_t port_count,
                                   const struct ptpm_manager_settings *managers, size_t manager_count);

/* Does what ptpm_clock_start does if this header is the library's.
   Returns: what ptpm_clock_start returns; or PTPM_OTHER_SIZES, and then the handle holds what it held. */
static inline enum ptpm_started ptpm_clock_start_sized(struct ptpm_clock *handle, const struct ptpm_clock_settings *settings,
                                                       const struct ptpm_port_settings *of_ports, size_t all_ports,
                                                       const struct ptpm_manager_settings *of_managers, size_t all_managers) {
    enum ptpm_started answer = ptpm_header_agrees();
    return answer != PTPM_STARTED ? answer : ptpm_clock_start(handle, settings, of_ports, all_ports, of_managers, all_managers);
}

/* Judges a datagram that came in at a port, carries its request out, and makes what is to be sent.
   Takes:   the port, counted from 1; size octets; and room places, ptpm_clock_most_sent or more: one for a clock of one port.
   Returns: what became of the datagram; or why it was not judged, and then *count is 0. For a clock that saves (ptpm_clock_saving),
            it is PTPM_NO_CLOCK too.
   Writes:  *count, and the first *count places of sent: of each its port, its size, and as many octets.
   Caller:  sends these messages in their order, each at its port. If the answer is PTPM_ANSWERED_NEW and the clock is to outlast
            a loss of power, the caller first saves its image. Until that is done it sends nothing, not even messages of later
            calls. */
enum ptpm_handled ptpm_clock_handle(struct ptpm_clock *clock, uint16_t port, const uint8_t *datagram, size_t size,
                                    struct ptpm_sent *sent, size_t room, size_t *count);

/* Does what ptpm_clock_handle does, in less room. What is forwarded is the datagram itself, with boundaryHops decremented. So only answers
   have places, of 188 octets each. It is for a clock of many ports, or a host of little memory.
   Takes:   the port, counted from 1; size octets; and room places: as many as the clock has ports. More are needed only after a
            restore from an image that another program made, in which a kept reply has more answers.
   Returns: what ptpm_clock_handle returns.
   Writes:  *shared, and the first shared->count places of answers. If shared->size is not 0, octet 45 of the datagram,
            boundaryHops, is decremented.
   Caller:  sends the first shared->size octets of the datagram at each of shared->ports, and then the answers in their order, each at its
            port. After PTPM_ANSWERED_NEW it does what it does after ptpm_clock_handle. */
enum ptpm_handled ptpm_clock_handle_shared(struct ptpm_clock *clock, uint16_t port, uint8_t *datagram, size_t size,
                                           struct ptpm_answer *answers, size_t room, struct ptpm_shared *shared);

/* Gives a clock a table of the ids that its device has and the clock lacks, instead of an earlier table. From then on a SET or COMMAND
   of these ids reaches the device, like those of the clock's own 21 ids (ptpm_clock_ask). But first the clock checks the request. If
   one of these errors applies, the first in this order is the answer, and is kept:
   - NOT_SETABLE for a SET, or NOT_SUPPORTED for a COMMAND, that is not among the id's actions;
   - NOT_SUPPORTED for a manager without the id's right;
   - WRONG_LENGTH for a dataField of fewer octets than least, or of more than most;
   - RESPONSE_TOO_BIG for a request to every port, if the id is of a port.
   If the device agrees, a COMMAND is acknowledged, and a SET is answered with its own octets. If the device gives octets, a SET is
   answered with these. The data sets stay. The answer comes from the port at which the request came in. A GET reaches the device
   without a table. ptpm_clock_handle ignores the table, and requests of the owner and of strangers are judged without it.
   Takes:   id_count ids, PTPM_MOST_IDS at most. 0 takes the table away.
   Returns: PTPM_RELAYING; or why not, and then nothing changes. PTPM_NO_CLOCK also for a clock that saves (ptpm_clock_saving).
   Memory:  10 octets for each id, until the clock is stopped.
   Caller:  calls it after the start or the restore, before ptpm_clock_saving and the first datagram. The ids are in no image. */
enum ptpm_relaying ptpm_clock_relay(struct ptpm_clock *clock, const struct ptpm_relayed_id *ids, size_t id_count);

/* Says what a datagram would have the device do, if it came in now at this port. Nothing changes. Between this call and
   ptpm_clock_take anything may happen: that call judges the datagram again.
   Takes:   the port, counted from 1; size octets.
   Returns: PTPM_ASKED_CHANGE or PTPM_ASKED_VALUE; PTPM_ASKED_NOTHING for any other datagram; or PTPM_NO_CLOCK or PTPM_NO_PORT.
   Writes:  *asked; all zeros unless one of the first two is returned.
   Caller:  writes a change to its hardware, if the hardware can make it, in a way that may be done twice. If power fails before the
            clock is saved, the request comes again, and is new. For a device that is to be asked only once, there is
            ptpm_clock_undertake. A value that is asked for is looked up in a list of the caller's own. */
enum ptpm_asking ptpm_clock_ask(const struct ptpm_clock *clock, uint16_t port, const uint8_t *datagram, size_t size,
                                struct ptpm_question *asked);

/* Like ptpm_clock_handle, with what the device says, and also for datagrams of the owner. It reports exactly the members that changed. If
   the device objects where ptpm_clock_ask would return PTPM_ASKED_CHANGE, the request is answered and kept with that error, and
   no member changes. If it gives a value where ptpm_clock_ask would return PTPM_ASKED_VALUE, this is the answer of the clock. For
   the GET of a manager the value has 130 octets at most, since the answer is kept. A longer one is answered with RESPONSE_TOO_BIG
   (1), and that is kept. For any other GET the value has 1,418 at most, and nothing is kept. Each later copy of a request whose
   answer is kept gets that answer. If the device is not asked, what it says does not count.
   A request of the device's owner is judged as one of a manager with every right, and what the device says does not count. Nothing of
   it is kept, so a copy of it is carried out again. For a GET of the owner, PTPM_ANSWERED_UNNUMBERED is returned.
   At a clock that saves (ptpm_clock_saving), messages may wait for a save, as is said there.
   Takes:   what ptpm_clock_handle takes; *say; and of_owner: 1 for a datagram of the owner, and 0 for any other.
   Returns: what became of the datagram; or why it was not judged, the first of these: PTPM_NO_CLOCK, PTPM_NO_PORT, PTPM_NO_ROOM,
            PTPM_BAD_SAY, PTPM_UNDER_WAY (ptpm_clock_undertake) and PTPM_UNSAVED. A datagram that is not judged counts as lost.
   Writes:  all of *taken: zeros if the datagram was not judged. And the first taken->count places of sent, as ptpm_clock_handle
            does. If messages wait, taken->count is 0, and the first taken->waiting places of sent have zeros. Members change
            only with PTPM_ANSWERED_NEW, and only if that request was carried out and is not a GET.
   Caller:  sends these messages in their order, each at its port, and then acts on each change. A clock that does not save is
            first saved, as after ptpm_clock_handle. If taken->waiting is not 0, the caller acts on the change once these messages
            are given out. If the caller has written to its hardware and the answer is not PTPM_ANSWERED_NEW, it undoes the write:
            another request came in between. */
enum ptpm_handled ptpm_clock_take(struct ptpm_clock *clock, uint16_t port, const uint8_t *datagram, size_t size,
                                  const struct ptpm_say *say, uint8_t of_owner, struct ptpm_sent *sent, size_t room,
                                  struct ptpm_taken *taken);

/* Keeps a change as under way, so that the device is asked for it once, whatever happens to the power. It is for a clock that
   saves (ptpm_clock_saving). If ptpm_clock_ask would return PTPM_ASKED_CHANGE for the clock in its present state, the change is
   under way, and in each image from now on. Then the clock is unsaved. The host saves it, ptpm_clock_saved returns PTPM_ACT_NOW
   once, and the host asks its device. ptpm_clock_decide then says what the device did. After a restart the host only looks
   whether its device has the change. While the change is under way, ptpm_clock_take returns PTPM_UNDER_WAY for each request of
   the same manager that is addressed to exactly this clock. It returns PTPM_UNDER_WAY too for any datagram for which
   ptpm_clock_ask would return PTPM_ASKED_CHANGE. Of the owner's requests only a SET of DOMAIN is refused in this way, also by
   ptpm_clock_set. A clock that had left its domain could not answer the change.
   Takes:   what ptpm_clock_ask takes.
   Returns: PTPM_ASKED_CHANGE; or PTPM_ASKED_VALUE or PTPM_ASKED_NOTHING, as ptpm_clock_ask does, and then nothing is kept. Or why
            not, the first of these: PTPM_NO_CLOCK (also for a clock that does not save), PTPM_NO_PORT, PTPM_UNSAVED and
            PTPM_UNDER_WAY. PTPM_UNSAVED means that the clock was never saved, or that ptpm_clock_next has a message to give.
            PTPM_UNDER_WAY means that this would be a second change.
   Writes:  *asked, as ptpm_clock_ask does. */
enum ptpm_asking ptpm_clock_undertake(struct ptpm_clock *clock, uint16_t port, const uint8_t *datagram, size_t size,
                                      struct ptpm_question *asked);

/* Says which change is under way. After a restore, the device may have been asked for it.
   Returns: PTPM_ASKED_CHANGE; PTPM_ASKED_NOTHING if none is; or PTPM_NO_CLOCK.
   Writes:  *asked, as ptpm_clock_undertake did; all zeros unless PTPM_ASKED_CHANGE is returned.
   Caller:  after a restore of its image looks whether its device has the change, and calls ptpm_clock_decide. */
enum ptpm_asking ptpm_clock_under_way(const struct ptpm_clock *clock, struct ptpm_question *asked);

/* Does what ptpm_clock_take does with the datagram that is under way, at its port. Then nothing is under way, and the clock is unsaved:
   its messages wait for a save.
   Takes:   what the device says; and room places, as ptpm_clock_take.
   Returns: what ptpm_clock_take returns, but never PTPM_HANDLE_OTHER_DOMAIN: the clock stays in the domain of what is under way.
            Or why not, the first of these: PTPM_NO_CLOCK (also for a clock that does not save), PTPM_NOTHING_UNDER_WAY,
            PTPM_NO_ROOM, PTPM_BAD_SAY and PTPM_UNSAVED (as ptpm_clock_take). The change then stays under way.
   Writes:  what ptpm_clock_take writes.
   Caller:  after PTPM_UNSAVED sends the released messages (ptpm_clock_next) or saves the clock, and calls again. If the device has the
            change and the answer is not PTPM_ANSWERED_NEW, the caller undoes the change: the clock was restored without that
            manager. */
enum ptpm_handled ptpm_clock_decide(struct ptpm_clock *clock, const struct ptpm_say *say, struct ptpm_sent *sent, size_t room,
                                    struct ptpm_taken *taken);

/* Writes exactly the values of a range to a limit.
   Takes:   the least and the most, each from -128 to 255. A number under 0 is written as an Integer8. A range that is not within
            -128 to 255 leaves the limit without a value.
   Writes:  all of limit->values. */
void ptpm_limit_range(struct ptpm_limit *limit, int32_t least, int32_t most);

/* Gives the error by which a device with these limits objects. Only limits of the request's id, and of a port that it names,
   count; a request for every port names each. An id without a limit is free.
   Takes:   limit_count limits; and what ptpm_clock_ask wrote.
   Returns: PTPM_ERROR_NOT_SETABLE for a SET, and PTPM_ERROR_NOT_SUPPORTED for a COMMAND, if such a limit has no value. Otherwise
            PTPM_ERROR_WRONG_VALUE if such a limit lacks the value of a SET. Otherwise 0. A SET of NULL_PTP_MANAGEMENT,
            USER_DESCRIPTION or UTC_PROPERTIES has no value in its first octet, so it never gets PTPM_ERROR_WRONG_VALUE. */
uint16_t ptpm_limits_say(const struct ptpm_limit *limits, size_t limit_count, const struct ptpm_question *asked);

/* Carries out a SET or a COMMAND of the device's owner, as one of a manager with every right. This call is for a command line of
   the device, or for another protocol of management. What is kept of each manager stays: a copy of its latest request gets the
   cached answer. The host asks its hardware first: in this call the device can't object.
   Takes:   the action, the id and the port of the target, counted from 1, or 0xFFFF for every port; size octets, the dataField.
   Returns: PTPM_SET_HERE; or why not, and then nothing changes.
   Writes:  *changed: the members that the call changed; all zeros if it is refused. *error: the managementErrorId with
            PTPM_SET_REFUSED, and otherwise 0.
   Caller:  acts on each change, and saves the clock. A clock that saves (ptpm_clock_saving) is unsaved after it, whether it was
            before or not. The caller says "done" to the owner once an image that was made later is saved. */
enum ptpm_set_here ptpm_clock_set(struct ptpm_clock *clock, uint8_t action, uint16_t id, uint16_t port, const uint8_t *octets,
                                  size_t size, struct ptpm_changed *changed, uint16_t *error);

/* Sets exactly what the host observed about its clock and its ports. Judges the data sets as they would be afterwards.
   Takes:   port_count places, from port 1 on: as many as the clock has ports, or fewer, or none.
   Returns: PTPM_OBSERVED; or why not, and then nothing changes.
   Writes:  *left: the disabled ports at which a state was observed, and which stay disabled: bit n is port n + 1. 0 if refused.
   Caller:  stops these ports. */
enum ptpm_observed ptpm_clock_observe(struct ptpm_clock *clock, const struct ptpm_observed_clock *observed,
                                      const struct ptpm_observed_port *ports, size_t port_count, uint64_t *left);

/* Reads the answer that a GET of a managementId would get. At a clock that saves (ptpm_clock_saving), it is the answer that a
   stranger gets: it shows nothing that is unsaved, except what was observed.
   Takes:   the id; a port of the clock, which matters only for an id of a port; and room octets, PTPM_MOST_READ or more.
   Returns: PTPM_READ, or why not.
   Writes:  *size, and as many octets from octets on: the dataField, whose members are where docs/protocol.md says ("dataFields"). *size
            is 0 if the call is refused. */
enum ptpm_read ptpm_clock_read(const struct ptpm_clock *clock, uint16_t id, uint16_t port, uint8_t *octets, size_t room,
                               size_t *size);

/* Makes the clock's image: what a host saves after PTPM_ANSWERED_NEW, before it sends the messages. From it the clock continues after
   a restart. It has the clock's data sets, the latest request of each manager with the reply to it, and the change that is under way
   (ptpm_clock_undertake). It lacks the managers and their rights.
   Takes:   room octets; PTPM_CLOCK_IMAGE_BOUND of its ports and managers are enough.
   Returns: PTPM_SAVED, or why not.
   Writes:  *size, and that number of octets from octets on: the image. If the call is refused, *size is 0 and no octet is written. */
enum ptpm_saved ptpm_clock_image(const struct ptpm_clock *clock, uint8_t *octets, size_t room, size_t *size);

/* Writes the copies that a boundary clock forwards of a management message that this library does not read. Such a message is
   refused only for its actionField, its TLV or its displayData: PTPM_BAD_ACTION to PTPM_BAD_TEXT. The rules are those of any other
   message. The message needs sdoId 0, the clock's domain and a hop left, and must not be for exactly this clock. It passes only
   between ports that may forward. Each copy has octet 45, boundaryHops, decremented. Every other octet is as it came. Nothing is
   answered, and nothing changes. A host that wants such messages to pass calls ptpm_clock_transit after ptpm_clock_take.
   Takes:   the port it came in at, and the datagram, of size octets; and room places, as many as the clock has ports, or more.
   Returns: how many copies there are: 0 for any other datagram, without a clock, for a port that it lacks, and for fewer places.
   Writes:  that many places of sent, each with its port. */
size_t ptpm_clock_transit(const struct ptpm_clock *clock, uint16_t port, const uint8_t *datagram, size_t size, struct ptpm_sent *sent,
                          size_t room);

/* Has a clock show no change before it is saved. Without this call, a host has to see to that itself, for each message that it
   sends. A clock that saves takes datagrams by ptpm_clock_take, also during a save. What a manager or the owner asks of this
   clock, and not of every clock, is carried out at once. If the request changed the clock, or something was unsaved before, the
   messages that it makes wait in the clock. The messages for a repeat wait too, and those for all else that the same manager
   sends. Anyone else is answered at once, by what was saved last and observed since.
   A save is: ptpm_clock_image_of, the image stored, and ptpm_clock_saved. Then ptpm_clock_next gives the messages that waited when
   the image was made. Later messages wait for the next image, unless all that came in since changed nothing. After a failed save,
   nothing has to be undone: the next image has all that the lost one had.
   A clock that was just restored is saved. Any other clock is not: it takes no datagram before ptpm_clock_saved. Call
   ptpm_clock_saving right after the start or the restore.
   ptpm_clock_take returns PTPM_UNSAVED in three cases, and nothing changes. The first is any datagram before the first save of a
   clock that was not restored. The second is any datagram while ptpm_clock_next has a message to give. The third is a datagram
   whose messages would wait, if fewer than ptpm_clock_most_sent places are free (ptpm_clock_free).
   Takes:   how many messages may wait, ptpm_clock_most_sent or more: one for a clock of one port.
   Returns: PTPM_SAVING; or PTPM_NO_CLOCK, PTPM_NO_ROOM for fewer places, or PTPM_NO_MEMORY, and then nothing changes. If the clock
            saves already, the answer is PTPM_SAVING, and nothing changes.
   Memory:  some 900 octets and 1,476 for each place, until the clock is stopped; over eight ports 32 more for each port.
   Caller:  saves the clock whenever it is unsaved (ptpm_clock_unsaved), and at once if it was not restored. */
enum ptpm_handled ptpm_clock_saving(struct ptpm_clock *clock, size_t places);

/* Like ptpm_clock_image, of a clock that saves. An earlier image can't be confirmed any more.
   Takes:   what ptpm_clock_image takes.
   Returns: what ptpm_clock_image returns; PTPM_NO_CLOCK also for a clock that does not save; PTPM_NO_MEMORY only over eight ports.
   Memory:  over eight ports a copy of them, 16 octets for each, and as much again until the call returns.
   Writes:  what ptpm_clock_image writes, and *token: how many images were made since ptpm_clock_saving. It is 0 if the call is
            refused.
   Caller:  stores the image. Once a restart would find it even if power fails, the caller calls ptpm_clock_saved with the token.
            If it called earlier, the clock might forget what was sent. */
enum ptpm_saved ptpm_clock_image_of(struct ptpm_clock *clock, uint8_t *octets, size_t room, size_t *size, uint64_t *token);

/* The caller confirms that a restart would find the image of this token. From then on strangers are shown what the image has, and
   ptpm_clock_next gives the messages that waited when the image was made.
   Takes:   the token of the latest ptpm_clock_image_of. It counts once. If no change waited when the image was made, an
            observation afterwards makes it invalid.
   Returns: PTPM_SAVED. PTPM_ACT_NOW if the image has a change that is still under way, once for each change and never for one that a
            restore found. Or PTPM_NO_CLOCK (also for a clock that does not save) or PTPM_OTHER_IMAGE (for any other token), and then
            nothing changes.
   Caller:  calls ptpm_clock_next until that gives no message. After PTPM_ACT_NOW it asks its device (ptpm_clock_undertake). */
enum ptpm_saved ptpm_clock_saved(struct ptpm_clock *clock, uint64_t token);

/* Gives the next message that no longer waits for a save. The messages come in the order of their datagrams.
   Returns: 1; or 0 if there is none, and for a clock that does not save.
   Writes:  *message, as ptpm_clock_take writes each message. If the answer is 0, nothing of it.
   Caller:  sends it at its port, and acts on what changed with it. It calls again until the answer is 0: the clock takes no datagram
            before that. */
size_t ptpm_clock_next(struct ptpm_clock *clock, struct ptpm_sent *message);

/* Returns how many more messages may wait for a save, and SIZE_MAX for a clock that does not save. It is 0 if the handle holds no
   clock. */
size_t ptpm_clock_free(const struct ptpm_clock *clock);

/* Returns 1 if a clock that saves was never saved, or has a change that is not saved. Otherwise it returns 0. */
uint32_t ptpm_clock_unsaved(const struct ptpm_clock *clock);

/* Puts the clock of an image in the handle, instead of what it holds, which is then freed.
   Takes:   the identity and the number of ports that the clock of the image must have; its managers, as for a start; and size octets.
            The managers and their rights are those that are given, and all else comes from the image. A given manager without a
            request in the image begins afresh.
   Returns: PTPM_RESTORED; or why not, and then the handle holds what it held. The first of these that holds:
            PTPM_TOO_MANY_MANAGERS, PTPM_MANAGER_TWICE, PTPM_IDENTITY_IS_ZERO, PTPM_NOT_AN_IMAGE, PTPM_OTHER_VERSION,
            PTPM_OTHER_KIND, PTPM_DAMAGED, PTPM_OTHER_CLOCK, PTPM_OTHER_PORTS and PTPM_NO_MEMORY. A change under way at a port
            over port_count is PTPM_DAMAGED too. Do not start a fresh clock after a refused restore: it would carry out requests
            again that were carried out before.
   Writes:  *gone: the number of requests of the image whose managers are not among those that are given. They are forgotten. If the
            call is refused, it is 0.
   Memory:  the clock, until it is stopped, as much as for a start. Over eight ports also 160 octets for each port until the call
            returns, and PTPM_NO_MEMORY comes right after PTPM_OTHER_KIND.
   Caller:  stops the clock. */
enum ptpm_restored ptpm_clock_restore(struct ptpm_clock *clock, const uint8_t identity[8], size_t port_count,
                                      const struct ptpm_manager_settings *managers, size_t manager_count,
                                      const uint8_t *image, size_t size, size_t *gone);

/* Returns the most messages that one datagram makes at this clock, so a queue of the host has to be that long. The number is
   PTPM_MOST_SENT_OF the clock's ports: a copy for each other port, and an answer of each port. A kept reply may have more answers,
   eight at most: then the call returns their number. Only an image that another program has made can bring such a reply.
   Returns: the number; 0 if the handle holds no clock. */
size_t ptpm_clock_most_sent(const struct ptpm_clock *clock);

/* Ends what the handle holds, if it holds anything. The handle then holds nothing, and may be started again. For NULL nothing happens,
   as with free. But NULL is not allowed if the function is called through a pointer, or from another language. */
void ptpm_clock_stop(struct ptpm_clock *clock);

static inline void ptpm_clock_stop_any(struct ptpm_clock *clock) {
    if (clock) ptpm_clock_stop(clock);
}

#define ptpm_clock_stop(clock) ptpm_clock_stop_any(clock)

/* Starts a session instead of what the handle holds, which is freed first. As long as it may ask, only this session sends to the
   clock under the manager's portIdentity: no survey does, and no other program.
   Returns: PTPM_STARTED; or why not, and then the handle holds nothing.
   Memory:  the session, until it is stopped.
   Caller:  stops the session. */
enum ptpm_started ptpm_session_start(struct ptpm_session *session, const struct ptpm_session_settings *settings);

/* Does what ptpm_session_start does if this header is the library's.
   Returns: what ptpm_session_start returns; or PTPM_OTHER_SIZES, and then the handle holds what it held. */
static inline enum ptpm_started ptpm_session_start_sized(struct ptpm_session *handle,
                                                         const struct ptpm_session_settings *settings) {
    enum ptpm_started answer = ptpm_header_agrees();
    return answer != PTPM_STARTED ? answer : ptpm_session_start(handle, settings);
}

/* Begins a request, and discards the answer to the one before.
   Takes:   PTPM_GET, PTPM_SET or PTPM_COMMAND; the id; a port of the managed clock; and the dataField, of size octets. The
            port matters only for an id of a port.
   Returns: PTPM_BEGUN; or why not, and then nothing changes.
   Memory:  a copy of the dataField, until the request is answered or given up.
   Caller:  saves the session's image in a place where a restart finds it, and then sends the request. */
enum ptpm_begun ptpm_session_begin(struct ptpm_session *session, uint8_t action, uint16_t id, uint16_t port,
                                   const uint8_t *octets, size_t size);

/* Does what ptpm_session_begin does, but names the port for any id. Some clocks answer only if one of their ports is
   named, for an id of the clock too. Any port of the clock may answer for such an id.
   Takes:   what ptpm_session_begin takes. The port is 1 to the number of the managed clock's ports.
   Returns: what ptpm_session_begin returns.
   Memory:  a copy of the dataField, until the request is answered or given up.
   Caller:  does what ptpm_session_begin asks of it. */
enum ptpm_begun ptpm_session_begin_at(struct ptpm_session *session, uint8_t action, uint16_t id, uint16_t port,
                                      const uint8_t *octets, size_t size);

/* Makes the message of the unanswered request, and uses one of its attempts. The message has the same octets each time, until
   the session is retuned.
   Takes:   room octets, PTPM_MOST_OCTETS or more.
   Returns: PTPM_SENT; or why not, and then no attempt is used.
   Writes:  *size, and as many octets from octets on: the message. *size is 0 if the call is refused.
   Caller:  sends the message, and passes in what comes in. */
enum ptpm_sending ptpm_session_send(struct ptpm_session *session, uint8_t *octets, size_t room, size_t *size);

/* Gives the unanswered request this many attempts, however many it had left.
   Returns: PTPM_RESUMED; or why not, and then nothing changes. */
enum ptpm_resumed ptpm_session_resume(struct ptpm_session *session, uint8_t attempts);

/* Gives up the unanswered request, so that the next can be begun. No other request gets its number, and an answer to it is ignored
   from then on. The clock may have carried it out, once, or may still do so until it accepts a later request of this session. So
   once a later request is answered, the abandoned one was carried out before it, or never will be.
   Returns: PTPM_GIVEN_UP; or PTPM_IDLE or PTPM_OUT_OF_REACH, and then nothing changes. After PTPM_OUT_OF_REACH, send the request
            until it is answered: the clock might treat a number further ahead as an old one.
   Caller:  begins the next request before it ends, or saves the session's image. Otherwise a restart continues with
            the request that was given up. */
enum ptpm_given_up ptpm_session_give_up(struct ptpm_session *session);

/* From now on requests are sent, and replies expected, in this domain. That includes the unanswered request.
   Returns: PTPM_RETUNED, or why not. */
enum ptpm_retuned ptpm_session_retune(struct ptpm_session *session, uint8_t domain);

/* Judges a datagram that came in. If it answers the unanswered request, the next one can be begun.
   Takes:   size octets.
   Returns: PTPM_ANSWERED; or why the datagram is ignored or not judged, and then nothing changes.
   Memory:  a copy of the dataField of the answer, until the next request is begun. */
enum ptpm_session_received ptpm_session_receive(struct ptpm_session *session, const uint8_t *datagram, size_t size);

/* Makes the session's image: what a host saves before it sends a request, and after it has reported an answer. From it a
   session continues after a restart. How many attempts are left, and the answer to the latest request, are not in it.
   Takes:   room octets; PTPM_SESSION_IMAGE_OCTETS are enough for every session.
   Returns: PTPM_SAVED, or why not.
   Writes:  *size, and that number of octets from octets on: the image. If the call is refused, *size is 0 and no octet is written. */
enum ptpm_saved ptpm_session_image(const struct ptpm_session *session, uint8_t *octets, size_t room, size_t *size);

/* Puts the session of an image in the handle, instead of what it holds, which is then freed. A request that was not answered
   stays open, with all its attempts: send it again.
   Takes:   size octets, and the settings of the session. Their manager, managed clock, number of ports and first number must be
            those of the image. Domain, hops and attempts are taken from the image, and not from the settings.
   Returns: PTPM_RESTORED; or why not, and then the handle holds what it held. Do not start a fresh session after a refused
            restore: the clock would treat its requests as old, or as conflicts.
   Memory:  the session, until it is stopped, and a copy of the dataField of its request.
   Caller:  stops the session. */
enum ptpm_restored ptpm_session_restore(struct ptpm_session *session, const struct ptpm_session_settings *settings,
                                        const uint8_t *image, size_t size);

/* Counts the requests that were begun.
   Returns: how many they are; 0 if the handle holds no session. */
uint64_t ptpm_session_issued(const struct ptpm_session *session);

/* Gives what the answer to the latest request says.
   Takes:   room octets, as many as the dataField has or more: 1,418 are always enough.
   Returns: PTPM_VALUE, PTPM_DONE or PTPM_REFUSED; or why nothing is given.
   Writes:  *size, and as many octets from octets on: the dataField, after PTPM_VALUE. *size is 0 after every other answer.
            *error: the managementErrorId after PTPM_REFUSED, and 0 after every other answer. */
enum ptpm_reported ptpm_session_report(const struct ptpm_session *session, uint8_t *octets, size_t room, size_t *size,
                                       uint16_t *error);

/* Ends what the handle holds, if it holds anything. The handle then holds nothing, and may be started again. For NULL see
   ptpm_clock_stop. */
void ptpm_session_stop(struct ptpm_session *session);

static inline void ptpm_session_stop_any(struct ptpm_session *session) {
    if (session) ptpm_session_stop(session);
}

#define ptpm_session_stop(session) ptpm_session_stop_any(session)

/* Starts a survey with no answers yet, instead of what the handle holds; that is freed first. A session of the same manager may
   treat an answer to the survey's GET as its own. So the survey's manager must not have a session: use another port of the same
   identity. Port 0 stands for PTPM_SURVEY_PORT.
   Returns: PTPM_STARTED; or why not, and then the handle holds nothing.
   Memory:  the survey, until it is stopped.
   Caller:  stops the survey. */
enum ptpm_started ptpm_survey_start(struct ptpm_survey *survey, const struct ptpm_survey_settings *settings);

/* Does what ptpm_survey_start does if this header is the library's.
   Returns: what ptpm_survey_start returns; or PTPM_OTHER_SIZES, and then the handle holds what it held. */
static inline enum ptpm_started ptpm_survey_start_sized(struct ptpm_survey *handle, const struct ptpm_survey_settings *settings) {
    enum ptpm_started answer = ptpm_header_agrees();
    return answer != PTPM_STARTED ? answer : ptpm_survey_start(handle, settings);
}

/* Starts a survey of one clock with no answers yet, instead of what the handle holds; that is freed first. Every port of the clock
   is asked, and another clock's answer is ignored (PTPM_OTHER_SOURCE). A clock treats such a GET from one of its managers as a
   numbered request, like one of a session. And a session of the same manager may treat an answer as its own. So the survey's
   manager must not be one of the clock's, nor have a session: use another port of the same identity. Port 0 stands for
   PTPM_SURVEY_PORT.
   Takes:   the identity of the clock: a different one than the manager's, and neither all ones nor all zeros.
   Returns: PTPM_STARTED; or why not, and then the handle holds nothing.
   Memory:  the survey, until it is stopped.
   Caller:  stops the survey. */
enum ptpm_started ptpm_survey_start_at(struct ptpm_survey *survey, const struct ptpm_survey_settings *settings,
                                       const uint8_t target[8]);

/* Does what ptpm_survey_start_at does if this header is the library's.
   Returns: what ptpm_survey_start_at returns; or PTPM_OTHER_SIZES, and then the handle holds what it held. */
static inline enum ptpm_started ptpm_survey_start_at_sized(struct ptpm_survey *handle, const struct ptpm_survey_settings *settings,
                                                           const uint8_t target[8]) {
    enum ptpm_started answer = ptpm_header_agrees();
    return answer != PTPM_STARTED ? answer : ptpm_survey_start_at(handle, settings, target);
}

/* Makes the message of the GET, the same each time.
   Takes:   room octets, PTPM_MOST_OCTETS or more.
   Returns: PTPM_SENT, or why not.
   Writes:  *size, and as many octets from octets on: the message. *size is 0 if the call is refused.
   Caller:  sends the message, and passes in what comes in. */
enum ptpm_sending ptpm_survey_send(const struct ptpm_survey *survey, uint8_t *octets, size_t room, size_t *size);

/* Judges a datagram that came in, and keeps it if it is the first answer of its port.
   Takes:   size octets.
   Returns: PTPM_TAKEN; or PTPM_AGAIN, PTPM_FULL, or why the datagram is ignored or not judged, and then nothing changes.
   Memory:  the answer that is kept, until the survey is stopped. */
enum ptpm_survey_received ptpm_survey_receive(struct ptpm_survey *survey, const uint8_t *datagram, size_t size);

/* Counts the answers that are kept.
   Returns: how many they are; 0 if the handle holds no survey. */
size_t ptpm_survey_count(const struct ptpm_survey *survey);

/* Gives what an answer says, and who gave it.
   Takes:   its place, counted from 0 in the order in which the answers came. And room octets, as many as the dataField has or
            more: 1,418 are always enough.
   Returns: PTPM_VALUE, PTPM_DONE or PTPM_REFUSED; or why nothing is given.
   Writes:  *size, and as many octets from octets on: the dataField, after PTPM_VALUE. *size is 0 after every other answer.
            *error: the managementErrorId after PTPM_REFUSED, and 0 after every other answer.
            *source: the port that gave the answer. It stays as it was if nothing is given. */
enum ptpm_reported ptpm_survey_answer(const struct ptpm_survey *survey, size_t place, struct ptpm_source *source, uint8_t *octets,
                                      size_t room, size_t *size, uint16_t *error);

/* Ends what the handle holds, if it holds anything. The handle then holds nothing, and may be started again. For NULL see
   ptpm_clock_stop. */
void ptpm_survey_stop(struct ptpm_survey *survey);

static inline void ptpm_survey_stop_any(struct ptpm_survey *survey) {
    if (survey) ptpm_survey_stop(survey);
}

#define ptpm_survey_stop(survey) ptpm_survey_stop_any(survey)

/* Starts an asker whose session has no file yet, instead of what the handle holds, which is freed first. The host hands in what came
   in and what was done, and the asker hands out what is to be done next. It sends no request before the host has saved that request,
   and no request leaves the file before the host has noted its answer. So what an earlier run asked is completed, and no request is
   carried out twice.
   Takes:   26 octets that are drawn at random. They are the dataField of the freshness check: a GET that finds out whether a number
            is new.
   Returns: PTPM_STARTED; or why not, and then the handle holds nothing.
   Memory:  the asker, until it is stopped.
   Caller:  stops the asker. */
enum ptpm_started ptpm_asker_start(struct ptpm_asker *asker, const struct ptpm_asker_settings *settings, const uint8_t drawn[26]);

/* Does what ptpm_asker_start does if this header is the library's.
   Returns: what ptpm_asker_start returns; or PTPM_OTHER_SIZES, and then the handle holds what it held. */
static inline enum ptpm_started ptpm_asker_start_sized(struct ptpm_asker *handle, const struct ptpm_asker_settings *settings,
                                                       const uint8_t drawn[26]) {
    enum ptpm_started answer = ptpm_header_agrees();
    return answer != PTPM_STARTED ? answer : ptpm_asker_start(handle, settings, drawn);
}

/* Puts an asker with the session of an image in the handle, instead of what it holds, which is then freed.
   Takes:   26 octets that are drawn at random, and size octets: what the file of the session has. The first number is the
            image's, not that of the settings. If the image has other hops than the settings, the next request begins a new
            session, at the next number.
   Returns: PTPM_ASKER_RESTORED; or why not, and then the handle holds what it held.
   Memory:  the asker, until it is stopped, and a copy of the dataField of its request.
   Caller:  looks at what ptpm_asker_earlier returns, and stops the asker. */
enum ptpm_asker_restored ptpm_asker_restore(struct ptpm_asker *asker, const struct ptpm_asker_settings *settings,
                                            const uint8_t drawn[26], const uint8_t *image, size_t size);

/* Begins a request to the clock.
   Takes:   the time, and a number by which the host names the request. Then PTPM_GET, PTPM_SET or PTPM_COMMAND, the id, and a
            port of the managed clock, or 0. Then the dataField, of size octets, and the domain. If a port is given, the request
            names it, for an id of the clock too.
   Returns: PTPM_ASKED; or why not, and then nothing changes.
   Writes:  all of *handed: what is handed out; or PTPM_NOTHING if the call is refused, here and in the calls below.
   Memory:  a copy of the dataField, until the request is answered. */
enum ptpm_asked ptpm_asker_ask(struct ptpm_asker *asker, uint64_t now, uint64_t tag, uint8_t action, uint16_t id, uint16_t port,
                               const uint8_t *octets, size_t size, uint8_t domain, struct ptpm_handed *handed);

/* Sends the request of an earlier run again, with its number, until it is answered. A SET or a COMMAND is sent in the domain in
   which it was asked, whichever is given. A GET is sent in the domain that is given, as is a SET that moves the clock to that
   domain.
   Takes:   the time, a number by which the host names the request, and a domain.
   Returns: PTPM_ASKED; or PTPM_IDLE if there is no such request or the asker has something under way, and then nothing changes.
   Writes:  all of *handed. */
enum ptpm_asked ptpm_asker_settle(struct ptpm_asker *asker, uint64_t now, uint64_t tag, uint8_t domain, struct ptpm_handed *handed);

/* Gives up the request of an earlier run. The clock may have carried it out, or may still, until it accepts a later one.
   Returns: PTPM_ASKED; or PTPM_IDLE or PTPM_OUT_OF_REACH, and then nothing changes.
   Writes:  all of *handed: PTPM_SAVE_IT.
   Caller:  notes that it gives the request up, before it saves. */
enum ptpm_asked ptpm_asker_let_go(struct ptpm_asker *asker, struct ptpm_handed *handed);

/* Hands in a datagram that came in. Before a host wakes the asker, it hands in all datagrams that have come.
   Takes:   size octets.
   Returns: PTPM_ASKED; or PTPM_NO_MEMORY, and then nothing changes.
   Writes:  all of *handed: PTPM_NOTHING if the datagram answers nothing.
   Memory:  a copy of the dataField of the answer, until the next one. */
enum ptpm_asked ptpm_asker_hear(struct ptpm_asker *asker, const uint8_t *datagram, size_t size, struct ptpm_handed *handed);

/* Passes in the time. Nothing is handed out before the latest `time` of a ptpm_handed: when to wake the asker.
   Takes:   the time.
   Returns: PTPM_ASKED; or PTPM_NO_MEMORY, and then nothing changes.
   Writes:  all of *handed.
   Memory:  a copy of the dataField of a freshness check, until it is answered. */
enum ptpm_asked ptpm_asker_wake(struct ptpm_asker *asker, uint64_t now, struct ptpm_handed *handed);

/* Says that the message of the latest PTPM_SEND_IT could not be sent. If no message of a request of this run has left, the
   request is withdrawn. The next request then gets that number, and PTPM_FAILED comes after the save.
   Returns: PTPM_ASKED.
   Writes:  all of *handed. */
enum ptpm_asked ptpm_asker_unsent(struct ptpm_asker *asker, struct ptpm_handed *handed);

/* Confirms, after PTPM_SAVE_IT, that the session is in its file on the disk.
   Takes:   the time.
   Returns: PTPM_ASKED.
   Writes:  all of *handed. */
enum ptpm_asked ptpm_asker_saved(struct ptpm_asker *asker, uint64_t now, struct ptpm_handed *handed);

/* Confirms, after PTPM_NOTE_BEGUN and PTPM_NOTE_ANSWER, that the note is made.
   Returns: PTPM_ASKED; or PTPM_COUNT_AT_MAXIMUM or PTPM_NO_MEMORY, and then nothing changes.
   Writes:  all of *handed.
   Memory:  a copy of the dataField of the request, until it is answered. */
enum ptpm_asked ptpm_asker_noted(struct ptpm_asker *asker, struct ptpm_handed *handed);

/* Gives the message that was handed out last, after PTPM_SEND_IT and PTPM_SEND_READ.
   Takes:   room octets: PTPM_MOST_OCTETS are enough for every message.
   Returns: PTPM_ASKED, or why not.
   Writes:  *size, and that number of octets from octets on: the message. *size is 0 if the call is refused, or nothing was to be sent. */
enum ptpm_asked ptpm_asker_message(const struct ptpm_asker *asker, uint8_t *octets, size_t room, size_t *size);

/* Makes the image of the asker's session, for its file.
   Takes:   room octets; PTPM_SESSION_IMAGE_OCTETS are enough for every session.
   Returns: PTPM_ASKED, or why not.
   Writes:  *size, and that number of octets from octets on: the image. If the call is refused, *size is 0 and no octet is written. */
enum ptpm_asked ptpm_asker_image(const struct ptpm_asker *asker, uint8_t *octets, size_t room, size_t *size);

/* Says what an earlier run left under way.
   Takes:   the domain in which this run asks.
   Returns: PTPM_NOTHING_LEFT, also without an asker. PTPM_QUESTION_LEFT: a freshness check, which ptpm_asker_ask sends again. Or
            PTPM_GET_LEFT or PTPM_CHANGE_LEFT: a request that the host settles or gives up before it asks anything.
   Writes:  *there: the domain in which ptpm_asker_settle settles a GET or a change that was left. If none was left, *there has
            no meaning. */
uint32_t ptpm_asker_earlier(const struct ptpm_asker *asker, uint8_t domain, uint8_t *there);

/* Gives what the answer of the latest PTPM_NOTE_ANSWER says.
   Takes:   room octets, as many as the dataField has or more: 1,418 are always enough.
   Returns: PTPM_VALUE, PTPM_DONE or PTPM_REFUSED; or why nothing is given.
   Writes:  *size, and as many octets from octets on: the dataField, after PTPM_VALUE. *size is 0 after every other answer.
            *error: the managementErrorId after PTPM_REFUSED, and 0 after every other answer. */
enum ptpm_reported ptpm_asker_report(const struct ptpm_asker *asker, uint8_t *octets, size_t room, size_t *size, uint16_t *error);

/* Ends what the handle holds, if it holds anything. The handle then holds nothing, and may be started again. For NULL see
   ptpm_clock_stop. */
void ptpm_asker_stop(struct ptpm_asker *asker);

static inline void ptpm_asker_stop_any(struct ptpm_asker *asker) {
    if (asker) ptpm_asker_stop(asker);
}

#define ptpm_asker_stop(asker) ptpm_asker_stop_any(asker)

/* Starts a journal without a record, instead of what the handle holds, which is freed first. A journal takes only a record that a
   run may make there. A step is begun only after all steps that have to come before it are done. Each clock has at most one step under
   way at a time, and a step has one answer.
   Returns: PTPM_JOURNALED or PTPM_NO_MEMORY, and then the handle holds nothing.
   Memory:  the journal, until it is stopped.
   Caller:  stops the journal. */
enum ptpm_journaled ptpm_journal_start(struct ptpm_journal *journal);

/* Takes a record, and gives the octets that the host appends to the journal's file. Until the head and all steps are written, the
   file has a temporary name. A record is on the disk before the host goes on with its step.
   Takes:   the record, and the octets of each of its groups: none for a group that its kind lacks. PTPM_RECORD_OCTETS of room are
            always enough.
   Returns: PTPM_JOURNALED; or why not, and then nothing changes.
   Writes:  *size, and as many octets from octets on. *size is 0 if it is refused.
   Memory:  for the head and its steps, until the journal is stopped. */
enum ptpm_journaled ptpm_journal_add(struct ptpm_journal *journal, const struct ptpm_journal_record *record,
                                     const uint8_t *first, size_t first_size, const uint8_t *second, size_t second_size,
                                     uint8_t *octets, size_t room, size_t *size);

/* Takes the next record of a journal's file. A host begins with all octets of the file, and after each call goes on *size
   octets later, until PTPM_JOURNAL_WHOLE. It cuts off the octets that are left then, and ptpm_journal_add goes on from there.
   Returns: PTPM_JOURNALED; PTPM_JOURNAL_WHOLE; or why not. PTPM_JOURNAL_DAMAGED is also returned at the end of a file that lacks
            its head or a step. PTPM_JOURNAL_OTHER_VERSION comes only for the first record.
   Writes:  *record, all 0 unless one was taken. *size: how many octets it had, or 0.
   Memory:  as ptpm_journal_add. */
enum ptpm_journaled ptpm_journal_next(struct ptpm_journal *journal, const uint8_t *octets, size_t octet_count,
                                      struct ptpm_journal_record *record, size_t *size);

/* Returns: what the journal says of a step, one of PTPM_MARK_UNTOUCHED to PTPM_MARK_NONE. */
uint32_t ptpm_journal_mark(const struct ptpm_journal *journal, uint16_t step);

/* Ends what the handle holds, if it holds anything. The handle then holds nothing, and may be started again. For NULL see
   ptpm_clock_stop. */
void ptpm_journal_stop(struct ptpm_journal *journal);

static inline void ptpm_journal_stop_any(struct ptpm_journal *journal) {
    if (journal) ptpm_journal_stop(journal);
}

#define ptpm_journal_stop(journal) ptpm_journal_stop_any(journal)

/* Opens a change of several clocks from its journal, instead of what the handle holds. The change goes on where the journal ends.
   Takes:   the octets of the journal's file; a new one has only the head and the steps. And PTPM_STOP_AT_FAILURE, PTPM_KEEP_GOING,
            PTPM_GIVE_UP or PTPM_SETTLE_ALONE. A journal with PTPM_RECORD_LET_GO is given up in any case.
   Returns: PTPM_ROLLED, or why not, and then the handle holds what it held.
   Writes:  *whole: how many octets are whole records. The host cuts off what follows.
   Memory:  for what the journal has, until the rollout is stopped.
   Caller:  stops the rollout. */
enum ptpm_rolled ptpm_rollout_open(struct ptpm_rollout *rollout, const uint8_t *journal, size_t size, uint32_t choice, size_t *whole);

/* Hands in the outcome of the last action, and gives the next one.
   Takes:   first PTPM_EVENT_BEGIN. Only PTPM_EVENT_FOUND and PTPM_EVENT_VALUE have octets.
   Returns: PTPM_ROLLED, or why not, and then nothing changes.
   Writes:  *action, all 0 if it is refused.
   Memory:  for the record that is to be noted. */
enum ptpm_rolled ptpm_rollout_turn(struct ptpm_rollout *rollout, const struct ptpm_rollout_event *event, const uint8_t *octets, size_t size,
                                   struct ptpm_rollout_action *action);

/* Gives the record that PTPM_DO_NOTE asks for.
   Takes:   room octets: PTPM_RECORD_OCTETS are always enough.
   Returns: PTPM_ROLLED, or why not.
   Writes:  *size, and as many octets from octets on. *size is 0 if it is refused, and no octet is written. */
enum ptpm_rolled ptpm_rollout_record(const struct ptpm_rollout *rollout, uint8_t *octets, size_t room, size_t *size);

/* Ends what the handle holds, if it holds anything. The handle then holds nothing, and may be started again. For NULL see
   ptpm_clock_stop. */
void ptpm_rollout_stop(struct ptpm_rollout *rollout);

static inline void ptpm_rollout_stop_any(struct ptpm_rollout *rollout) {
    if (rollout) ptpm_rollout_stop(rollout);
}

#define ptpm_rollout_stop(rollout) ptpm_rollout_stop_any(rollout)

/* Seals an image: writes after it `ptps`, the count of saves, and the CRC-32 of all octets before the CRC-32. These show damage.
   Takes:   room octets, which begin with an image of size octets; and the count, one more at each save. A host calls
            ptpm_image_seal, which takes size before room.
   Returns: PTPM_SAVED; or PTPM_NO_ROOM if room is less than size + PTPM_SEAL_OCTETS, and then no octet is written.
   Writes:  *sealed: how many octets image and seal have, 0 if the call is refused; and the PTPM_SEAL_OCTETS octets after the image. */
enum ptpm_saved ptpm_image_seal_in(uint8_t *octets, size_t room, size_t size, uint64_t count, size_t *sealed);

static inline enum ptpm_saved ptpm_image_seal(uint8_t *octets, size_t size, size_t room, uint64_t count, size_t *sealed) {
    return ptpm_image_seal_in(octets, room, size, count, sealed);
}

/* Finds the image and its seal at the start of the octets. The image's head says how long it is, so what comes after the
   seal does not matter.
   Takes:   size octets, what a file or a place of a flash memory has.
   Returns: PTPM_RESTORED; PTPM_NOT_AN_IMAGE; or PTPM_DAMAGED if octets are missing, the seal is missing, or octets are not those
            that were sealed. The restore judges what kind of image it is, and whose.
   Writes:  *image: how many octets it has, from the first on; and *count, how often it was saved. If the call is refused, both
            are 0. */
enum ptpm_restored ptpm_image_unseal(const uint8_t *octets, size_t size, uint64_t *count, size_t *image);

/* Finds the newest image of several places, which have the same size. A host that writes only the oldest place has one image at
   any moment, whenever its power fails (docs/image.md).
   Takes:   the octets of all places, one after the other; how many octets a place has, and how many places there are. The beginning
            of each place is enough, if the largest image and its seal fit into it.
   Returns: the place of the image with the highest count, counted from 0; of several such places, the first. The number of places
            if no place holds an image that ptpm_image_unseal takes.
   Writes:  *count and *image, as ptpm_image_unseal does for that place; both are 0 if no place holds one. */
size_t ptpm_newest_image_in(const uint8_t *octets, size_t size, size_t place, uint64_t *count, size_t *image);

static inline size_t ptpm_newest_image(const uint8_t *octets, size_t place, size_t places, uint64_t *count, size_t *image) {
    size_t newest = ptpm_newest_image_in(octets, place * places, place, count, image);
    return place == 0 ? places : newest;
}

/* Says whether a message is to be forwarded, and if so, records it. It is not to be forwarded if it is recorded already, or there is
   no place for it. Two messages count as the same if their sourcePortIdentity, sequenceId, targetPortIdentity, actionField and
   managementId are the same. So a message that circulates is forwarded once, and one that keeps coming once per `time`.
   Takes:   the message, of size octets; now, in a unit of the host's choice; and time, in that unit: how long a record lasts.
   Returns: whether it is to be forwarded; false too for what is not a management message. A message for ptpm_clock_transit counts
            as a management message.
   Writes:  one of the places of *table, if it returns true. */
bool ptpm_passed_on_is_first(struct ptpm_passed_on *table, const uint8_t *message, size_t size, uint64_t now, uint64_t time);

/* Does what ptpm_passed_on_is_first does, with a table of as many places as the host has memory for: 48 octets each. All zeros
   record none. The host draws the seed, and gives the same one with each call. It writes nothing inside the places.
   Takes:   the seed; count places, 16 to 1,048,576; and what ptpm_passed_on_is_first takes. A message may be recorded in 16 of the
            places. If other messages are recorded in all of these, it is not to be forwarded.
   Returns: what ptpm_passed_on_is_first returns; false too for another number of places.
   Writes:  one of the places, if it returns true. */
bool ptpm_passed_on_is_first_of(uint64_t seed, uint64_t (*places)[6], size_t count, const uint8_t *message, size_t size, uint64_t now,
                                uint64_t time);

/* Makes a full bucket with a number of tokens per second.
   Takes:   how many; those over 1,000,000 do not count. And a time in milliseconds.
   Writes:  all of *rate. */
void ptpm_rate_start(struct ptpm_rate *rate, uint64_t tokens, uint64_t now);

/* Takes a token from a bucket, if there is one. In any stretch of time a bucket gives at most the tokens of one second, and
   those for the time that has passed.
   Takes:   a time in milliseconds. A time before the latest counts as the latest.
   Returns: whether there was one.
   Writes:  *rate. */
bool ptpm_rate_take(struct ptpm_rate *rate, uint64_t now);

/* The number that ptpm_id_named and ptpm_id_parse return if there is no such id, and how many octets a name has at most. */
enum { PTPM_NO_ID = 65536, PTPM_MOST_NAME = 27 };

/* Finds the managementId of a name, such as PRIORITY1 or priority1 (15.5.2.3).
   Takes:   the name in ASCII, of size octets and in either case, without a zero after it.
   Returns: the id, which fits a uint16_t; or PTPM_NO_ID if no id of this profile has the name. */
uint32_t ptpm_id_named(const char *name, size_t size);

/* Finds the managementId that a person types: its name, such as priority1, or its number, such as 2005 or 0x2005.
   Takes:   a name of this profile in either case; or four hexadecimal digits in either case, also after 0x or 0X. It has size octets,
            without a zero after it.
   Returns: the id, which fits a uint16_t; or PTPM_NO_ID if the text is neither. Four digits are an id even if this profile lacks it. */
uint32_t ptpm_id_parse(const char *text, size_t size);

/* Gives the managementIds of this profile, one after another.
   Takes:   a place from 0 on. The ids are in ascending order.
   Returns: the id, which fits a uint16_t; or PTPM_NO_ID past the last. */
uint32_t ptpm_id_at(size_t place);

/* Gives the standard's name of a managementId.
   Takes:   the id; and room octets, for which PTPM_MOST_NAME is enough.
   Returns: how many octets the name has; 0 if this profile lacks the id, or room is too small for the whole name.
   Writes:  as many octets from text on: the name, with no zero after it. */
size_t ptpm_id_name(uint16_t id, char *text, size_t room);

/* The same three calls for managementIds that other clocks have and this profile lacks. ptpm_field_text writes the members of their
   dataFields. Five are the standard's, such as CLOCK_DESCRIPTION, and five are linuxptp's, such as TIME_STATUS_NP. */
uint32_t ptpm_other_id_named(const char *name, size_t size);
uint32_t ptpm_other_id_at(size_t place);
size_t ptpm_other_id_name(uint16_t id, char *text, size_t room);

/* Gives the name of the number that a call returned, such as NO_ROOM for PTPM_NO_ROOM. 0 has none, since each call returns it.
   Takes:   the number; and room octets, for which PTPM_MOST_NAME is enough.
   Returns: how many octets the name has; 0 if the number has none, or room is too small for the whole name.
   Writes:  as many octets from text on: the name, with no zero after it. */
size_t ptpm_answer_name(uint32_t number, char *text, size_t room);

/* Gives the standard's name of a managementErrorId (15.5.4.3, table 109), such as WRONG_VALUE for 4.
   Takes:   the number; and room octets, for which PTPM_MOST_NAME is enough.
   Returns: how many octets the name has. 0 if the table reserves the number or leaves it to an implementation, or room is too
            small for the whole name.
   Writes:  as many octets from text on: the name, with no zero after it. */
size_t ptpm_error_name(uint16_t error, char *text, size_t room);

/* What ptpm_number_named knows: names of portStates (table 20), of delayMechanisms (table 21) and of timeSources (table 6). */
enum { PTPM_PORT_STATES = 1, PTPM_DELAY_MECHANISMS = 2, PTPM_TIME_SOURCES = 3 };

/* Finds the number that the standard gives a name, such as 9 for SLAVE. ptpm_field_text writes numbers by these names.
   Takes:   PTPM_PORT_STATES, PTPM_DELAY_MECHANISMS or PTPM_TIME_SOURCES; and the name in either case, of size octets, without a zero
            after it.
   Returns: the number, which fits a uint8_t; or PTPM_NO_NUMBER if none has the name. */
uint32_t ptpm_number_named(uint32_t names, const char *name, size_t size);

/* Reads the clockIdentity that a person types, such as aabbccfffeddee01 or aabbcc.fffe.ddee01.
   Takes:   sixteen hexadecimal digits in either case, with no dot, or with one after the sixth and one after the tenth. They have size
            octets, without a zero after them.
   Returns: whether the text is one.
   Writes:  identity, and only if it returns true. */
bool ptpm_identity_parse(const char *text, size_t size, uint8_t identity[8]);

/* Reads the portIdentity that a person types, such as aabbccfffeddee01/1 or aabbcc.fffe.ddee01-1.
   Takes:   a clockIdentity as ptpm_identity_parse takes it, a slash or a hyphen, and a decimal number up to 65535. They have size octets,
            without a zero after them.
   Returns: whether the text is one.
   Writes:  clock and *port, and only if it returns true. */
bool ptpm_port_identity_parse(const char *text, size_t size, uint8_t clock[8], uint16_t *port);

/* The most octets that ptpm_field_text writes, of a dataField that a message can have. */
enum { PTPM_MOST_FIELD_TEXT = 5034 };

/* Gives a dataField's members as text, one per line: the member's name in the standard (15.5.3), a space and its value, such as
   "priority1 128". How each kind of value is written is in docs/ptpm.md. If the octets are not a dataField of the id, or the
   dataField has no member, there is only one line. It is "value" and the octets in hexadecimal, or "value -" for none. The id may
   be one of ptpm_other_id_at too.
   Takes:   the managementId; a dataField of size octets; and room octets, for which PTPM_MOST_FIELD_TEXT is enough.
   Returns: how many octets the lines have; 0 if room is too small for all of them.
   Writes:  as many octets from text on: each line with its newline, and no zero after the last. If it returns 0, anything may be
            there. */
size_t ptpm_field_text(uint16_t id, const uint8_t *octets, size_t size, char *text, size_t room);

/* What a member's value is in its line of ptpm_field_text. A number is in decimal, or 0x and hexadecimal digits. A TimeInterval
   is in nanoseconds. Octets are in hexadecimal, or - for none. In a text \xHH is an octet. A number with a name is its name, or
   0x and two digits. */
enum ptpm_member_kind {
    PTPM_NO_MEMBER = 0,
    PTPM_IS_NUMBER = 1,
    PTPM_IS_FLAG = 2,
    PTPM_IS_INTERVAL = 3,
    PTPM_IS_CLOCK = 4,                  /* a clockIdentity */
    PTPM_IS_PORT = 5,                   /* a portIdentity */
    PTPM_IS_CLOCKS = 6,                 /* clockIdentities, with a space between each and the next */
    PTPM_IS_TEXT = 7,
    PTPM_IS_OCTETS = 8,
    PTPM_IS_PORT_STATE = 16,
    PTPM_IS_DELAY_MECHANISM = 17,
    PTPM_IS_TIME_SOURCE = 18,
    PTPM_IS_TIMESTAMPING = 19           /* a way of timestamping, of linuxptp */
};

/* Says what a member's value is. So a program that prints or stores members needs no list of their names.
   Takes:   the managementId; a dataField of size octets; and the place of the member's line in ptpm_field_text, from 0 on.
   Returns: what its value is; or PTPM_NO_MEMBER if there is no such line, or the line has the octets instead of a member. */
enum ptpm_member_kind ptpm_member_kind(uint16_t id, const uint8_t *octets, size_t size, size_t place);

/* Gives the dataField of a SET from what a person types: the name of each member in the standard, in either case, and its value.
   They are in the order of ptpm_field_text. The name of a sole member may be left out: "100" and "priority1", "100" are the same. A
   value is written as ptpm_field_text writes it. A number of one octet without a sign may be decimal, or 0x and two hexadecimal
   digits; a flag also 1 or 0. A delayMechanism has its name in either case or its number. In a text, \xHH is an octet in
   hexadecimal. The clock decides whether it accepts the value.
   Takes:   the managementId; size octets of words in UTF-8, with a zero octet after each; and room octets, for which
            PTPM_MOST_READ is enough.
   Returns: PTPM_PARSED; or the first of these in this order: PTPM_NOT_WORDS, PTPM_UNKNOWN_ID, PTPM_WORD_COUNT, the refusal of the
            first refused member (PTPM_OTHER_NAME or PTPM_NO_VALUE) and PTPM_NO_ROOM.
   Writes:  *count, how many octets the dataField has, and as many octets from octets on. If it is refused, *count is 0 and no octet
            is written. *member: with PTPM_OTHER_NAME or PTPM_NO_VALUE the place of the refused member, from 0 on; otherwise 0. */
enum ptpm_parsed ptpm_field_parse(uint16_t id, const char *words, size_t size, uint8_t *octets, size_t room, size_t *count,
                                  size_t *member);

/* The most octets that ptpm_field_takes writes. */
enum { PTPM_MOST_TAKES = 69 };

/* Says what ptpm_field_parse takes for a member, such as "a number from -128 to 127", for a person whose value was refused. For a
   member that no SET has, the text may be "no value".
   Takes:   the managementId; the member's place in the dataField, from 0 on, as ptpm_field_parse gives it; and room octets, for which
            PTPM_MOST_TAKES is enough.
   Returns: how many octets the text has; 0 if this profile has no such member, or room is too small for the whole text.
   Writes:  as many octets from text on: the text, with no zero after it. If it returns 0, anything may be there. */
size_t ptpm_field_takes(uint16_t id, size_t place, char *text, size_t room);

#ifdef __cplusplus
}
#endif

#endif
