/* The commands of a page: their words, the structs that these fill, and what is said of a command. */
#pragma once

#include "ptpm.h"
#include <stdbool.h>
#include <stddef.h>
#include <stdint.h>

/* An image of a clock, with room for octets that are too many. */
enum { MOST_OCTETS = 65536 };

struct octets { size_t size; uint8_t at[MOST_OCTETS]; };

/* The next word, which is cut out of the command, or null. */
char *next_word(char **words);

/* Takes the next word if it is this one. */
bool takes_word(char **words, const char *word);

/* The number of the next word, in decimal or 0x and hexadecimal. Without a word it is the other number. */
long long next_number(char **words, long long without);

/* The number of the next word, of hexadecimal digits. */
uint16_t next_hex(char **words);

/* The action of the next word: GET, SET, COMMAND, or its number. */
uint8_t next_action(char **words);

/* The octets of all words that are left: hexadecimal digits, or a name; N*WORD for N times these. A word @PLACE=WORD replaces
   those from a place on by others, and @..N leaves the first N. A single minus sign is none. */
void read_octets(char **words, struct octets *octets);

/* Like read_octets, but of only one word, which has this number of octets. */
void read_exactly(const char *word, uint8_t *octets, size_t size);

/* Gives octets a name, and takes it from what had it. All names are forgotten at the end of a page. */
void put_name(const char *name, const uint8_t *octets, size_t size);
void forget_names(void);

/* A number that is shown as #### in the sequenceId of a message, and at the end of an identity; -1 if there is none. */
extern long counted;

/* Says something of the command: whole lines. said is all of it since it was last cleared. */
void say(const char *format, ...) __attribute__((format(printf, 1, 2)));
void say_misspelt(const char *word);
const char *said(void);
void clear_said(void);

/* The name of a call's answer; that of 0 is given. */
const char *answer_name(uint32_t answer, const char *done);

/* Says that name, as a line. */
void say_outcome(uint32_t answer, const char *done);

/* Octets in hexadecimal. Eight or more of one value are N*HH. None are a minus sign. */
void say_octets(const uint8_t *octets, size_t size);

/* The octets of a message, parted as its fields are (IEEE 1588-2019, 13.3 and 15.4), with the names of clocks. */
void say_message(const uint8_t *octets, size_t size);

/* The structs that a host fills are given by the names of their members: `priority1=100`. A member with a has_ flag has it set too. */

/* More than a clock may have, so that a page can give too many. */
enum { MOST_PORTS = PTPM_MOST_PORTS + 1, MOST_MANAGERS = PTPM_MOST_MANAGERS + 1 };

struct managers { size_t count; struct ptpm_manager_settings of[MOST_MANAGERS]; };

/* How a clock starts. */
struct start {
    struct ptpm_clock_settings clock;
    size_t port_count;
    struct ptpm_port_settings ports[MOST_PORTS];
    struct managers managers;
};

/* What is observed of it. */
struct observation {
    struct ptpm_observed_clock clock;
    size_t port_count;
    struct ptpm_observed_port ports[MOST_PORTS];
};

/* `identity=K port port state=7 manager M 0001 7`: members of the clock, then each port with its members, and each manager with its
   port and its rights. 9*port is nine of them. */
void read_start(char **words, struct start *start);

/* `steps_removed=2 port state=9 port`. */
void read_observation(char **words, struct observation *observation);

/* `manager M 0001 7`, as often as it comes next. */
void read_managers(char **words, struct managers *managers);

void read_session(char **words, struct ptpm_session_settings *settings);

/* The members of its session, and its own. */
void read_asker(char **words, struct ptpm_asker_settings *settings);

void read_record(char **words, struct ptpm_journal_record *record);

/* Takes `target=K` too; whether it is there. */
bool read_survey(char **words, struct ptpm_survey_settings *settings, uint8_t target[8]);

/* A command: its first word, and what it does with the words after it. Each table ends with a null name. */
struct command { const char *name; void (*run)(char *words); };

extern const struct command clock_commands[], device_commands[], damage_commands[], session_commands[], survey_commands[],
    asker_commands[], journal_commands[], rollout_commands[], text_commands[];

/* Places for the messages of any clock. */
enum { PLACES = PTPM_MOST_SENT_OF(PTPM_MOST_PORTS) };

/* The clock of the page, and how it started. */
extern struct ptpm_clock clock_of_page;
extern struct start start_of_page;

/* Notes a datagram that came in or was sent, if it is a message, for `damage all`; forgets them at the end of a page. */
void note_message(const uint8_t *octets, size_t size);
void forget_messages(void);

/* Ends what the page has started. */
void stop_clock(void);
void stop_session(void);
void stop_survey(void);
void stop_asker(void);
void stop_journal(void);
void stop_rollout(void);
void stop_network(void);

/* How many octets or messages the host has room for: N after the word room, and otherwise all that are ever needed. */
size_t next_room(char **words, size_t most);

/* Room for what a call writes, and whether it wrote only these octets. */
extern uint8_t room[];
void clear_room(void);
bool wrote_alone(size_t size);

/* What a call answers that writes octets, and the octets. */
void say_written(uint32_t answer, const char *done, size_t size, void (*say_it)(const uint8_t *octets, size_t size));

/* Makes a call that asks for memory with its first request refused, then with its second, and so on, until none is refused. Says what a
   refused request changes, or if the call then answers something else than PTPM_NO_MEMORY. `state` writes what it may not change, or is
   null. Returns what the call returns at last. */
uint32_t refusing(uint32_t (*call)(void *given), void *given, size_t (*state)(uint8_t *octets));

/* What becomes of a datagram at port 1 of a clock, by the octets at each of its places (IEEE 1588-2019, 13.3, 15.3 and 15.4). The order of
   the answers, and numbers, are this project's profile. The library is not asked.

   Why it is not a message; 0 if it is one. */
uint32_t refusal_of(const struct octets *datagram);

/* The answer that is due, of a clock that started so in domain 0. It took this request of each manager before, or none if it has no
   octets. */
uint32_t due_answer(const struct start *clock, const struct octets *taken, const struct octets *datagram);

/* Whether these messages are due. At port 2 that is a copy of what is not only for the clock and has a hop left. Then at port 1 it is
   the replies to what is answered. */
bool are_due(const struct start *clock, const struct octets *datagram, uint32_t answer, const struct ptpm_sent *sent, size_t count);
