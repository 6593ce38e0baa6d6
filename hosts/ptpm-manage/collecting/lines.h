/* The lines of a collection, which `ptpm site` reads: words NAME=VALUE, and then a message in hexadecimal. The word at= has
   when it came or was sent, in seconds since 1970, from= its sender, and on= the interface. */
#pragma once

#include <stdbool.h>
#include <stddef.h>
#include <stdint.h>
#include <stdio.h>

/* A message that came in, or one that was sent: then nobody sent it to this host, and `from` is "". `on` is NULL on a Unix socket. An answer
   that was not taken has a word that says why. */
struct message_line {
    int64_t at;                 /* by `nanoseconds` */
    const char *from, *on, *taken;
    const uint8_t *message;
    size_t size;
};

/* Takes the time of this host, by which at= is written from now on: a clock that is set moves no line that comes later. By how much it was
   set since the call before, in nanoseconds. */
int64_t take_time(void);

/* The name of an interface and the path of a socket may have any octets. A line takes only UTF-8, and a space ends each word. */
void write_name(FILE *to, const char *name);

void write_line(FILE *to, const struct message_line *line);

/* The message that went out last: a line for each interface that it went out at. */
void write_sent(FILE *to, const uint8_t *message, size_t size);

/* What is known of this host: a line that begins with #ptpm. The word own= has the identities that its interfaces would have. The
   word clock=synchronised is there if the kernel says so of its clock, which at= is read from. */
void write_host_note(FILE *to);

/* How sure it is that no clock is missing from a collection. `late` answers came only after the first round, since messages were lost, and
   those that are `left_out` had no room. It is not sure if the last rounds brought something new, or if a clock may still be missed by what
   is lost. */
struct sureness { size_t clocks, rounds, late; unsigned long left_out; bool is_sure; };

/* The same as a line that begins with #ptpm. */
void write_sureness_note(FILE *to, const struct sureness *known);
