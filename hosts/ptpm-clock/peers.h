/* The Unix sockets of ptpm-clock, and the programs of this host that ask there, its peers. What a peer does not read stays in
   the socket that it was sent from. So each peer has a socket of its own, and little room there. The device's owner has a socket
   apart, where what is asked is carried out (--owner). */
#pragma once

#include "rounds.h"
#include <stdbool.h>
#include <sys/types.h>

/* The path that the socket is to have, its mode, and its group; with -1 that is the program's. */
struct meeting { const char *path; mode_t mode; gid_t group; };

enum { WAYS_BACK = 64 };

/* What is to be polled. It replaces one that a program left there, and is removed when this program ends. Ends the program with
   status 2 if it can't be had. */
int open_peers(const struct meeting *meeting);

/* The same for the owner's socket: only the user that started this program, and root, may ask there. The group is one that the
   program is in, so that a program which takes it can be answered. */
int open_owner(const char *path, gid_t group);

/* One of the sockets that peers are answered from. A program that found it at the path while the others were made may have sent
   something there. */
int way_back_socket(size_t place);

/* Sends a message to the sender of what it answers, or keeps it for a moment if that reads too slowly; whether it was accepted. It comes
   from the path of the socket that was asked. */
bool answer_peer(const struct ptpm_sent *message, const struct heard *answered);

/* Sends what is kept as far as there is room. All of it is dropped if its peer has read nothing for a while, and then counted. In how many
   milliseconds it is to be called again; -1 if nothing is kept. */
long answer_again(void);

void close_peers(void);
