/* The Unix socket of a clock, and that of a program that asks it there. */
#pragma once

#include <sys/types.h>

enum { OWN_SOCKETS = 2 };

/* Removes a socket at a path if no program listens on it. Next to it ptpm-manage has its own while it asks: the path, a dot and
   the number of the process. Those of processes that are gone are removed too. */
void remove_left_over(const char *path);

/* A Unix socket at a path where nothing is. */
int bind_unix(const char *path, mode_t mode);

/* A Unix socket at a path, instead of one that a program left there and no program listens on. When the program ends it is
   removed. OWN_SOCKETS per program. */
int open_unix_as(const char *path, mode_t mode);

/* The same with mode 660, at a path that ends in a dot and the number of this process. Those of processes that are gone are
   removed. If this program may, it gives its socket the group of the one at the path without these. So a clock of that group,
   which is another user, can answer there. */
int open_unix(const char *path);
