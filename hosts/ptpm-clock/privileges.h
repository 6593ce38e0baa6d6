/* What ptpm-clock keeps of the rights that it was started with. */
#pragma once

#include <stdbool.h>
#include <sys/types.h>

struct privileges {
    const char *user_name;      /* the user that the program becomes, or NULL: it stays the same */
    uid_t user;
    gid_t group;
    bool is_by_default;         /* it is root, and --user does not say whom it becomes */
    gid_t socket_group;         /* the group of the Unix socket, which it then has too; -1 if none was given */
    bool is_unfiltered;         /* it may make every system call */
};

/* What it takes to open a port's socket once more, if its interface is made again. */
enum needs { NEEDS_NOTHING, NEEDS_LOW_PORT, NEEDS_FRAMES };

/* Drops every capability except the one that is needed, for good, and becomes the user. Ends the program with status 2 if that
   can't be done. Comes before any thread. */
void let_go_of_rights(const struct privileges *privileges, enum needs needs);

/* From now on all system calls fail except those that the program makes. Does nothing if the kernel has no filters, or if those
   calls are not known for the machine. Comes before any thread. */
void filter_calls(const struct privileges *privileges);
