/* A file, or a pipe, that says something again and again. */
#pragma once

#include <limits.h>
#include <stdbool.h>
#include <stddef.h>
#include <sys/stat.h>
#include <sys/types.h>

enum { SOURCE_ROOM = 65536 };

/* A folder whose changes are polled, and the name in it that counts: that of the path, or of the file to which links lead. */
struct watch { char folder[PATH_MAX], name[PATH_MAX]; int number; };

struct source {
    const char *path;
    int polled;
    bool is_pipe, is_first;
    struct watch of_path, of_target;
    dev_t device_read;
    ino_t file_read;                    /* what was read last */
    bool is_ended, is_too_long;         /* its end has come; its head was dropped */
    size_t first, size, searched, taken;
    char held[SOURCE_ROOM + 1];         /* what has come in and is not taken yet: `size` octets from `first` on. `searched` of them
                                           have no empty line, and `taken` were the latest text */
};

/* Opens a file to be read, without waiting, and what it is; -1 if it can't, by errno. If not everybody may read
   it, it has to be one that this program, root or its owner may choose. In a folder of others its name may lead to a file that
   they can't read. */
int open_to_read(const char *path, struct stat *found);

/* Opens it, and returns what is to be polled: changes of a file that can be read, or a pipe, if it may be one. Ends the program with
   status 2 if it is neither. */
int open_source(struct source *source, const char *path, bool may_be_pipe);

/* Watches what leads to it by now: a folder may have been made again, and a link may lead elsewhere. Whether it is another file than
   the one that was read, and so is to be read although nothing was polled. */
bool follow_source(struct source *source);

/* Reads what has come in by now, without waiting, and returns what is to be polled from now on. That is -1 if a pipe was
   removed, and the last program that wrote to it has closed it. */
int read_source(struct source *source);

/* Whether that read all of a file, and there is nothing in it. Then it leaves no text. */
bool is_empty_file(const struct source *source);

/* Whether that leaves a text to take. It is then at *text, with a zero after it, until the next call.

   Of a file it is all that the file holds. It comes at first, and whenever a program that wrote to the file has closed it, or
   another file has replaced it. Of a pipe it is what came in up to an empty line, or until the last program that wrote
   to it has closed it.

   A text of 65,536 octets or more, and a file that can't be read, is said on standard error, and is none. */
bool next_text(struct source *source, char **text);
