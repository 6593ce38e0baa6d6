/* The files that keep sessions of a manager with clocks from one run of this program to the next, as octets. */
#pragma once

#include "kept_file.h"
#include "ptpm.h"
#include <stdbool.h>
#include <stddef.h>
#include <stdint.h>

/* A file with a session has fewer octets, its seal among them; of a larger one these are read. */
enum { MOST_SESSION_OCTETS = PTPM_SESSION_IMAGE_OCTETS + PTPM_SEAL_OCTETS + 1 };

/* A file that this run has taken. This stays until the end of the program. */
struct session_file {
    char *path;                         /* as it was named */
    bool is_named;                      /* by the command line */
    struct kept_file kept;
    int lock;                           /* on it */
    uint64_t saves;                     /* by its seal */
    struct session_file *next;          /* the one that was opened before it */
};

/* What is at a path: a file whose octets are not those that were saved is broken. */
enum found_session { NO_SESSION_FILE, SESSION_FILE, BROKEN_SESSION_FILE };

/* Takes the file at this path only for this run, and reads what is before its seal, or all if it has none. That is on the disk then. If there is no file,
   none is made, but the call makes sure that one can be. The file's folder is made if it is missing. A manager has one request on
   its way at a time. So runs take turns, by a lock on the file PATH.lock, which stays if there is a file at the end. Ends the
   program, status 2, if the file is a link or no file, or if its turn does not come within a minute. So it does if an apply has marked
   the file (marks.h), or if a signal comes in before. `is_named` says that the command line names the file. */
enum found_session open_session_file(struct session_file **opened_file, const char *path, bool is_named,
                                     uint8_t octets[MOST_SESSION_OCTETS], size_t *size);

/* Writes the file so that it has these octets, and after them a seal, whatever becomes of the program or the machine. There is room
   for the seal. A new file takes the place of the old one, with its mode, and its owner if this user may give it that. Whether it
   could. If not, errno says why, and the old file stays. */
bool write_session_file(struct session_file *file, uint8_t octets[MOST_SESSION_OCTETS], size_t size);

/* From now on other runs may take it. */
void leave_session_file(struct session_file *file);

/* Ends the program, status 2: nothing can be kept there, as errno says, so the request was not sent. */
_Noreturn void refuse_place(const struct session_file *file);

/* The path of the file that was opened or named last. */
const char *session_path(void);
void name_session_file(const struct session_file *file);

/* The folder of the files that no command line names, and it is made with the first of them. Those above it are made if they are
   missing. Ends the program with status 2 if there is no such folder. The text is there until the next call of this or the next. */
const char *state_folder(void);

/* The same, and nothing is made. NULL if there is no such folder. */
const char *named_state_folder(void);

/* The file of the session of these settings' manager with their clock, if the command line names none: MANAGER-PORT.CLOCK. It
   is in $XDG_STATE_HOME/ptpm. If that is not set, it is in /var/lib/ptpm for root, and in $HOME/.local/state/ptpm for others.
   The folders above it are made if they are missing. Ends the program with status 2 if there is no such folder. */
const char *usual_file(const struct ptpm_session_settings *settings);

/* Ends the program with status 2 if an apply has marked that file: a session with another file would go ahead of its numbers. */
void refuse_usual_mark(const struct ptpm_session_settings *settings);
