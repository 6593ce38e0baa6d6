/* A file that is replaced whole, so that it is the old one or the new one whatever becomes of the program or the machine. In
   the same folder are NAME.new while it is written, and NAME.lock, whose lock only one process at a time has. */
#pragma once

#include "ptpm.h"
#include <stdbool.h>
#include <stddef.h>
#include <stdint.h>
#include <sys/stat.h>
#include <sys/types.h>

enum { KEPT_NAME = 256 };

struct kept_file {
    int folder;
    char name[KEPT_NAME], new_name[KEPT_NAME], lock_name[KEPT_NAME];
    mode_t mode;                        /* that a new file gets */
    bool is_folder_made;                /* the folder was missing */
    struct stat before;                 /* of a file whose owner and mode it gets instead of that; st_nlink is 0 if of none */
};

/* Opens the folder of a path. It is made if it is missing; what is above it is not. Whether it could; if not, errno says why, and
   is EINVAL if the path names no file. */
bool open_kept_folder(struct kept_file *file, const char *path);

/* At which of the files the latest call failed: what comes after the path, ".new", ".lock" or nothing. */
const char *kept_fault(void);

/* The lock file, which is made if it is missing; -1 if it can't be opened, as errno says. */
int open_kept_lock(const struct kept_file *file);

/* Takes the lock if no process has it. Whether it could; if not, errno says why, EAGAIN or EACCES if another has it. It is
   released when this process ends. */
bool take_kept_lock(int lock);

/* The process that has the lock; 0 if it is not known. */
pid_t kept_lock_owner(int lock);

/* Whether this is still the lock file: the process that had it before may have removed it. */
bool is_kept_lock(const struct kept_file *file, int lock);

/* Removes the lock file if the file that it is for does not exist. */
void leave_no_lock(const struct kept_file *file);

/* What is at the place of the file. */
enum kept_found { KEPT_FILE, KEPT_NONE, KEPT_LINK, KEPT_OTHER, KEPT_UNREADABLE };

/* Reads up to `most` octets of it; how many there are, and what is known about it. If it can't be read, errno says why. */
enum kept_found read_kept(const struct kept_file *file, uint8_t *octets, size_t most, size_t *size, struct stat *found);

/* Tries whether there is room for this many octets; if not, errno says why. What the file holds stays. */
bool try_room(const struct kept_file *file, const uint8_t *octets, size_t size);

/* What became of the file. If this is uncertain it is the new one, but may be the old one again after a loss of power. */
enum replaced { NOT_REPLACED, IN_DOUBT, REPLACED };

/* Replaces it by one with these octets: synchronized, renamed, and its folder synchronized. If it isn't replaced for sure, errno
   says why. */
enum replaced replace_kept(const struct kept_file *file, const uint8_t *octets, size_t size);

/* A file that keeps an image has the image's seal after it, of 16 octets, by which damage to the file is found. The library writes and
   reads it. Nothing comes after the seal. docs/image.md says what reads what. */

/* Writes the seal after these octets; how many octets there are then. There is room for it. */
size_t write_seal(uint8_t *octets, size_t size, uint64_t saves);

/* Takes the seal off: *size becomes that of the image, and *saves how many times it was saved. Otherwise why not, as
   ptpm_image_unseal says it; then *size stays, and *saves is 0. */
enum ptpm_restored take_seal(const uint8_t *octets, size_t *size, uint64_t *saves);
