#include "kept_file.h"
#include "program.h"
#include <errno.h>
#include <fcntl.h>
#include <stdio.h>
#include <string.h>
#include <unistd.h>

static const char *fault = "";

const char *kept_fault(void) { return fault; }

bool open_kept_folder(struct kept_file *file, const char *path) {
    char text[4096] = ".";
    const char *slash = strrchr(path, '/'), *last = slash == NULL ? path : slash + 1;
    size_t size = (size_t)(last - path);
    errno = EINVAL;
    if (*last == '\0' || strlen(last) + sizeof ".lock" > KEPT_NAME || size >= sizeof text) return false;
    if (size > 0) {
        memcpy(text, path, size);
        text[size] = '\0';
    }
    strcpy(file->name, last);
    strcpy(stpcpy(file->new_name, last), ".new");
    strcpy(stpcpy(file->lock_name, last), ".lock");
    int failure = size > 0 && mkdir(text, 0755) ? errno : 0;
    file->is_folder_made = size > 0 && failure == 0;
    file->folder = open(text, O_RDONLY | O_DIRECTORY | O_CLOEXEC);
    if (file->folder < 0 && errno == ENOENT && failure != 0) errno = failure;
    return file->folder >= 0;
}

int open_kept_lock(const struct kept_file *file) {
    fault = ".lock";
    return openat(file->folder, file->lock_name, O_RDWR | O_CREAT | O_NOFOLLOW | O_NONBLOCK | O_CLOEXEC, file->mode & 0660);
}

bool take_kept_lock(int lock) {
    struct flock whole = { .l_type = F_WRLCK, .l_whence = SEEK_SET };
    return fcntl(lock, F_SETLK, &whole) == 0;
}

pid_t kept_lock_owner(int lock) {
    struct flock other = { .l_type = F_WRLCK, .l_whence = SEEK_SET };
    return fcntl(lock, F_GETLK, &other) || other.l_type == F_UNLCK || other.l_pid < 0 ? 0 : other.l_pid;
}

bool is_kept_lock(const struct kept_file *file, int lock) {
    struct stat own, found;
    return fstat(lock, &own) == 0 && fstatat(file->folder, file->lock_name, &found, AT_SYMLINK_NOFOLLOW) == 0
           && own.st_dev == found.st_dev && own.st_ino == found.st_ino;
}

void leave_no_lock(const struct kept_file *file) {
    struct stat found;
    if (fstatat(file->folder, file->name, &found, AT_SYMLINK_NOFOLLOW) && errno == ENOENT) unlinkat(file->folder, file->lock_name, 0);
}

enum kept_found read_kept(const struct kept_file *file, uint8_t *octets, size_t most, size_t *size, struct stat *found) {
    *size = 0;
    fault = "";
    int opened = openat(file->folder, file->name, O_RDONLY | O_NOFOLLOW | O_NONBLOCK | O_CLOEXEC);
    if (opened < 0) return errno == ENOENT ? KEPT_NONE : errno == ELOOP ? KEPT_LINK : KEPT_UNREADABLE;
    enum kept_found what = fstat(opened, found) ? KEPT_UNREADABLE : S_ISREG(found->st_mode) ? KEPT_FILE : KEPT_OTHER;
    for (ssize_t count = 1; what == KEPT_FILE && count > 0 && *size < most;) {
        count = read(opened, octets + *size, most - *size);
        if (count < 0) what = KEPT_UNREADABLE;
        else *size += (size_t)count;
    }
    close_quietly(opened);
    return what;
}

/* Gives the new file the owner of the one before, as far as this user may, and its mode; whether it has that. A service that may change no
   owner has the same one. */
static bool make_like_before(const struct stat *before, int descriptor) {
    struct stat found;
    if (before->st_nlink == 0) return true;
    bool is_same = fstat(descriptor, &found) == 0 && found.st_uid == before->st_uid && found.st_gid == before->st_gid;
    if (!is_same && fchown(descriptor, before->st_uid, before->st_gid) && fchown(descriptor, (uid_t)-1, before->st_gid)) {
        errno = 0;      /* it is this user's then */
    }
    return fchmod(descriptor, before->st_mode & 0777) == 0;
}

static bool write_whole(int descriptor, const uint8_t *octets, size_t size) {
    ssize_t written = write(descriptor, octets, size);
    if (written >= 0 && (size_t)written < size) errno = ENOSPC;
    return written == (ssize_t)size;
}

/* Writes the file that is to replace the old one; whether it could. */
static bool write_new(const struct kept_file *file, const uint8_t *octets, size_t size) {
    fault = ".new";
    unlinkat(file->folder, file->new_name, 0);
    int opened = openat(file->folder, file->new_name, O_WRONLY | O_CREAT | O_EXCL | O_NOFOLLOW | O_CLOEXEC, file->mode);
    if (opened < 0) return false;
    bool is_written = make_like_before(&file->before, opened) && write_whole(opened, octets, size) && fsync(opened) == 0;
    int failure = errno;
    if (close(opened) == 0 && is_written) return true;
    if (!is_written) errno = failure;
    return false;
}

static void remove_new(const struct kept_file *file) {
    int failure = errno;
    unlinkat(file->folder, file->new_name, 0);
    errno = failure;
}

bool try_room(const struct kept_file *file, const uint8_t *octets, size_t size) {
    bool is_written = write_new(file, octets, size);
    remove_new(file);
    return is_written;
}

enum replaced replace_kept(const struct kept_file *file, const uint8_t *octets, size_t size) {
    bool is_written = write_new(file, octets, size);
    if (is_written) fault = "";
    if (!is_written || renameat(file->folder, file->new_name, file->folder, file->name)) {
        remove_new(file);
        return NOT_REPLACED;
    }
    return fsync(file->folder) == 0 ? REPLACED : IN_DOUBT;
}

size_t write_seal(uint8_t *octets, size_t size, uint64_t saves) {
    size_t sealed;
    ptpm_image_seal(octets, size, size + PTPM_SEAL_OCTETS, saves, &sealed);
    return sealed;
}

enum ptpm_restored take_seal(const uint8_t *octets, size_t *size, uint64_t *saves) {
    size_t image;
    enum ptpm_restored answer = ptpm_image_unseal(octets, *size, saves, &image);
    if (answer != PTPM_RESTORED) return answer;
    if (image < *size && image + PTPM_SEAL_OCTETS < *size) {
        *saves = 0;
        return PTPM_DAMAGED;
    }
    *size = image;
    return PTPM_RESTORED;
}
