#define _DEFAULT_SOURCE
#define _XOPEN_SOURCE 700

#include "files.h"

#include <errno.h>
#include <fcntl.h>
#include <stdio.h>
#include <stdlib.h>
#include <string.h>
#include <sys/file.h>
#include <sys/stat.h>
#include <unistd.h>

/* How much is read of what has no known size, and written, at a time. */
enum { PIECE = 1 << 20 };

bool complain(const char *path, const char *what)
{
    fprintf(stderr, "sffstore: %s %s: %s\n", path, what, strerror(errno));
    return false;
}

/* Reading */

static bool grow(struct bytes *bytes, size_t more)
{
    if (more > SIZE_MAX - bytes->room) {
        errno = ENOMEM;
        return false;
    }
    uint8_t *start = realloc(bytes->start, bytes->room + more);
    if (start == NULL)
        return false;
    bytes->start = start;
    bytes->room += more;
    return true;
}

/* One byte more than a regular file has, so that its end is met before the memory's. */
static size_t first_room(int file)
{
    struct stat status;
    if (fstat(file, &status) == 0 && S_ISREG(status.st_mode) && (uintmax_t)status.st_size < SIZE_MAX)
        return (size_t)status.st_size + 1;
    return PIECE;
}

static bool read_to_end(int file, struct bytes *bytes)
{
    ssize_t got;
    do {
        if (bytes->length == bytes->room && !grow(bytes, bytes->room < PIECE ? PIECE : bytes->room))
            return false;
        got = read(file, bytes->start + bytes->length, bytes->room - bytes->length);
        if (got < 0)
            return false;
        bytes->length += (size_t)got;
    } while (got > 0);
    return true;
}

/*
 * Files are read and not mapped: a mapped file that someone else cuts short would end the run by a signal,
 * and one that is written meanwhile would change under the library's hands.
 */
static bool read_open(const char *path, int file, struct bytes *bytes)
{
    *bytes = (struct bytes){0};
    if (grow(bytes, first_room(file)) && read_to_end(file, bytes))
        return true;
    complain(path, "cannot be read");
    free(bytes->start);
    return false;
}

bool read_path(const char *path, struct bytes *bytes)
{
    int file = open(path, O_RDONLY | O_CLOEXEC);
    if (file < 0)
        return complain(path, "cannot be read");
    bool was_read = read_open(path, file, bytes);
    close(file);
    return was_read;
}

bool make_room(const char *path, struct bytes *bytes, size_t more)
{
    return grow(bytes, more) || complain(path, "cannot be corrected");
}

/* Opening what may be replaced */

static bool find_names(struct original *original)
{
    original->path = realpath(original->given, NULL);
    if (original->path == NULL)
        return complain(original->given, "cannot be read");
    original->name = strrchr(original->path, '/') + 1;
    size_t size = strlen(original->name) + sizeof "..sffstore";
    original->copy_name = malloc(size);
    if (original->copy_name == NULL)
        return complain(original->given, "cannot be corrected");
    snprintf(original->copy_name, size, ".%s.sffstore", original->name);
    return true;
}

static bool open_folder(struct original *original)
{
    size_t length = (size_t)(original->name - original->path);
    char *path = strndup(original->path, length);
    if (path != NULL)
        original->folder = open(path, O_RDONLY | O_DIRECTORY | O_CLOEXEC);
    bool is_open = path != NULL && original->folder >= 0;
    if (!is_open)
        complain(original->given, "cannot be corrected, because its folder cannot be read");
    free(path);
    return is_open;
}

/* Whether the file may be written. Root may write any file, and yet one without a write bit is read-only. */
static bool is_writable(struct original *original)
{
    struct stat status;
    if (fstat(original->file, &status) != 0)
        return complain(original->given, "cannot be read");
    if (!S_ISREG(status.st_mode)) {
        fprintf(stderr, "sffstore: %s is not a regular file\n", original->given);
        return false;
    }
    if ((status.st_mode & (S_IWUSR | S_IWGRP | S_IWOTH)) == 0) {
        fprintf(stderr, "sffstore: %s is read-only\n", original->given);
        return false;
    }
    if (faccessat(original->folder, original->name, W_OK, AT_EACCESS) != 0)
        return complain(original->given, "cannot be written");
    original->owner = status.st_uid;
    original->group = status.st_gid;
    original->mode = status.st_mode & (S_IRWXU | S_IRWXG | S_IRWXO);
    return true;
}

static bool lock(const struct original *original)
{
    if (flock(original->file, LOCK_EX | LOCK_NB) == 0)
        return true;
    if (errno != EWOULDBLOCK)
        return complain(original->given, "cannot be locked");
    fprintf(stderr, "sffstore: %s is being corrected by another run\n", original->given);
    return false;
}

/* Whether the path still leads to the file that is locked: another run may have replaced it just before. */
static bool is_current(const struct original *original)
{
    struct stat locked;
    struct stat current;
    return fstat(original->file, &locked) == 0 &&
           fstatat(original->folder, original->name, &current, AT_SYMLINK_NOFOLLOW) == 0 &&
           locked.st_dev == current.st_dev && locked.st_ino == current.st_ino;
}

/* Opens and locks the file that the path leads to once it is locked. */
static bool open_locked(struct original *original)
{
    do {
        if (original->file >= 0)
            close(original->file);
        /* Without O_NONBLOCK a pipe would keep the run waiting. */
        original->file = openat(original->folder, original->name, O_RDONLY | O_NOFOLLOW | O_NONBLOCK | O_CLOEXEC);
        if (original->file < 0)
            return complain(original->given, "cannot be read");
        if (!is_writable(original) || !lock(original))
            return false;
    } while (!is_current(original));
    return true;
}

bool open_original(const char *path, struct original *original)
{
    *original = (struct original){.given = path, .folder = -1, .file = -1};
    if (find_names(original) && open_folder(original) && open_locked(original)) {
        /* A run that was killed may have left its copy; as this one has the lock, no other is at work on it. */
        unlinkat(original->folder, original->copy_name, 0);
        return true;
    }
    close_original(original);
    return false;
}

bool read_original(const struct original *original, struct bytes *bytes)
{
    return read_open(original->given, original->file, bytes);
}

void close_original(struct original *original)
{
    if (original->file >= 0)
        close(original->file);
    if (original->folder >= 0)
        close(original->folder);
    free(original->copy_name);
    free(original->path);
}

/* Replacing */

static bool write_all(int file, const struct bytes *bytes)
{
    for (size_t done = 0; done < bytes->length;) {
        size_t left = bytes->length - done;
        ssize_t written = write(file, bytes->start + done, left < PIECE ? left : PIECE);
        if (written < 1)
            return false;
        done += (size_t)written;
    }
    return true;
}

/* Owner and group as the original's, where the system allows it; a copy of the user's own will do else. */
static void keep_owner(int copy, const struct original *original)
{
    bool is_kept = fchown(copy, original->owner, original->group) == 0 ||
                   fchown(copy, (uid_t)-1, original->group) == 0;
    (void)is_kept;
}

/* The mode comes last: until then no one else can read the copy. */
static bool fill(int copy, const struct original *original, const struct bytes *bytes)
{
    if (!write_all(copy, bytes))
        return false;
    keep_owner(copy, original);
    return fchmod(copy, original->mode) == 0 && fsync(copy) == 0;
}

/*
 * All is written and flushed before the copy takes the original's name, which the system does in one step:
 * so a run that ends anywhere leaves the old file or the new one under that name.
 */
bool replace_original(const struct original *original, const struct bytes *bytes)
{
    int flags = O_WRONLY | O_CREAT | O_EXCL | O_NOFOLLOW | O_CLOEXEC;
    int copy = openat(original->folder, original->copy_name, flags, S_IRUSR | S_IWUSR);
    if (copy < 0)
        return complain(original->given, "is as it was, because no copy can be made in its folder");
    int reason = fill(copy, original, bytes) ? 0 : errno;
    if (close(copy) != 0 && reason == 0)
        reason = errno;
    if (reason == 0 && renameat(original->folder, original->copy_name, original->folder, original->name) != 0)
        reason = errno;
    if (reason == 0)
        return true;
    unlinkat(original->folder, original->copy_name, 0);
    errno = reason;
    return complain(original->given, "is as it was, because its corrected copy cannot be written");
}

bool flush_folder(const struct original *original)
{
    return fsync(original->folder) == 0 ||
           complain(original->given, "is corrected, but may be the old file again if the machine fails now, "
                                     "because its folder cannot be flushed");
}
