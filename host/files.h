/* Files read whole into memory, and a file replaced by new bytes in one step. */
#ifndef FILES_H
#define FILES_H

#include <stdbool.h>
#include <stddef.h>
#include <stdint.h>
#include <sys/types.h>

/* Bytes in memory that is lent to the library: `start` is never null, also where there are none. */
struct bytes {
    uint8_t *start;
    size_t length; /* how many are in use */
    size_t room;   /* how many there is memory for */
};

/* A file that may be replaced. It is locked against other runs while it is open. */
struct original {
    const char *given; /* its path as the user wrote it, for messages */
    char *path;        /* its path without symbolic links, so that a link stays and leads to the new file */
    const char *name;  /* the last part of that path */
    char *copy_name;   /* what the copy is called until it takes the original's place */
    int folder;
    int file;
    uid_t owner;
    gid_t group;
    mode_t mode;
};

/*
 * Each function that answers false has said why on standard error, and has left nothing more to be freed
 * or closed than before. What was read is freed by `free(bytes.start)`.
 */

/* The whole of a file, or of anything else that can be read and ends. */
bool read_path(const char *path, struct bytes *bytes);

/* Memory for this many bytes more. */
bool make_room(const char *path, struct bytes *bytes, size_t more);

bool open_original(const char *path, struct original *original);
bool read_original(const struct original *original, struct bytes *bytes);
void close_original(struct original *original);

/* Puts a file with these bytes in the original's place, or leaves the original as it was. */
bool replace_original(const struct original *original, const struct bytes *bytes);

/* Makes the folder's new entry outlast a failure of the machine. */
bool flush_folder(const struct original *original);

/* Says on standard error what cannot be done with a path, and the system's reason. Answers false. */
bool complain(const char *path, const char *what);

#endif
