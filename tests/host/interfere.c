/*
 * A library to be preloaded: it interferes with one call that the host program makes to the system.
 *
 *   INTERFERE="WAY CALL NUMBER"  with the NUMBER-th call of this name, or of all where CALL is `any`
 *       before   the run is killed before the call
 *       after    the run is killed after the call
 *       half     the run is killed after a write of half of the bytes
 *       fail     the call fails with EIO; a close closes all the same
 *       wait     the call waits: the file INTERFERE_WAIT is made, and the call goes on once it is gone
 *   INTERFERE_LOG=FILE           the name of each call is written to this file, one to a line
 */
#define _GNU_SOURCE
#include <dlfcn.h>
#include <errno.h>
#include <fcntl.h>
#include <signal.h>
#include <stdarg.h>
#include <stdbool.h>
#include <stdio.h>
#include <stdlib.h>
#include <string.h>
#include <sys/stat.h>
#include <sys/types.h>
#include <unistd.h>

/* The real functions, called by this library itself. */
#define REAL(name) ((__typeof__(&name))dlsym(RTLD_NEXT, #name))

static char way[8];
static char chosen[16];
static unsigned long left; /* how many calls there are still to come, the chosen one included */
static int log_file = -1;

__attribute__((constructor)) static void begin(void)
{
    const char *words = getenv("INTERFERE");
    if (words != NULL && sscanf(words, "%7s %15s %lu", way, chosen, &left) != 3) {
        fputs("interfere: INTERFERE is not understood\n", stderr);
        _exit(3);
    }
    const char *path = getenv("INTERFERE_LOG");
    if (path != NULL) {
        int file = REAL(open)(path, O_WRONLY | O_CREAT | O_APPEND | O_CLOEXEC, 0600);
        /* A number out of the way, so that the program's own files have the numbers that they always have. */
        log_file = fcntl(file, F_DUPFD_CLOEXEC, 100);
        REAL(close)(file);
    }
}

/* Whether this call is the chosen one. */
static bool is_chosen(const char *name)
{
    if (log_file >= 0) {
        char line[32];
        int length = snprintf(line, sizeof line, "%s\n", name);
        if (REAL(write)(log_file, line, (size_t)length) != length)
            _exit(3);
    }
    return (strcmp(chosen, "any") == 0 || strcmp(chosen, name) == 0) && left > 0 && --left == 0;
}

static void wait_for_go(void)
{
    const char *path = getenv("INTERFERE_WAIT");
    REAL(close)(REAL(open)(path, O_WRONLY | O_CREAT | O_CLOEXEC, 0600));
    for (int waits = 0; access(path, F_OK) == 0; waits++) {
        if (waits == 60000)
            _exit(3);
        usleep(1000);
    }
}

static bool is_way(bool is_this, const char *name)
{
    return is_this && strcmp(way, name) == 0;
}

static void end(bool is_now)
{
    if (is_now)
        kill(getpid(), SIGKILL);
}

/* One function, with what is to be done before the real one is called. */
#define INTERFERED(type, name, parameters, arguments, preparation)    \
    type name parameters                                              \
    {                                                                 \
        bool is_this = is_chosen(#name);                              \
        end(is_way(is_this, "before"));                               \
        if (is_way(is_this, "wait"))                                  \
            wait_for_go();                                            \
        if (is_way(is_this, "fail") && strcmp(#name, "close") != 0) { \
            errno = EIO;                                              \
            return -1;                                                \
        }                                                             \
        preparation                                                   \
        type result = REAL(name) arguments;                           \
        end(is_way(is_this, "after"));                                \
        if (is_way(is_this, "fail")) {                                \
            errno = EIO;                                              \
            return -1;                                                \
        }                                                             \
        return result;                                                \
    }

#define NOTHING

#define WRITE_HALF                                                    \
    if (is_way(is_this, "half"))                                      \
        end(REAL(write)(file, bytes, size / 2) == (ssize_t)(size / 2));

#define TAKE_MODE                                                     \
    mode_t mode = 0;                                                  \
    if ((flags & O_CREAT) != 0) {                                     \
        va_list more;                                                 \
        va_start(more, flags);                                        \
        mode = va_arg(more, mode_t);                                  \
        va_end(more);                                                 \
    }

INTERFERED(int, open, (const char *path, int flags, ...), (path, flags, mode), TAKE_MODE)
INTERFERED(int, openat, (int folder, const char *path, int flags, ...), (folder, path, flags, mode), TAKE_MODE)
INTERFERED(int, close, (int file), (file), NOTHING)
INTERFERED(ssize_t, read, (int file, void *bytes, size_t size), (file, bytes, size), NOTHING)
INTERFERED(ssize_t, write, (int file, const void *bytes, size_t size), (file, bytes, size), WRITE_HALF)
INTERFERED(int, fsync, (int file), (file), NOTHING)
INTERFERED(int, flock, (int file, int operation), (file, operation), NOTHING)
INTERFERED(int, fstat, (int file, struct stat *status), (file, status), NOTHING)
INTERFERED(int, fstatat, (int folder, const char *path, struct stat *status, int flags), (folder, path, status, flags), NOTHING)
INTERFERED(int, faccessat, (int folder, const char *path, int mode, int flags), (folder, path, mode, flags), NOTHING)
INTERFERED(int, fchmod, (int file, mode_t mode), (file, mode), NOTHING)
INTERFERED(int, fchown, (int file, uid_t owner, gid_t group), (file, owner, group), NOTHING)
INTERFERED(int, unlinkat, (int folder, const char *path, int flags), (folder, path, flags), NOTHING)
INTERFERED(int, renameat, (int folder, const char *path, int to, const char *new_path), (folder, path, to, new_path), NOTHING)
