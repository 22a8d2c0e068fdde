/* The log on disk: locked, appended to, flushed. It is the file that is locked for the whole library, since it alone is never replaced. */
#define _GNU_SOURCE
#include "loft.h"
#include <errno.h>
#include <fcntl.h>
#include <stdlib.h>
#include <string.h>
#include <sys/file.h>
#include <sys/stat.h>
#include <time.h>
#include <unistd.h>

/* Another process that sends a call is through in an instant: it is waited for, but not for ever. */
static bool lock(int fd, int how, unsigned wait)
{
    const struct timespec instant = {0, 20000000};
    for (unsigned tries = 50 * wait;; tries--) {
        if (flock(fd, how | LOCK_NB) == 0)
            return true;
        if ((errno != EWOULDBLOCK && errno != EINTR) || tries == 0)
            return false;
        nanosleep(&instant, NULL);
    }
}

/* Still the file of that name, and not one that was put aside while the lock was waited for. */
static bool same_file(const loft_log *log, struct stat *now)
{
    struct stat named;
    return fstat(log->fd, now) == 0 && stat(log->path, &named) == 0 && named.st_ino == now->st_ino && named.st_dev == now->st_dev;
}

bool loft_log_open(loft_log *log, const char *path, loft_mode mode, unsigned wait, loft_fault *fault)
{
    static const int flags[] = {[LOFT_READ] = O_RDONLY | O_NONBLOCK, [LOFT_WRITE] = O_RDWR | O_APPEND, [LOFT_CREATE] = O_RDWR | O_APPEND | O_CREAT};
    struct stat s = {0};
    *log = (loft_log){.fd = open(path, flags[mode] | O_CLOEXEC, 0666), .path = strdup(path)};
    if (log->fd < 0 || !log->path)
        return loft_fail(fault, 2, "%s: %s", path, strerror(errno));
    const bool plain = fstat(log->fd, &s) == 0 && S_ISREG(s.st_mode);
    const bool locked = plain && lock(log->fd, mode == LOFT_READ ? LOCK_SH : LOCK_EX, wait);
    const int error = errno;
    if (locked && same_file(log, &s)) {
        log->size = (uint64_t)s.st_size;
        return true;
    }
    loft_log_close(log);
    if (!plain)
        return loft_fail(fault, 2, "%s: no file with lines in it (a directory, a pipe or a device)", path);
    if (locked)
        return loft_fail(fault, 2, "%s: another file has taken its place this moment; try again", path);
    if (error == EWOULDBLOCK)
        return loft_fail(fault, 2, "%s: another process holds the library (waited %u s; --wait N waits longer); nothing was done", path, wait);
    return loft_fail(fault, 2, "%s: it can't be locked: %s", path, strerror(error));
}

void loft_log_close(loft_log *log)
{
    if (log->fd >= 0)
        close(log->fd);
    free(log->path);
    *log = (loft_log){.fd = -1};
}

void loft_log_unlock(loft_log *log) { flock(log->fd, LOCK_UN); }

bool loft_log_cut(loft_log *log, uint64_t size, loft_fault *fault)
{
    if (ftruncate(log->fd, (off_t)size) != 0 || fdatasync(log->fd) != 0)
        return loft_fail(fault, 2, "%s: it can't be cut back to %llu bytes: %s", log->path, (unsigned long long)size, strerror(errno));
    log->size = size;
    return true;
}

bool loft_log_append(loft_log *log, const char *line, size_t length, loft_fault *fault)
{
    loft_fault second;
    const bool written = loft_write_all(log->fd, line, length);
    if (written && fdatasync(log->fd) == 0) {
        log->size += length;
        return true;
    }
    const int error = errno;
    if (loft_log_cut(log, log->size, &second))
        return loft_fail(fault, 2, "%s: the call was not made, and no line was kept: %s", log->path, strerror(error));
    if (!written)
        return loft_fail(fault, 2, "%s: the call was not made: %s. A part of its line may stand at the end; the next call takes it away", log->path,
                         strerror(error));
    return loft_fail(fault, 2, "%s: the line was written but not flushed: %s. Whether it is kept is not known: `loft check` says it, before the call is sent again",
                     log->path, strerror(error));
}
