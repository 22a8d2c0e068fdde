/* Files read whole, and saved whole. */
#define _GNU_SOURCE
#include "loft.h"
#include <errno.h>
#include <fcntl.h>
#include <stdlib.h>
#include <string.h>
#include <sys/stat.h>
#include <unistd.h>

static bool fill(int fd, uint8_t *bytes, size_t most, size_t *length)
{
    *length = 0;
    while (*length < most) {
        const ssize_t n = read(fd, bytes + *length, most - *length);
        if (n < 0 && errno == EINTR)
            continue;
        if (n <= 0)
            return n == 0;
        *length += (size_t)n;
    }
    return true;
}

/* A file of more than `most` bytes is refused: it is none of ours. One byte more is kept free behind what was read. */
bool loft_read_file(const char *path, size_t most, uint8_t **bytes, size_t *length, loft_fault *fault)
{
    struct stat s;
    const int fd = open(path, O_RDONLY | O_CLOEXEC | O_NONBLOCK);
    if (fd < 0)
        return loft_fail(fault, 2, "%s: %s", path, strerror(errno));
    const bool plain = fstat(fd, &s) == 0 && S_ISREG(s.st_mode);
    const size_t size = plain && (uint64_t)s.st_size <= most ? (size_t)s.st_size : 0;
    *bytes = plain ? malloc(size + 1) : NULL;
    const bool good = *bytes && fill(fd, *bytes, size, length);
    const int error = errno;
    close(fd);
    if (good && (uint64_t)s.st_size <= most)
        return true;
    free(*bytes);
    *bytes = NULL;
    if (!plain)
        return loft_fail(fault, 2, "%s: no file with bytes in it (a directory, a pipe or a device)", path);
    if (!good)
        return loft_fail(fault, 2, "%s: %s", path, strerror(error));
    return loft_fail(fault, 2, "%s: longer than %zu bytes", path, most);
}

bool loft_write_all(int fd, const void *bytes, size_t length)
{
    const char *at = bytes;
    while (length > 0) {
        const ssize_t n = write(fd, at, length);
        if (n < 0 && errno == EINTR)
            continue;
        if (n == 0)
            errno = ENOSPC;
        if (n <= 0)
            return false;
        at += n;
        length -= (size_t)n;
    }
    return true;
}

/* The directory's own entry for the file: without this a rename may be forgotten when the power goes. */
static bool flush_directory(const char *path)
{
    char *name = strdup(path), *slash = name ? strrchr(name, '/') : NULL;
    if (slash == name && slash)
        slash[1] = 0;
    else if (slash)
        *slash = 0;
    const int fd = name ? open(slash ? name : ".", O_RDONLY | O_DIRECTORY | O_CLOEXEC) : -1;
    const bool good = fd >= 0 && fsync(fd) == 0;
    const int error = errno;
    if (fd >= 0)
        close(fd);
    free(name);
    errno = error;
    return good;
}

/* The new file beside the old one, with its rights, on the disk when this answers true. */
static bool write_beside(const char *path, const char *beside, const void *bytes, size_t length)
{
    struct stat old;
    const int fd = open(beside, O_WRONLY | O_CREAT | O_TRUNC | O_CLOEXEC | O_NOFOLLOW, 0666);
    if (fd < 0)
        return false;
    bool good = loft_write_all(fd, bytes, length);
    if (good && stat(path, &old) == 0)
        good = fchmod(fd, old.st_mode & 07777) == 0;
    good = good && fsync(fd) == 0;
    const int error = errno;
    const bool closed = close(fd) == 0;
    if (!good)
        errno = error;
    return good && closed;
}

bool loft_save_file(const char *path, const void *bytes, size_t length, loft_fault *fault)
{
    char *beside = NULL;
    if (asprintf(&beside, "%s.new", path) < 0)
        return loft_fail(fault, 2, "%s: no memory to save it", path);
    const bool written = write_beside(path, beside, bytes, length);
    if (!written || rename(beside, path) != 0) {
        loft_fail(fault, 2, "%s: not saved, and left as it was: %s %s", path, written ? "no rename of the new file:" : "the new file beside it,",
                  strerror(errno));
        unlink(beside);
        free(beside);
        return false;
    }
    free(beside);
    if (!flush_directory(path))
        return loft_fail(fault, 2, "%s: saved, but its directory could not be flushed, so that it may be as before when the power fails: %s", path,
                         strerror(errno));
    return true;
}
