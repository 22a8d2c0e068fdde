/* Loaded before libc (LD_PRELOAD): every system call that writes is counted, and the one that LOFT_AT names fails or stops the program, as LOFT_HOW says:
 *
 *     fail    it ends with the error LOFT_ERROR (a number of errno) and does nothing
 *     short   write: half of the bytes are written; others as fail
 *     before  the program is killed before it
 *     half    write: half of the bytes are written, and the program is killed; others as before
 *     after   the program is killed after it
 *
 * Without LOFT_AT nothing is changed. With LOFT_TRACE each call is appended to the file of that name: what, and on which file. */
#define _GNU_SOURCE
#include <dlfcn.h>
#include <errno.h>
#include <fcntl.h>
#include <signal.h>
#include <stdarg.h>
#include <stdio.h>
#include <stdlib.h>
#include <string.h>
#include <sys/syscall.h>
#include <unistd.h>

enum { NO, FAIL, SHORT };

static unsigned calls;

static void trace(const char *what, const char *name)
{
    char line[600];
    const char *to = getenv("LOFT_TRACE");
    if (!to)
        return;
    const int n = snprintf(line, sizeof line, "%u %s %s\n", calls, what, name);
    const int fd = (int)syscall(SYS_openat, AT_FDCWD, to, O_WRONLY | O_APPEND | O_CREAT, 0666);
    if (fd >= 0 && n > 0)
        syscall(SYS_write, fd, line, (size_t)n < sizeof line ? (size_t)n : sizeof line - 1);
    syscall(SYS_close, fd);
}

static void trace_fd(const char *what, int fd)
{
    char link[40], name[400] = "";
    snprintf(link, sizeof link, "/proc/self/fd/%d", fd);
    if (readlink(link, name, sizeof name - 1) < 0)
        strcpy(name, "?");
    trace(what, name);
}

static int is(const char *how)
{
    const char *wanted = getenv("LOFT_HOW");
    return wanted && strcmp(wanted, how) == 0;
}

static int chosen(void)
{
    const char *at = getenv("LOFT_AT");
    return at && (unsigned)atoi(at) == calls;
}

/* What this call is to do, told before it. Killed here for `before`, and for `half` where there is no half. */
static int turn(int halves)
{
    const char *error = getenv("LOFT_ERROR");
    calls++;
    if (!chosen())
        return NO;
    if (is("before") || (is("half") && !halves))
        raise(SIGKILL);
    errno = error ? atoi(error) : EIO;
    if (is("fail") || (is("short") && !halves))
        return FAIL;
    return is("short") || is("half") ? SHORT : NO;
}

static int ended(int result)
{
    if (chosen() && is("after"))
        raise(SIGKILL);
    return result;
}

ssize_t write(int fd, const void *bytes, size_t length)
{
    const int what = turn(length > 1);
    trace_fd("write", fd);
    if (what == FAIL)
        return -1;
    const ssize_t n = syscall(SYS_write, fd, bytes, what == SHORT ? length / 2 : length);
    if (what == SHORT && is("half"))
        raise(SIGKILL);
    ended(0);
    return n;
}

int open(const char *path, int flags, ...)
{
    va_list more;
    va_start(more, flags);
    const int mode = flags & O_CREAT ? va_arg(more, int) : 0;
    va_end(more);
    if (!(flags & O_CREAT))
        return (int)syscall(SYS_openat, AT_FDCWD, path, flags, mode);
    const int what = turn(0);
    trace("create", path);
    return what == FAIL ? -1 : ended((int)syscall(SYS_openat, AT_FDCWD, path, flags, mode));
}

#define ON_FD(name, number)                                                                                            \
    int name(int fd)                                                                                                   \
    {                                                                                                                  \
        const int what = turn(0);                                                                                      \
        trace_fd(#name, fd);                                                                                           \
        return what == FAIL ? -1 : ended((int)syscall(number, fd));                                                    \
    }

ON_FD(fsync, SYS_fsync)
ON_FD(fdatasync, SYS_fdatasync)

int ftruncate(int fd, off_t length)
{
    const int what = turn(0);
    trace_fd("ftruncate", fd);
    return what == FAIL ? -1 : ended((int)syscall(SYS_ftruncate, fd, length));
}

int fchmod(int fd, mode_t mode)
{
    const int what = turn(0);
    trace_fd("fchmod", fd);
    return what == FAIL ? -1 : ended((int)syscall(SYS_fchmod, fd, mode));
}

int rename(const char *from, const char *to)
{
    const int what = turn(0);
    trace("rename", to);
    return what == FAIL ? -1 : ended((int)syscall(SYS_renameat2, AT_FDCWD, from, AT_FDCWD, to, 0));
}

int unlink(const char *path)
{
    const int what = turn(0);
    trace("unlink", path);
    return what == FAIL ? -1 : ended((int)syscall(SYS_unlinkat, AT_FDCWD, path, 0));
}
