/* A log on disk, of any length, replayed by the core in pieces that fit into memory. */
#define _GNU_SOURCE
#include "loft.h"
#include <errno.h>
#include <stdlib.h>
#include <string.h>
#include <time.h>
#include <unistd.h>

enum { ROOM = 1 << 20, LOOKS = 200 /* milliseconds between two signs of life */ };

typedef struct {
    const loft_bytes *tables;
    const loft_log *log;
    const loft_watch *watch;
    loft_replayed *end;
    uint8_t *room;
    size_t size, held; /* of the room; bytes in it, the first of which stands at end->place */
    FILE *progress;
    uint64_t from;
    long long told; /* when progress was told last */
} run;

static long long milliseconds(void)
{
    struct timespec now;
    clock_gettime(CLOCK_MONOTONIC, &now);
    return now.tv_sec * 1000LL + now.tv_nsec / 1000000;
}

static void tell_progress(run *r)
{
    const long long now = r->progress ? milliseconds() : 0;
    if (!r->progress || now - r->told < LOOKS)
        return;
    r->told = now;
    const uint64_t all = r->log->size - r->from, done = r->end->place - r->from;
    fprintf(r->progress, "\r%s: %u lines, %3u %%", r->log->path, r->end->lines, (unsigned)(all ? done * 100 / all : 100));
    fflush(r->progress);
}

static bool more(run *r, loft_fault *fault)
{
    while (r->held < r->size && r->end->place + r->held < r->log->size) {
        const uint64_t left = r->log->size - r->end->place - r->held;
        const size_t want = left < r->size - r->held ? (size_t)left : r->size - r->held;
        const ssize_t n = pread(r->log->fd, r->room + r->held, want, (off_t)(r->end->place + r->held));
        if (n < 0 && errno == EINTR)
            continue;
        if (n <= 0)
            return loft_fail(fault, 2, "%s: byte %llu: %s", r->log->path, (unsigned long long)(r->end->place + r->held),
                             n == 0 ? "the file has become shorter while it was read" : strerror(errno));
        r->held += (size_t)n;
    }
    return true;
}

/* So many lines from here on; the core decides what they do, and whether they are lines. */
static bool apply(run *r, const uint8_t *at, size_t length, uint32_t budget)
{
    const smc_tables t = loft_lend(r->tables);
    const smc_replayed one = smc_replay(SMC_LEND(&t), at, length, r->end->expected, budget);
    r->end->number = one.number;
    r->end->lines += one.lines;
    r->end->place += one.place;
    r->end->expected = one.expected;
    return one.number == 0;
}

static size_t line_length(const uint8_t *at, size_t length)
{
    const uint8_t *feed = memchr(at, '\n', length);
    return feed ? (size_t)(feed - at) + 1 : length;
}

/* Lines that do not concern the watch are applied together with the first behind them that does, in one call of the core. */
static bool watched(run *r, size_t length, loft_fault *fault)
{
    const loft_watch *w = r->watch;
    size_t at = 0;
    while (at < length) {
        size_t behind = at, own = 0;
        uint32_t lines = 0;
        bool concerned = false;
        for (; behind < length && !concerned; behind += own, lines++) {
            own = line_length(r->room + behind, length - behind);
            concerned = w->concerns(w->self, r->room + behind, own);
        }
        if (!apply(r, r->room + at, behind - at, lines))
            return w->passed(w->self, r->end->expected - 1, fault);
        const uint32_t number = r->end->expected - 1;
        if (!(concerned ? w->applied(w->self, number, r->room + behind - own, own, fault) : w->passed(w->self, number, fault)))
            return false;
        at = behind;
    }
    return true;
}

/* The line at which the core stopped: what is wrong with it. `at` is its place in the room. */
static void explain(run *r, size_t at)
{
    loft_replayed *end = r->end;
    const uint8_t *line = r->room + at;
    const size_t whole = line_length(line, r->held - at);
    const bool ended = whole > 0 && line[whole - 1] == '\n';
    const bool last = end->place + whole == r->log->size;
    loft_line_fault(line, whole - ended, ended, end->expected, end->why, sizeof end->why);
    loft_line_text(line, whole - ended, end->text, sizeof end->text);
    end->torn = last && whole <= SMC_LONGEST_LINE + 1 && (!ended || memchr(line, 0, whole));
}

/* One piece: whole lines, or the rest of the log if that has no line feed. */
static bool piece(run *r, loft_fault *fault)
{
    const uint64_t begin = r->end->place;
    if (!more(r, fault))
        return false;
    const uint8_t *feed = memrchr(r->room, '\n', r->held);
    const size_t length = feed ? (size_t)(feed - r->room) + 1 : r->held;
    if (r->watch) {
        if (!watched(r, length, fault))
            return false;
    } else {
        apply(r, r->room, length, UINT32_MAX);
    }
    const size_t done = (size_t)(r->end->place - begin);
    if (r->end->number == SMC_WRONG_LINE)
        explain(r, done);
    r->held -= done;
    memmove(r->room, r->room + done, r->held);
    return true;
}

bool loft_replay(const loft_bytes *tables, const loft_log *log, uint64_t place, uint32_t expected, const loft_watch *watch, FILE *progress,
                 loft_replayed *end, loft_fault *fault)
{
    run r = {.tables = tables, .log = log, .watch = watch, .end = end, .progress = progress, .from = place, .told = milliseconds()};
    *end = (loft_replayed){.expected = expected, .place = place};
    r.size = place < log->size && log->size - place < ROOM ? (size_t)(log->size - place) : ROOM;
    r.room = place < log->size ? malloc(r.size) : NULL;
    if (place < log->size && !r.room)
        return loft_fail(fault, 2, "no memory for %zu bytes", r.size);
    bool good = true;
    while (good && end->number == 0 && end->place < log->size) {
        good = piece(&r, fault);
        tell_progress(&r);
    }
    if (good && end->number == 0 && end->lines == 0)
        apply(&r, NULL, 0, 0); /* an empty log: the core still judges the tables */
    if (progress && r.told && end->lines > 0)
        fprintf(progress, "\r\033[K");
    free(r.room);
    return good;
}
