/* The library file and its log together. The log is the journal: a line is on the disk before its call is made, and lines that the tables in the
 * file have not seen are applied when it is opened. So an answered call is kept, and none is applied twice. */
#define _GNU_SOURCE
#include "loft.h"
#include <errno.h>
#include <stdlib.h>
#include <string.h>
#include <sys/stat.h>
#include <unistd.h>

/* A file that is reached over a link is replaced where it is, and the link stays. */
static bool set_paths(loft_store *store, const char *path, char **log, loft_fault *fault)
{
    struct stat s;
    const bool link = lstat(path, &s) == 0 && S_ISLNK(s.st_mode);
    store->path = strdup(path);
    store->file = link ? realpath(path, NULL) : strdup(path);
    if (!store->file && link)
        return loft_fail(fault, 2, "%s: a link that leads nowhere: %s", path, strerror(errno));
    if (!store->path || !store->file || asprintf(log, "%s.log", store->file) < 0)
        return loft_fail(fault, 2, "%s: no memory for its name", path);
    return true;
}

void loft_close(loft_store *store)
{
    loft_library_free(&store->library);
    if (store->log.path)
        loft_log_close(&store->log);
    free(store->path);
    free(store->file);
    *store = (loft_store){.log = {.fd = -1}};
}

static bool judge(loft_store *store, loft_fault *fault)
{
    char why[300];
    loft_bytes then = {0};
    if (!loft_sound(&store->library.now, why, sizeof why))
        return loft_fail(fault, 1, "%s: not sound: %s", store->path, why);
    if (!loft_opening(&store->library, &then, fault)) {
        loft_free(&then);
        return false;
    }
    const bool good = loft_sound(&then, why, sizeof why);
    loft_free(&then);
    return good || loft_fail(fault, 1, "%s: the tables as they were when the log began are not sound: %s", store->path, why);
}

/* The last line that the tables have seen stands right before `place`, and has the number before `next`. */
static bool fits(const loft_store *store, loft_fault *fault)
{
    const loft_library *l = &store->library;
    const loft_log *log = &store->log;
    char tail[SMC_LONGEST_LINE + 3] = "", number[16];
    if (l->place > log->size)
        return loft_fail(fault, 1, "%s: %llu bytes long, and %s has seen %llu of it: lines before number %u are missing", log->path,
                         (unsigned long long)log->size, store->path, (unsigned long long)l->place, l->next);
    const size_t want = l->place < sizeof tail - 1 ? (size_t)l->place : sizeof tail - 1;
    if (pread(log->fd, tail, want, (off_t)(l->place - want)) != (ssize_t)want)
        return loft_fail(fault, 2, "%s: %s", log->path, strerror(errno));
    if (want == 0 && l->next == l->first)
        return true;
    const bool whole = want > 0 && tail[want - 1] == '\n';
    const char *before = whole ? memrchr(tail, '\n', want - 1) : NULL;
    snprintf(number, sizeof number, "%u\t", l->next - 1);
    if (whole && strncmp(before ? before + 1 : tail, number, strlen(number)) == 0)
        return true;
    return loft_fail(fault, 1, "%s: number %u does not end at byte %llu, as %s says: not the log of this library, or changed by hand", log->path, l->next - 1,
                     (unsigned long long)l->place, store->path);
}

/* The lines that the tables have not seen: a program stopped between the log and the tables. */
static bool recover(loft_store *store, loft_mode mode, loft_fault *fault)
{
    loft_library *l = &store->library;
    loft_replayed end;
    if (!loft_replay(&l->now, &store->log, l->place, l->next, NULL, NULL, &end, fault))
        return false;
    if (end.number != 0 && !end.torn)
        return loft_fail(fault, 1, "%s: line %u: number %u is expected, and %s: %s", store->log.path, end.expected - l->first + 1, end.expected, end.why,
                         end.text);
    if (end.torn)
        snprintf(store->torn, sizeof store->torn, "%s: line %u: torn, not applied%s: %s", store->log.path, end.expected - l->first + 1,
                 mode == LOFT_WRITE ? " and cut off" : "", end.text);
    store->recovered = end.lines;
    store->unsaved = end.lines > 0;
    l->next = end.expected;
    l->place = end.place;
    return !end.torn || mode != LOFT_WRITE || loft_log_cut(&store->log, end.place, fault);
}

bool loft_open(loft_store *store, const char *path, loft_mode mode, unsigned wait, loft_fault *fault)
{
    char *log = NULL;
    *store = (loft_store){.log = {.fd = -1}};
    bool good = set_paths(store, path, &log, fault);
    if (good && access(store->file, F_OK) != 0)
        good = loft_fail(fault, 2, "%s: %s", path, strerror(errno));
    good = good && loft_log_open(&store->log, log, mode, wait, fault) && loft_library_load(&store->library, store->file, fault);
    good = good && judge(store, fault) && fits(store, fault) && recover(store, mode, fault);
    free(log);
    if (!good)
        loft_close(store);
    return good;
}

bool loft_save(loft_store *store, loft_fault *fault)
{
    uint8_t *bytes = NULL;
    size_t length = 0;
    if (!store->unsaved)
        return true;
    const bool good = loft_library_encode(&store->library, &bytes, &length, fault) && loft_save_file(store->file, bytes, length, fault);
    free(bytes);
    store->unsaved = !good;
    return good;
}

static bool absent(const loft_store *store, loft_fault *fault)
{
    struct stat s;
    return lstat(store->file, &s) != 0 || loft_fail(fault, 2, "%s: is there already, and was left as it is", store->path);
}

static bool free_to_create(const loft_store *store, loft_fault *fault)
{
    if (store->log.size != 0)
        return loft_fail(fault, 2, "%s: is there already and has lines: move it away first", store->log.path);
    return absent(store, fault);
}

bool loft_create(loft_store *store, const char *path, loft_library *library, loft_fault *fault)
{
    char *log = NULL;
    *store = (loft_store){.library = *library, .log = {.fd = -1}, .unsaved = true};
    *library = (loft_library){0};
    const bool locked = set_paths(store, path, &log, fault) && absent(store, fault) && loft_log_open(&store->log, log, LOFT_CREATE, 0, fault);
    const bool fresh = locked && free_to_create(store, fault);
    bool good = fresh;
    if (fresh && fsync(store->log.fd) != 0)
        good = loft_fail(fault, 2, "%s: %s", log, strerror(errno));
    good = good && loft_save(store, fault);
    if (fresh && !good && access(store->file, F_OK) != 0)
        unlink(log);
    free(log);
    if (!good)
        loft_close(store);
    return good;
}

bool loft_send(loft_store *store, const loft_call *call, smc_reply *reply, uint8_t answer[SMC_LARGEST_ANSWER], loft_fault *fault)
{
    char line[SMC_LONGEST_LINE + 2];
    loft_library *l = &store->library;
    if (l->next > SMC_MOST_LINE_NUMBER)
        return loft_fail(fault, 1, "%s: its last line has number %u, the greatest: no further call can be logged", store->log.path, l->next - 1);
    const size_t length = loft_line_write(l->next, call, line);
    if (length == 0)
        return loft_fail(fault, 2, "a line of the log has at most %d bytes: this call is too long for it, and was not made", SMC_LONGEST_LINE);
    if (!loft_log_append(&store->log, line, length, fault))
        return false;
    *reply = loft_make(&l->now, call, answer);
    l->next++;
    l->place = store->log.size;
    store->unsaved = true;
    return true;
}
