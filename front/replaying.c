/* loft replay: a log over a copy of the tables, and where it stopped; a reel's way. */
#define _GNU_SOURCE
#include "tool.h"
#include <stdlib.h>
#include <string.h>
#include <unistd.h>

/* What a replay of a file is given, and what it has come to. */
typedef struct {
    loft_library library;
    loft_log log;
    loft_bytes tables; /* the copy */
    loft_way way;
    loft_replayed end;
    uint32_t first;
} day;

/* The number of the log's first line, or 0. */
static uint32_t first_number(const loft_log *log)
{
    char text[16] = "";
    unsigned long number = 0;
    if (pread(log->fd, text, 10, 0) <= 0)
        return 0;
    text[strcspn(text, "\t")] = 0;
    return loft_number(text, 10, SMC_MOST_LINE_NUMBER, &number) ? (uint32_t)number : 0;
}

/* A log that begins with the number that the file expects next starts from the tables in it, any other from those at its own log's beginning. */
static bool begin(arguments *a, day *d, loft_fault *fault)
{
    char why[300];
    unsigned long wait = 5;
    const loft_library *l = &d->library;
    if (a->value[OPTION_WAIT] && !loft_choose(a, OPTION_WAIT, 10, 0, 100000, &wait, fault))
        return false;
    if (!loft_library_load(&d->library, a->operand[0], fault) || !loft_log_open(&d->log, a->operand[1], LOFT_READ, (unsigned)wait, fault))
        return false;
    loft_log_unlock(&d->log);
    const bool later = l->next != l->first && first_number(&d->log) == l->next;
    d->first = later ? l->next : l->first;
    if (!(later ? loft_copy(&d->tables, &l->now, fault) : loft_opening(l, &d->tables, fault)))
        return false;
    if (!loft_sound(&d->tables, why, sizeof why))
        return loft_fail(fault, REFUSED, "%s: not sound, and nothing was replayed: %s", a->operand[0], why);
    fprintf(a->err, later ? "loft: %s begins with number %u: replayed on the tables as %s has them\n" : "", a->operand[1], d->first, a->operand[0]);
    return true;
}

static bool run_log(arguments *a, day *d, loft_fault *fault)
{
    const char *reel = a->value[OPTION_REEL];
    FILE *progress = isatty(fileno(a->err)) ? a->err : NULL;
    unsigned volume = 0;
    if (!reel)
        return loft_replay(&d->tables, &d->log, 0, d->first, NULL, progress, &d->end, fault);
    if (!loft_volume_of(&d->tables, reel, &volume, fault))
        return false;
    loft_way_begin(&d->way, &d->tables, volume, d->first);
    const loft_watch watch = loft_way_watch(&d->way);
    return loft_replay(&d->tables, &d->log, 0, d->first, &watch, progress, &d->end, fault);
}

static bool deliver(arguments *a, const day *d, option o, loft_fault *fault)
{
    char *text = NULL;
    size_t length = 0;
    FILE *page = a->value[o] ? open_memstream(&text, &length) : NULL;
    if (!a->value[o])
        return true;
    if (!page)
        return loft_fail(fault, WRONG, "no memory for %s", a->value[o]);
    if (o == OPTION_CSV)
        way_sheet(page, &d->way);
    else
        way_page(page, a->operand[1], &d->way, &d->end);
    bool good = fclose(page) == 0 || loft_fail(fault, WRONG, "no memory for %s", a->value[o]);
    good = good && loft_deliver(a, a->value[o], text, length, fault);
    free(text);
    return good;
}

/* Where it stopped, and why. */
static void tell_end(arguments *a, const day *d)
{
    const loft_replayed *e = &d->end;
    FILE *out = a->value[OPTION_HTML] || a->value[OPTION_CSV] ? a->err : a->out;
    if (e->number == 0 && out == a->out)
        fprintf(out, "%s: %u lines replayed, to its end\n", a->operand[1], e->lines);
    else if (e->number != 0)
        fprintf(a->err, "loft: %s: line %u: stopped there by number %u; number %u is expected, and %s: %s\n%s", a->operand[1], e->lines + 1, e->number,
                e->expected, e->why, e->text, e->torn ? "loft: the last line is torn, as after a crash: it was not replayed\n" : "");
    if (e->number != 0)
        fprintf(out, "%s: %u lines replayed, to number %u; line %u is at fault\n", a->operand[1], e->lines, e->expected - 1, e->lines + 1);
}

static bool allowed(const arguments *a, loft_fault *fault)
{
    if ((a->value[OPTION_HTML] || a->value[OPTION_CSV]) && !a->value[OPTION_REEL])
        return loft_fail(fault, WRONG, "%s tells a reel's way: --reel LABEL is missing", a->value[OPTION_HTML] ? "--html" : "--csv");
    if (a->value[OPTION_HTML] && a->value[OPTION_CSV] && strcmp(a->value[OPTION_HTML], a->value[OPTION_CSV]) == 0)
        return loft_fail(fault, WRONG, "--html %s and --csv %s: the page and the sheet can't be the same file", a->value[OPTION_HTML], a->value[OPTION_CSV]);
    return true;
}

int run_replay(arguments *a)
{
    day d = {.log = {.fd = -1}};
    loft_fault fault;
    bool good = allowed(a, &fault) && begin(a, &d, &fault) && run_log(a, &d, &fault);
    if (good && a->value[OPTION_REEL] && !a->value[OPTION_HTML] && !a->value[OPTION_CSV])
        way_text(a->out, a->operand[1], &d.way, &d.end);
    good = good && deliver(a, &d, OPTION_CSV, &fault) && deliver(a, &d, OPTION_HTML, &fault);
    if (good)
        tell_end(a, &d);
    const int code = !good ? loft_say(a, &fault) : d.end.number == 0 ? DONE : REFUSED;
    loft_way_free(&d.way);
    loft_free(&d.tables);
    loft_library_free(&d.library);
    if (d.log.path)
        loft_log_close(&d.log);
    return code;
}
