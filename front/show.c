/* loft show and loft check: the library as a person sees it, in text. */
#define _GNU_SOURCE
#include "tool.h"
#include <stdlib.h>
#include <string.h>
#include <sys/ioctl.h>
#include <unistd.h>

enum { USUAL_WIDTH = 80, LEAST_WIDTH = 20 };

/* ---- text ---- */

/* "1000h FILM01L8 [2:1] *", without padding. */
static int cell(const loft_bytes *t, const loft_element *e, char *text, size_t size)
{
    char label[LOFT_LABEL], held[16] = "";
    if (e->holder != 0)
        snprintf(held, sizeof held, " [%u:%u]", e->holder, e->id);
    return snprintf(text, size, "%04Xh %s%s%s", e->address, e->volume ? loft_label(t, e->volume, label) : "-", held, e->mark ? " *" : "");
}

static int widest(const loft_bytes *t, unsigned type)
{
    char text[200];
    int most = 0;
    for (unsigned place = 0; place < loft_elements(t); place++) {
        const loft_element e = loft_element_at(t, place);
        const int width = e.type == type ? cell(t, &e, text, sizeof text) : 0;
        most = width > most ? width : most;
    }
    return most;
}

static void show_type(FILE *out, const loft_bytes *t, unsigned type, const char *title, unsigned width)
{
    const int each = widest(t, type), room = (int)width - 2;
    const unsigned columns = each + 2 > room ? 1 : (unsigned)((room + 2) / (each + 2));
    const unsigned count = loft_shape_of(t).count[type];
    unsigned shown = 0, full = 0;
    char text[200];
    for (unsigned place = 0; place < loft_elements(t); place++) {
        const loft_element e = loft_element_at(t, place);
        full += e.type == type && e.volume != 0;
    }
    if (count == 0)
        return;
    fprintf(out, "\n%s: %u, %u full\n", title, count, full);
    for (unsigned place = 0; place < loft_elements(t); place++) {
        const loft_element e = loft_element_at(t, place);
        if (e.type != type)
            continue;
        cell(t, &e, text, sizeof text);
        const bool last = ++shown == count || shown % columns == 0;
        fprintf(out, "%s%-*s%s", shown % columns == 1 || columns == 1 ? "  " : "", last ? 0 : each, text, last ? "\n" : "  ");
    }
}

/* The hosts that a test picks out, in one line. */
static void show_which(FILE *out, const uint8_t *head, const char *what, bool (*has)(const uint8_t *head, unsigned host))
{
    unsigned count = 0;
    for (unsigned host = 1; host <= SMC_HOSTS; host++)
        if (has(head, host)) {
            fprintf(out, count++ ? ", " : "%s: host ", what);
            fprintf(out, "%u", host);
        }
    fprintf(out, count > 0 ? "\n" : "");
}

static bool prevents(const uint8_t *head, unsigned host) { return head[SMC_HEAD_MASK] >> (host - 1) & 1; }
static bool saw_hand(const uint8_t *head, unsigned host) { return head[SMC_HOST_AT(host) + SMC_HOST_ATTENTION] == 0x28; }
static bool saw_reset(const uint8_t *head, unsigned host) { return head[SMC_HOST_AT(host) + SMC_HOST_ATTENTION] == 0x29; }

/* Who holds the unit, who prevents removal, and what hosts are still to be told. */
static void show_hosts(FILE *out, const loft_bytes *t)
{
    const uint8_t *head = t->bytes[LOFT_HEAD];
    if (head[SMC_HEAD_UNIT])
        fprintf(out, "host %u holds the unit\n", head[SMC_HEAD_UNIT]);
    show_which(out, head, "removal is prevented", prevents);
    show_which(out, head, "still to be told that a reel was brought in or taken out", saw_hand);
    show_which(out, head, "still to be told of a reset", saw_reset);
    for (unsigned host = 1; host <= SMC_HOSTS; host++) {
        const uint8_t *r = head + SMC_HOST_AT(host);
        if (r[SMC_HOST_KEY])
            fprintf(out, "host %u has sense %X/%02X/%02X: %s\n", host, r[0], r[1], r[2], sense_words(r[0], r[1], r[2]));
    }
}

static void show_legend(FILE *out, const loft_bytes *t)
{
    bool held = false, marked = false;
    for (unsigned place = 0; place < loft_elements(t); place++) {
        const loft_element e = loft_element_at(t, place);
        held = held || e.holder;
        marked = marked || e.mark;
    }
    fprintf(out, "\n-  empty%s%s\n", held ? "   [2:1]  host 2 holds it under id 1" : "", marked ? "   *  put there by hand" : "");
}

void show_text(FILE *out, const loft_store *store, unsigned width)
{
    const loft_bytes *t = &store->library.now;
    const uint8_t *head = t->bytes[LOFT_HEAD];
    fprintf(out, "%s: %u elements, %u reels known, %u shelves empty; the next line has number %u\n", store->path, loft_elements(t), loft_volumes(t),
            head[SMC_HEAD_FREE] * 256u + head[SMC_HEAD_FREE + 1], store->library.next);
    show_hosts(out, t);
    show_type(out, t, SMC_TRANSPORT, "transports", width);
    show_type(out, t, SMC_DRIVE, "drives", width);
    show_type(out, t, SMC_IMPORT_EXPORT, "mail slots", width);
    show_type(out, t, SMC_STORAGE, "shelves", width);
    show_legend(out, t);
}

static unsigned terminal_width(int fd)
{
    struct winsize w;
    return ioctl(fd, TIOCGWINSZ, &w) == 0 && w.ws_col >= LEAST_WIDTH ? w.ws_col : USUAL_WIDTH;
}

static bool show_as_page(arguments *a, const loft_store *store, loft_fault *fault)
{
    char *text = NULL;
    size_t length = 0;
    FILE *page = open_memstream(&text, &length);
    if (!page)
        return loft_fail(fault, WRONG, "no memory for the page");
    show_page(page, store);
    const bool whole = fclose(page) == 0;
    const bool good = whole ? loft_deliver(a, a->value[OPTION_HTML], text, length, fault) : loft_fail(fault, WRONG, "no memory for the page");
    free(text);
    return good;
}

int run_show(arguments *a)
{
    loft_store store;
    loft_fault fault;
    unsigned long width = terminal_width(a->fd);
    if (a->value[OPTION_WIDTH] && !loft_choose(a, OPTION_WIDTH, 10, LEAST_WIDTH, 10000, &width, &fault))
        return loft_say(a, &fault);
    if (!loft_enter(a, &store, LOFT_READ, &fault))
        return loft_say(a, &fault);
    bool good = true;
    if (a->value[OPTION_HTML])
        good = show_as_page(a, &store, &fault);
    else
        show_text(a->out, &store, (unsigned)width);
    loft_close(&store);
    return good ? DONE : loft_say(a, &fault);
}

/* ---- check ---- */

/* The tables that are written must be where the whole log leads from the tables as they were. */
static bool same_end(const loft_store *store, loft_bytes *then, FILE *progress, loft_fault *fault)
{
    const loft_library *l = &store->library;
    loft_replayed end;
    if (!loft_replay(then, &store->log, 0, l->first, NULL, progress, &end, fault))
        return false;
    if (end.number != 0 && !end.torn)
        return loft_fail(fault, REFUSED, "%s: line %u: number %u is expected, and %s: %s", store->log.path, end.lines + 1, end.expected, end.why, end.text);
    for (int t = 0; t < LOFT_TABLES; t++)
        if (then->length[t] != l->now.length[t] || memcmp(then->bytes[t], l->now.bytes[t], l->now.length[t]) != 0)
            return loft_fail(fault, REFUSED, "%s: the table %s is not what the %u lines of %s lead to: one of the files was changed by another hand", store->path,
                             loft_tables[t].name, end.lines, store->log.path);
    return true;
}

int run_check(arguments *a)
{
    loft_store store;
    loft_fault fault;
    loft_bytes then = {0};
    if (!loft_enter(a, &store, LOFT_READ, &fault))
        return loft_say(a, &fault);
    const bool good = loft_opening(&store.library, &then, &fault) && same_end(&store, &then, isatty(fileno(a->err)) ? a->err : NULL, &fault);
    if (good)
        fprintf(a->out, "%s: sound; its log %s has %u line%s, and leads to it\n", store.path, store.log.path, store.library.next - store.library.first, store.library.next - store.library.first == 1 ? "" : "s");
    loft_free(&then);
    loft_close(&store);
    return good ? DONE : loft_say(a, &fault);
}
