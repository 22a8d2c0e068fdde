/* Pages for a browser and for print: one file each, without scripts. The shelves are drawn as a picture; every sign in it is text or the form of a line,
 * so that nothing is told by colour alone. */
#include "tool.h"
#include <stdlib.h>
#include <string.h>

enum { WIDTH = 1200, TALL = 36, TITLE = 30, ABOVE = 18, GAP = 8, WIDE_FROM = 65, DRAWN = 40, ROWS = 1000 };

/* Where the cells of the picture are. */
typedef struct {
    const loft_bytes *t;
    const loft_way *way; /* or null */
    unsigned columns, cell;
    unsigned above;               /* free room between a title and its first row, for arrows from and to outside */
    unsigned top[SMC_RANGES + 1]; /* of each type's first row */
    unsigned height;
} picture;

static const unsigned order[] = {SMC_TRANSPORT, SMC_DRIVE, SMC_IMPORT_EXPORT, SMC_STORAGE};
static const char *const titles[] = {"", "Transports", "Shelves", "Mail slots", "Drives"};

static void escaped(FILE *out, const char *text)
{
    for (; *text; text++) {
        const unsigned char c = (unsigned char)*text;
        if (c == '&' || c == '<' || c == '>' || c == '"' || c == '\'')
            fprintf(out, "&#%u;", c);
        else
            fputc(c < 0x20 || c == 0x7F ? '?' : c, out);
    }
}

static void begin_page(FILE *out, const char *before, const char *name)
{
    fprintf(out, "<!DOCTYPE html>\n<html lang=\"en\"><head><meta charset=\"utf-8\"><title>%s", before);
    escaped(out, name);
    fprintf(out, "</title>\n<style>\n"
                 "body { font: 15px/1.45 sans-serif; color: #111; background: #fff; max-width: 1200px; margin: 1.5em auto; padding: 0 1em }\n"
                 "h1 { font-size: 1.5em; margin: 0 0 .3em } h2 { font-size: 1.15em; margin: 1.4em 0 .4em }\n"
                 "svg { display: block; width: 100%%; height: auto } svg text { font-family: monospace; fill: #111; stroke: #fff; stroke-width: 4px; stroke-linejoin: round; paint-order: stroke }\n"
                 "table { border-collapse: collapse; width: 100%% } th, td { border: 1px solid #777; padding: 2px 7px; text-align: left }\n"
                 "th { background: #eee } td.l { font-family: monospace; white-space: nowrap; font-weight: bold } td.n { text-align: right } td.w { white-space: nowrap }\n"
                 ".two { columns: 2; column-gap: 1.5em } .two table { width: 98%% } h2 { break-after: avoid } tr { break-inside: avoid } thead { display: table-header-group }\n"
                 ".t { font: bold 17px sans-serif } .a { font-size: 12px } .e { font-size: 13px }\n"
                 ".full { fill: #fff; stroke: #111; stroke-width: 1.6 } .empty { fill: #f4f4f4; stroke: #888; stroke-dasharray: 4 3 }\n"
                 ".on { fill: #fff3c4; stroke: #111; stroke-width: 3.5 } .halo { fill: none; stroke: #fff; stroke-width: 4.5 }\n"
                 ".go { fill: none; stroke: #a00000; stroke-width: 1.8 } .dot { fill: #fff; stroke: #a00000; stroke-width: 1.6 }\n"
                 ".no { font-size: 12px; font-weight: bold; text-anchor: middle; stroke: none } .flag { font-size: 12px; font-weight: bold; text-anchor: end }\n"
                 "@page { size: A4; margin: 10mm } @media print { body { margin: 0; padding: 0; max-width: none; font-size: 10pt }\n"
                 "svg { max-height: 262mm } .picture { break-inside: avoid } th, td { padding: 1px 4px; font-size: 8.5pt; line-height: 1.25 } }\n"
                 "</style></head><body>\n<h1>%s", before);
    escaped(out, name);
    fprintf(out, "</h1>\n");
}

/* ---- the picture ---- */

static picture lay_out(const loft_bytes *t, const loft_way *way)
{
    const loft_shape s = loft_shape_of(t);
    picture p = {.t = t, .way = way, .columns = loft_elements(t) < WIDE_FROM ? 8 : 12, .above = way ? ABOVE : 0, .height = GAP};
    p.cell = WIDTH / p.columns;
    for (size_t i = 0; i < sizeof order / sizeof *order; i++) {
        const unsigned type = order[i], rows = (s.count[type] + p.columns - 1) / p.columns;
        if (rows == 0)
            continue;
        p.height += TITLE + p.above;
        p.top[type] = p.height;
        p.height += rows * TALL + GAP;
    }
    return p;
}

/* The upper left corner of an element's cell. */
static void corner(const picture *p, const loft_element *e, unsigned *x, unsigned *y)
{
    const unsigned nth = e->address - loft_shape_of(p->t).first[e->type];
    *x = nth % p->columns * p->cell;
    *y = p->top[e->type] + nth / p->columns * TALL;
}

static bool on_the_way(const loft_way *w, unsigned address)
{
    if (!w)
        return false;
    for (size_t i = w->steps > DRAWN ? w->steps - DRAWN : 0; i < w->steps; i++)
        if (w->step[i].from == address || w->step[i].to == address)
            return true;
    return w->now == address || w->start == address;
}

/* A label as large as it fits; one that does not fit is cut, and stands whole in the list below. */
static void draw_label(FILE *out, const picture *p, unsigned x, unsigned y, const char *label)
{
    char part[LOFT_LABEL + 4];
    const size_t length = strlen(label), large = (p->cell - 8) * 10 / 90, small = (p->cell - 8) * 10 / 69;
    snprintf(part, sizeof part, length > small ? "%.*s.." : "%.*s", (int)(length > small ? small - 2 : length), label);
    fprintf(out, "<text x=\"%u\" y=\"%u\" style=\"font-size:%dpx;font-weight:bold\">", x + 5, y + 29, length > large ? 11 : 15);
    escaped(out, part);
    fprintf(out, "</text>");
}

static void draw_frame(FILE *out, const picture *p, const loft_element *e)
{
    unsigned x, y;
    corner(p, e, &x, &y);
    fprintf(out, "<rect class=\"%s\" x=\"%u\" y=\"%u\" width=\"%u\" height=\"%d\"/>\n", on_the_way(p->way, e->address) ? "on" : e->volume ? "full" : "empty", x + 2,
            y + 2, p->cell - 4, TALL - 4);
}

static void draw_text(FILE *out, const picture *p, const loft_element *e)
{
    unsigned x, y;
    char label[LOFT_LABEL];
    const loft_way *w = p->way;
    corner(p, e, &x, &y);
    fprintf(out, "<text class=\"a\" x=\"%u\" y=\"%u\">%04Xh", x + 5, y + 14, e->address);
    if (e->holder)
        fprintf(out, " [%u:%u]", e->holder, e->id);
    fprintf(out, "%s</text>", e->mark ? " *" : "");
    if (e->volume)
        draw_label(out, p, x, y, loft_label(p->t, e->volume, label));
    else
        fprintf(out, "<text class=\"e\" x=\"%u\" y=\"%u\">empty</text>", x + 5, y + 29);
    if (w && (w->start == e->address || w->now == e->address))
        fprintf(out, "<text class=\"flag\" x=\"%u\" y=\"%u\">%s</text>", x + p->cell - 6, y + 14,
                w->start != w->now ? (w->now == e->address ? "now" : "start") : "start, now");
    fprintf(out, "\n");
}

/* Where a step begins or ends: in a cell, or above the cell of its other end for outside. Steps that meet in a cell have points of their own. */
static void point(const picture *p, unsigned address, unsigned other, unsigned nth, int *x, int *y)
{
    loft_element e;
    unsigned left = 0, top = 0;
    if (loft_element_of(p->t, address ? address : other, &e))
        corner(p, &e, &left, &top);
    *x = (int)(left + p->cell - 14 - nth % (p->cell - 28));
    *y = (int)top + (address ? TALL / 2 : -ABOVE - 4);
}

/* A point at so many tenths of a bent arrow, from a to b by way of c. */
static int along(int a, int c, int b, int tenths)
{
    const int left = 10 - tenths;
    return (left * left * a + 2 * tenths * left * c + tenths * tenths * b) / 100;
}

static bool on_a_title(const picture *p, int x, int y)
{
    for (size_t i = 0; i < sizeof order / sizeof *order; i++) {
        const int line = (int)(p->top[order[i]] - p->above) - 14;
        if (p->top[order[i]] && x < 115 && abs(y - line) < 18)
            return true;
    }
    return false;
}

/* The numbers drawn so far. */
typedef struct {
    int x[DRAWN], y[DRAWN];
    unsigned count;
} dots;

static bool is_free(const picture *p, const dots *d, int x, int y)
{
    for (unsigned i = 0; i < d->count; i++)
        if (abs(x - d->x[i]) < 22 && abs(y - d->y[i]) < 22)
            return false;
    return !on_a_title(p, x, y);
}

/* The number of a step, somewhere in the middle of its arrow, on no title and on no other number if there is room. */
static void draw_number(FILE *out, const picture *p, size_t index, const int ends[6], dots *d)
{
    int at = ends[0] == ends[4] ? 2 : 3 + (int)(index % 3) * 2, x = 0, y = 0;
    for (int tries = 0; tries < 8; tries++, at = at == 8 ? 1 : at + 1) {
        x = along(ends[0], ends[2], ends[4], at);
        y = along(ends[1], ends[3], ends[5], at);
        if (is_free(p, d, x, y))
            break;
    }
    if (d->count < DRAWN) {
        d->x[d->count] = x;
        d->y[d->count++] = y;
    }
    fprintf(out, "<circle class=\"dot\" cx=\"%d\" cy=\"%d\" r=\"%d\"/><text class=\"no\" x=\"%d\" y=\"%d\">%zu</text>\n", x, y, index < 99 ? 10 : 14, x, y + 4, index + 1);
}

/* How many of the steps drawn before this one came in or went out: their arrows stand side by side. */
static unsigned outside_before(const loft_way *w, size_t index)
{
    unsigned n = 0;
    for (size_t i = w->steps > DRAWN ? w->steps - DRAWN : 0; i < index; i++)
        n += w->step[i].from == 0 || w->step[i].to == 0;
    return n;
}

/* A step's arrow, or its number on it. Arrows are drawn below the texts, numbers above. */
static void draw_step(FILE *out, const picture *p, size_t index, dots *numbers)
{
    const loft_step *s = p->way->step + index;
    const bool outside = s->from == 0 || s->to == 0;
    const unsigned nth = outside ? 24 * outside_before(p->way, index) : 37 * (unsigned)(2 * index % 1000);
    const int bend = outside ? 0 : 14 + 8 * (int)(index % 4);
    int x, y, u, v;
    point(p, s->from, s->to, nth, &x, &y);
    point(p, s->to, s->from, outside ? nth : nth + 37, &u, &v);
    const int dx = u - x, dy = v - y, length = abs(dx) + abs(dy) + 1;
    const int ends[6] = {x, y, (x + u) / 2 - dy * bend / length, (y + v) / 2 + dx * bend / length, u, v};
    if (numbers) {
        draw_number(out, p, index, ends, numbers);
        return;
    }
    fprintf(out, "<path class=\"halo\" d=\"M%d %dQ%d %d %d %d\"/>", x, y, ends[2], ends[3], u, v);
    fprintf(out, "<path class=\"go\" marker-end=\"url(#tip)\" d=\"M%d %dQ%d %d %d %d\"/>\n", x, y, ends[2], ends[3], u, v);
}

static void draw_elements(FILE *out, const picture *p, void (*each)(FILE *, const picture *, const loft_element *))
{
    for (unsigned place = 0; place < loft_elements(p->t); place++) {
        const loft_element e = loft_element_at(p->t, place);
        each(out, p, &e);
    }
}

static void draw_steps(FILE *out, const picture *p, dots *numbers)
{
    const size_t steps = p->way ? p->way->steps : 0;
    for (size_t i = steps > DRAWN ? steps - DRAWN : 0; i < steps; i++)
        draw_step(out, p, i, numbers);
}

static void draw(FILE *out, const picture *p)
{
    dots numbers = {0};
    fprintf(out, "<div class=\"picture\"><svg viewBox=\"0 0 %d %u\" role=\"img\" aria-label=\"the elements of the library\">\n", WIDTH, p->height);
    fprintf(out, "<defs><marker id=\"tip\" viewBox=\"0 0 10 10\" refX=\"9\" refY=\"5\" markerWidth=\"8\" markerHeight=\"8\" orient=\"auto\">"
                 "<path d=\"M0 0L10 5L0 10z\" fill=\"#a00000\"/></marker></defs>\n");
    draw_elements(out, p, draw_frame);
    draw_steps(out, p, NULL);
    draw_elements(out, p, draw_text);
    for (size_t i = 0; i < sizeof order / sizeof *order; i++)
        if (p->top[order[i]])
            fprintf(out, "<text class=\"t\" x=\"2\" y=\"%u\">%s</text>\n", p->top[order[i]] - 8 - p->above, titles[order[i]]);
    draw_steps(out, p, &numbers);
    fprintf(out, "</svg></div>\n");
}

static void legend(FILE *out, bool way)
{
    fprintf(out, "<p>A cell with a whole line is full and shows its reel's label; one with a broken line is empty. "
                 "<b>[2:1]</b>: host 2 holds it under id 1. <b>*</b>: a person put the reel there.%s</p>\n",
            way ? " A thick line: the reel was there. The arrows have the numbers of the steps in the list below." : "");
}

/* ---- the library ---- */

typedef struct {
    char label[LOFT_LABEL];
    unsigned volume;
} row;

static int by_label(const void *a, const void *b)
{
    const row *r = a, *s = b;
    const int order_of = strcmp(r->label, s->label);
    return order_of ? order_of : (r->volume > s->volume) - (r->volume < s->volume);
}

static void list_reel(FILE *out, const loft_bytes *t, const row *r)
{
    char place[40], shelf[40] = "";
    loft_element e = {0};
    const bool inside = loft_element_with(t, r->volume, &e);
    if (e.source)
        loft_place_text(t, e.source, shelf);
    fprintf(out, "<tr><td class=\"l\">");
    escaped(out, r->label);
    fprintf(out, "</td><td class=\"w\">%s</td><td class=\"w\">%s</td><td>", inside ? loft_place_text(t, e.address, place) : "outside", shelf);
    if (e.holder)
        fprintf(out, "host %u, id %u", e.holder, e.id);
    fprintf(out, "%s%s</td></tr>\n", e.holder && e.mark ? "; " : "", e.mark ? "put there by hand" : "");
}

static void list_reels(FILE *out, const loft_bytes *t)
{
    const unsigned count = loft_volumes(t);
    row *rows = calloc(count ? count : 1, sizeof *rows);
    if (!rows)
        return;
    for (unsigned v = 1; v <= count; v++) {
        rows[v - 1].volume = v;
        loft_label(t, v, rows[v - 1].label);
    }
    qsort(rows, count, sizeof *rows, by_label);
    fprintf(out, "<h2>Reels by label</h2>\n<div class=\"%s\"><table><thead><tr><th>Label</th><th>Where</th><th>Last shelf</th><th>Held, mark</th></tr></thead><tbody>\n",
            count > 40 ? "two" : "one");
    for (unsigned i = 0; i < count; i++)
        list_reel(out, t, rows + i);
    fprintf(out, "</tbody></table></div>\n");
    free(rows);
}

void show_page(FILE *out, const loft_store *store)
{
    const loft_bytes *t = &store->library.now;
    const uint8_t *head = t->bytes[LOFT_HEAD];
    const picture p = lay_out(t, NULL);
    begin_page(out, "The library ", store->path);
    fprintf(out, "<p>%u elements, %u reels known, %u shelves empty; after line %u of its log.", loft_elements(t), loft_volumes(t),
            head[SMC_HEAD_FREE] * 256u + head[SMC_HEAD_FREE + 1], store->library.next - 1);
    if (head[SMC_HEAD_UNIT])
        fprintf(out, " Host %u holds the unit.", head[SMC_HEAD_UNIT]);
    for (unsigned host = 1; host <= SMC_HOSTS; host++)
        if (head[SMC_HEAD_MASK] >> (host - 1) & 1)
            fprintf(out, " Host %u prevents removal.", host);
    fprintf(out, "</p>\n");
    legend(out, false);
    draw(out, &p);
    list_reels(out, t);
    fprintf(out, "</body></html>\n");
}

/* ---- the way of a reel ---- */

static void list_step(FILE *out, const loft_way *w, size_t index)
{
    const loft_step *s = w->step + index;
    char from[40], to[40];
    static const char *const events[] = {"?", "IMPORT", "EXPORT"};
    fprintf(out, "<tr><td class=\"n\">%zu</td><td class=\"n\">%u</td><td>", index + 1, s->number);
    fprintf(out, s->host ? "host %u" : "the operator", s->host);
    fprintf(out, "</td><td>%s</td><td>%s</td><td>%s</td></tr>\n", s->host ? (s->code == SMC_MOVE_MEDIUM ? "MOVE" : "EXCHANGE") : events[s->code < 3 ? s->code : 0],
            loft_place_text(w->tables, s->from, from), loft_place_text(w->tables, s->to, to));
}

static void list_steps(FILE *out, const loft_way *w)
{
    fprintf(out, "<h2>Each line that moved it</h2>\n<table><thead><tr><th>Step</th><th>Line number</th><th>By</th><th>Call</th><th>From</th><th>To</th></tr></thead><tbody>\n");
    for (size_t i = 0; i < w->steps; i++) {
        if (i == ROWS && w->steps > 2 * ROWS) {
            i = w->steps - ROWS;
            fprintf(out, "<tr><td colspan=\"6\">Steps %d to %zu are left out here; the sheet of <b>--csv</b> has all.</td></tr>\n", ROWS + 1, i);
        }
        list_step(out, w, i);
    }
    fprintf(out, "</tbody></table>\n");
}

void way_page(FILE *out, const char *log, const loft_way *w, const loft_replayed *end)
{
    char label[LOFT_LABEL], start[40], now[40];
    const picture p = lay_out(w->tables, w);
    begin_page(out, "The way of ", loft_label(w->tables, w->volume, label));
    fprintf(out, "<p>Volume %u, by the log ", w->volume);
    escaped(out, log);
    fprintf(out, ", numbers %u to %u. At the start: <b>%s</b>. %s: <b>%s</b>. %zu step%s.</p>\n", w->first, end->expected - 1, loft_place_text(w->tables, w->start, start),
            end->number ? "When the replay stopped" : "Now", loft_place_text(w->tables, w->now, now), w->steps, w->steps == 1 ? "" : "s");
    if (end->number != 0) {
        fprintf(out, "<p><b>The log is at fault in line %u: number %u is expected, and ", end->lines + 1, end->expected);
        escaped(out, end->why);
        fprintf(out, ". What follows it is not told here.</b></p>\n");
    }
    if (w->steps > DRAWN)
        fprintf(out, "<p>The picture has the last %d of %zu steps; the list has %s.</p>\n", DRAWN, w->steps, w->steps > 2 * ROWS ? "the first and the last 1,000" : "all");
    legend(out, true);
    draw(out, &p);
    list_steps(out, w);
    fprintf(out, "</body></html>\n");
}
