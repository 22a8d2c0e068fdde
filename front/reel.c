/* The way of one reel through a log. The lines are read only to see which can concern the reel; what such a line did, the core decides: the reel's place
 * in the element table is compared before and after. */
#include "loft.h"
#include <stdlib.h>
#include <string.h>

enum { OUTSIDE = SMC_MOST_ELEMENTS, EACH = SMC_ELEMENT_SIZE };

static bool stands(const loft_way *w, unsigned place)
{
    const uint8_t *e = w->tables->bytes[LOFT_ELEMENTS] + (size_t)EACH * place;
    return e[SMC_ELEMENT_VOLUME] == w->volume >> 8 && e[SMC_ELEMENT_VOLUME + 1] == (w->volume & 0xFF);
}

/* The reel's place, looked for where it was first, and then at `hint`, the address that a line names. */
static unsigned find(const loft_way *w, unsigned hint)
{
    const unsigned count = loft_elements(w->tables);
    loft_element e;
    if (w->place != OUTSIDE && stands(w, w->place))
        return w->place;
    if (loft_element_of(w->tables, hint, &e) && e.volume == w->volume)
        return e.place;
    for (unsigned place = 0; place < count; place++)
        if (stands(w, place))
            return place;
    return OUTSIDE;
}

static void settle(loft_way *w, unsigned place)
{
    w->place = place;
    w->now = place == OUTSIDE ? 0 : (uint16_t)loft_element_at(w->tables, place).address;
    snprintf(w->digits, sizeof w->digits, "%04X", w->now);
}

void loft_way_begin(loft_way *way, const loft_bytes *tables, unsigned volume, uint32_t first)
{
    *way = (loft_way){.volume = volume, .tables = tables, .first = first, .place = OUTSIDE};
    settle(way, find(way, 0));
    way->start = way->now;
}

void loft_way_free(loft_way *way)
{
    free(way->step);
    way->step = NULL;
}

/* The command's digits, and the host before them; null where the line does not look like one. */
static const uint8_t *command_of(const uint8_t *line, size_t length)
{
    const uint8_t *tab = memchr(line, '\t', length < 11 ? length : 11);
    const size_t front = tab ? (size_t)(tab - line) : 0;
    return tab && length > front + 5 && tab[2] == '\t' ? tab + 3 : NULL;
}

static bool names(const uint8_t *digits, const char *address) { return memcmp(digits, address, 4) == 0; }

static bool event_concerns(const loft_way *w, const uint8_t *command, size_t left)
{
    char volume[5];
    if (left < 2 || command[0] != '0')
        return true;
    if (command[1] == '3')
        return false;
    if (command[1] == '2')
        return left < 7 || (w->now != 0 && names(command + 3, w->digits));
    snprintf(volume, sizeof volume, "%04X", w->volume & 0xFFFF);
    return left < 11 || names(command + 7, volume);
}

/* A line can move the reel only if it is a move or an exchange that names the reel's element, its export or its import. A line that does not look like
 * one is handed to the core by itself. */
static bool concerns(void *self, const uint8_t *line, size_t length)
{
    const loft_way *w = self;
    const uint8_t *command = command_of(line, length);
    if (!command)
        return true;
    const size_t left = length - (size_t)(command - line);
    if (command[-2] == '0')
        return event_concerns(w, command, left);
    if (command[0] != 'A' || (command[1] != '5' && command[1] != '6') || w->now == 0)
        return false;
    return left < 24 || names(command + 8, w->digits) || names(command + 12, w->digits) || names(command + 16, w->digits);
}

static bool keep(loft_way *w, loft_step step, loft_fault *fault)
{
    if (w->steps == w->room) {
        const size_t room = w->room ? 2 * w->room : 64;
        loft_step *bigger = realloc(w->step, room * sizeof *bigger);
        if (!bigger)
            return loft_fail(fault, 2, "no memory for %zu steps of the reel", room);
        w->step = bigger;
        w->room = room;
    }
    w->step[w->steps++] = step;
    return true;
}

static uint8_t digit(uint8_t c) { return (uint8_t)(c <= '9' ? c - '0' : c - 'A' + 10); }

/* The destination of a move, the first one of an exchange; 0 for other lines. */
static unsigned destination(const uint8_t *command, size_t left)
{
    unsigned address = 0;
    for (int i = 12; i < 16 && left > 16; i++)
        address = address * 16 + digit(command[i]);
    return address & SMC_MOST_ADDRESS;
}

static bool applied(void *self, uint32_t number, const uint8_t *line, size_t length, loft_fault *fault)
{
    loft_way *w = self;
    const uint8_t *command = command_of(line, length);
    const unsigned place = find(w, command ? destination(command, length - (size_t)(command - line)) : 0);
    const uint16_t from = w->now;
    if (place == w->place || !command)
        return true;
    settle(w, place);
    return keep(w,
                (loft_step){.number = number,
                            .line = number - w->first + 1,
                            .host = digit(command[-2]),
                            .code = (uint8_t)(digit(command[0]) << 4 | digit(command[1])),
                            .from = from,
                            .to = w->now},
                fault);
}

/* Nothing should have moved it. If something did, this program does not know all commands of the core, and must not tell a wrong way. */
static bool passed(void *self, uint32_t number, loft_fault *fault)
{
    loft_way *w = self;
    if (find(w, 0) == w->place)
        return true;
    return loft_fail(fault, 2, "the reel was moved at or before number %u by a line of a kind that this program does not know", number);
}

loft_watch loft_way_watch(loft_way *way) { return (loft_watch){.self = way, .concerns = concerns, .applied = applied, .passed = passed}; }
