/* loft new: tables from ranges and a list of labels. */
#define _GNU_SOURCE
#include "tool.h"
#include <stdlib.h>
#include <string.h>

enum { MOST_LIST = 1 << 20, LABEL_BYTES = 32 };

static void put16(uint8_t *at, unsigned value)
{
    at[0] = (uint8_t)(value >> 8);
    at[1] = (uint8_t)value;
}

/* A label of a list, and where its reel stands: 0 for nowhere. */
typedef struct {
    char label[LABEL_BYTES + 1];
    unsigned address, line, generation;
} reel;

typedef struct {
    reel reels[SMC_MOST_VOLUMES];
    unsigned count;
} list;

/* ---- ranges ---- */

static bool take_range(const arguments *a, option o, int type, loft_shape *shape, loft_fault *fault)
{
    const loft_bytes none = {0};
    const char *text = a->value[o], *dash = text ? strchr(text, '-') : NULL;
    char first[16];
    unsigned from, to;
    if (!text)
        return true;
    snprintf(first, sizeof first, "%.*s", dash ? (int)(dash - text) : 15, text);
    if (!loft_address_of(&none, first, &from, fault) || !loft_address_of(&none, dash ? dash + 1 : first, &to, fault))
        return loft_fail(fault, WRONG, "%s: no range: write FIRST-LAST in hexadecimal, as 1000-1003", text);
    if (from == 0 || to < from)
        return loft_fail(fault, WRONG, "%s: no range: addresses go from 0001 to FFFF, the lower one first", text);
    shape->first[type] = from;
    shape->count[type] = to - from + 1;
    return true;
}

static bool take_ranges(const arguments *a, loft_shape *shape, loft_fault *fault)
{
    if (!a->value[OPTION_TRANSPORTS])
        return loft_fail(fault, WRONG, "--transports RANGE is missing: a library has at least one arm");
    if (!a->value[OPTION_SHELVES] && !a->value[OPTION_MAIL])
        return loft_fail(fault, WRONG, "--shelves RANGE is missing: a library has shelves or mail slots");
    if (!take_range(a, OPTION_TRANSPORTS, SMC_TRANSPORT, shape, fault) || !take_range(a, OPTION_SHELVES, SMC_STORAGE, shape, fault) ||
        !take_range(a, OPTION_MAIL, SMC_IMPORT_EXPORT, shape, fault) || !take_range(a, OPTION_DRIVES, SMC_DRIVE, shape, fault))
        return false;
    const unsigned all = shape->count[1] + shape->count[2] + shape->count[3] + shape->count[4];
    if (all > SMC_MOST_ELEMENTS)
        return loft_fail(fault, WRONG, "%u elements in all, and a library has at most %d", all, SMC_MOST_ELEMENTS);
    return true;
}

/* ---- the list of labels ---- */

static bool take_label(reel *r, const char *path, const char *label, loft_fault *fault)
{
    const size_t length = strlen(label);
    if (length > LABEL_BYTES)
        return loft_fail(fault, WRONG, "%s: line %u: a label has at most %d bytes, and this one has %zu", path, r->line, LABEL_BYTES, length);
    for (size_t i = 0; i < length; i++)
        if (label[i] <= ' ' || label[i] >= 0x7F || label[i] == '\\')
            return loft_fail(fault, WRONG, "%s: line %u: byte %zu of the label is no visible ASCII character, or a backslash", path, r->line, i + 1);
    if (strncmp(label, "volume:", 7) == 0)
        return loft_fail(fault, WRONG, "%s: line %u: a label does not begin with volume:, which stands for a reel's number", path, r->line);
    strcpy(r->label, label);
    return true;
}

static bool take_reel(list *l, const char *path, unsigned line, char *text, loft_fault *fault)
{
    const loft_bytes none = {0};
    char *save = NULL, *label = strtok_r(text, " \t", &save), *address = strtok_r(NULL, " \t", &save), *generation = strtok_r(NULL, " \t", &save);
    if (!label || label[0] == '#')
        return true;
    if (l->count == SMC_MOST_VOLUMES)
        return loft_fail(fault, WRONG, "%s: line %u: more than %d reels", path, line, SMC_MOST_VOLUMES);
    reel *r = l->reels + l->count++;
    *r = (reel){.line = line, .generation = 1};
    if (!take_label(r, path, label, fault))
        return false;
    for (const reel *other = l->reels; other < r; other++)
        if (strcmp(other->label, label) == 0)
            return loft_fail(fault, WRONG, "%s: line %u: the label %s stands in line %u already", path, line, label, other->line);
    if (address && strcmp(address, "-") != 0 && (!loft_address_of(&none, address, &r->address, fault) || r->address == 0))
        return loft_fail(fault, WRONG, "%s: line %u: %s is no address: write 1 to 4 hexadecimal digits, or - for a reel outside", path, line, address);
    if (generation && (strlen(generation) != 1 || generation[0] < '1' || generation[0] > '8'))
        return loft_fail(fault, WRONG, "%s: line %u: %s is no generation: 1 to 8", path, line, generation);
    if (generation)
        r->generation = (unsigned)generation[0] - '0';
    if (strtok_r(NULL, " \t", &save))
        return loft_fail(fault, WRONG, "%s: line %u: more than a label, an address and a generation", path, line);
    return true;
}

static bool take_list(const char *path, list *l, loft_fault *fault)
{
    uint8_t *bytes = NULL;
    size_t length = 0;
    bool good = true;
    if (!path)
        return true;
    if (!loft_read_file(path, MOST_LIST, &bytes, &length, fault))
        return false;
    bytes[length] = 0;
    if (strlen((char *)bytes) != length)
        good = loft_fail(fault, WRONG, "%s: no text: byte %zu is a zero", path, strlen((char *)bytes) + 1);
    unsigned line = 1;
    for (char *at = (char *)bytes; good && at; line++) {
        char *feed = strchr(at, '\n'), *next = feed ? feed + 1 : NULL;
        if (feed)
            *feed = 0;
        at[strcspn(at, "\r")] = 0;
        good = take_reel(l, path, line, at, fault);
        at = next;
    }
    free(bytes);
    return good;
}

/* ---- the tables ---- */

static bool put_reels(loft_bytes *t, const list *l, const char *path, loft_fault *fault)
{
    unsigned empty = loft_shape_of(t).count[SMC_STORAGE];
    for (unsigned i = 0; i < l->count; i++) {
        const reel *r = l->reels + i;
        uint8_t *tag = t->bytes[LOFT_TAGS] + (size_t)SMC_TAG_SIZE * i;
        loft_element e;
        memcpy(tag, r->label, strlen(r->label));
        memset(tag + LABEL_BYTES, 0, SMC_TAG_SIZE - LABEL_BYTES);
        t->bytes[LOFT_GENERATIONS][i] = (uint8_t)r->generation;
        if (r->address == 0)
            continue;
        if (!loft_element_of(t, r->address, &e) || e.type == SMC_TRANSPORT)
            return loft_fail(fault, WRONG, "%s: line %u: %s can't stand at %04Xh: no shelf, mail slot or drive has this address", path, r->line, r->label, r->address);
        if (e.volume != 0)
            return loft_fail(fault, WRONG, "%s: line %u: %04Xh has a reel already: %s, of line %u", path, r->line, r->address, l->reels[e.volume - 1].label,
                             l->reels[e.volume - 1].line);
        put16(t->bytes[LOFT_ELEMENTS] + (size_t)SMC_ELEMENT_SIZE * e.place + SMC_ELEMENT_VOLUME, i + 1);
        empty -= e.type == SMC_STORAGE;
    }
    put16(t->bytes[LOFT_HEAD] + SMC_HEAD_FREE, empty);
    memset(t->bytes[LOFT_BLANK] + LABEL_BYTES, 0, SMC_TAG_SIZE - LABEL_BYTES);
    return true;
}

static bool make_tables(loft_library *library, const loft_shape *shape, loft_fault *fault)
{
    for (int t = 0; t < LOFT_TABLES; t++)
        if (!loft_room(&library->now, t, loft_tables[t].length(shape), fault))
            return false;
    for (int type = 1; type <= SMC_RANGES; type++) {
        uint8_t *r = library->now.bytes[LOFT_HEAD] + SMC_RANGE_AT(type);
        put16(r + SMC_RANGE_FIRST, shape->first[type]);
        put16(r + SMC_RANGE_COUNT, shape->count[type]);
    }
    return true;
}

/* Two digits for each drive, in address order. */
static bool put_masks(const arguments *a, loft_bytes *t, loft_fault *fault)
{
    const char *text = a->value[OPTION_MASKS];
    const size_t drives = t->length[LOFT_MASKS];
    if (!text)
        return true;
    if (strlen(text) != 2 * drives)
        return loft_fail(fault, WRONG, "--masks %s: two digits for each of %zu drives", text, drives);
    for (size_t i = 0; i < drives; i++) {
        const char byte[3] = {text[2 * i], text[2 * i + 1], 0};
        unsigned long value;
        if (!loft_number(byte, 16, 0xFF, &value))
            return loft_fail(fault, WRONG, "--masks %s: %s is no byte in hexadecimal", text, byte);
        t->bytes[LOFT_MASKS][i] = (uint8_t)value;
    }
    return true;
}

static bool keep_opening(loft_library *library, loft_fault *fault)
{
    loft_bytes written = {0};
    for (int t = 0; t < LOFT_TABLES; t++)
        if (loft_tables[t].written) {
            written.bytes[t] = library->now.bytes[t];
            written.length[t] = library->now.length[t];
        }
    return loft_copy(&library->then, &written, fault);
}

static bool build(const arguments *a, list *l, loft_library *library, loft_fault *fault)
{
    loft_shape shape = {0};
    char why[300];
    unsigned long first = 1;
    if (!take_ranges(a, &shape, fault) || !take_list(a->value[OPTION_LABELS], l, fault))
        return false;
    if (a->value[OPTION_FIRST] && !loft_choose(a, OPTION_FIRST, 10, 1, SMC_MOST_LINE_NUMBER, &first, fault))
        return false;
    shape.volumes = l->count;
    library->first = library->next = (uint32_t)first;
    if (!make_tables(library, &shape, fault) || !put_reels(&library->now, l, a->value[OPTION_LABELS], fault) || !put_masks(a, &library->now, fault))
        return false;
    if (!loft_sound(&library->now, why, sizeof why))
        return loft_fail(fault, REFUSED, "%s: not made: such a library is not sound: %s", a->operand[0], why);
    return keep_opening(library, fault);
}

int run_new(arguments *a)
{
    loft_library library = {0};
    loft_store store;
    loft_fault fault;
    list *l = calloc(1, sizeof *l);
    bool good = l ? build(a, l, &library, &fault) : loft_fail(&fault, WRONG, "no memory");
    good = good && loft_create(&store, a->operand[0], &library, &fault);
    if (good) {
        fprintf(a->out, "%s: made, with %u elements and %u reels; its log is %s\n", a->operand[0], loft_elements(&store.library.now), l->count, store.log.path);
        loft_close(&store);
    }
    loft_library_free(&library);
    free(l);
    return good ? DONE : loft_say(a, &fault);
}
