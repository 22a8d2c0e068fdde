/* The rules of the library in plain C, written for speed: what the command core is timed beside. It answers exactly what the core answers.
 * One loop judges the generations, one the elements, where it counts the empty shelves and holds each full drive to its mask; an address is found from the ranges; RESERVE keeps a mark for each place; a move adds
 * to the number of empty shelves and takes from it. A search compares labels in words, eight bytes at a time. A replay judges the tables and reads the ranges once, and makes no answer. */
#include "plain.h"
#include <stdbool.h>
#include <string.h>

enum { TRANSPORT = 1, STORAGE, PORT, DRIVE };
enum { HOSTS = 8, MOST_ELEMENTS = 512, MOST_TRANSPORTS = 127, MOST_VOLUMES = 512, GENERATIONS = 8, MOST_DESCRIPTORS = 32, DESCRIPTOR_BYTES = 6 };
enum { UNIT = 16, MASK = 17, RECORDS = 18, RECORD_BYTES = 5, FREE = 58 };
enum { VOLUME = 0, SOURCE = 2, HOLDER = 4, ID = 5, MARK = 6, ZERO = 7 };
enum { NOWHERE = MOST_ELEMENTS };
enum { MODE_MOST_BYTES = 256 };
enum { TEMPLATE_WORDS = SMC_TEMPLATE_SIZE / 8, MOST_NEXT = 0x10000 };

typedef struct {
    unsigned first, count, kind, place; /* place: where its elements begin in the table */
} range;

typedef struct {
    uint8_t *head, *elements;
    const uint8_t *tags, *blank, *generations, *masks;
    uint8_t *search;
    unsigned count, volumes, filled;
    range ranges[4]; /* those with elements, in order of address */
} library;

typedef struct {
    uint32_t host;
    const uint8_t *block, *parameters;
    uint8_t *answer;
    size_t block_len, parameters_len, answer_len;
    bool kept; /* the answer is wanted: a replay has no room for one and needs none */
} request;

static inline unsigned get16(const uint8_t *at) { return (unsigned)at[0] << 8 | at[1]; }

static inline void put16(uint8_t *at, unsigned value)
{
    at[0] = (uint8_t)(value >> 8);
    at[1] = (uint8_t)value;
}

static inline void put24(uint8_t *at, unsigned value)
{
    at[0] = (uint8_t)(value >> 16);
    put16(at + 1, value);
}

static inline unsigned get24(const uint8_t *at) { return (unsigned)at[0] << 16 | get16(at + 1); }

static inline unsigned min(unsigned a, unsigned b) { return a < b ? a : b; }

/* ---- the tables ---- */

/* The place of an address, NOWHERE for none; its type in *kind. */
static inline unsigned find(const library *l, unsigned address, unsigned *kind)
{
    for (unsigned r = 0; r < l->filled; r++)
        if (address - l->ranges[r].first < l->ranges[r].count) {
            *kind = l->ranges[r].kind;
            return l->ranges[r].place + address - l->ranges[r].first;
        }
    return NOWHERE;
}

static inline bool is_shelf(const library *l, unsigned address)
{
    unsigned kind = 0;
    find(l, address, &kind);
    return kind == STORAGE;
}

static bool read_ranges(library *l)
{
    unsigned of_kind[5] = {0};
    for (unsigned kind = TRANSPORT; kind <= DRIVE; kind++) {
        unsigned first = get16(l->head + 4 * (kind - 1)), count = get16(l->head + 4 * (kind - 1) + 2), at;
        of_kind[kind] = count;
        if (count == 0 ? first != 0 : first == 0 || first + count > 65536)
            return false;
        if (count == 0)
            continue;
        for (at = l->filled++; at > 0 && l->ranges[at - 1].first > first; at--)
            l->ranges[at] = l->ranges[at - 1];
        l->ranges[at] = (range){first, count, kind, 0};
    }
    for (unsigned r = 0; r < l->filled; r++) {
        if (r > 0 && l->ranges[r].first < l->ranges[r - 1].first + l->ranges[r - 1].count)
            return false;
        l->ranges[r].place = l->count;
        l->count += l->ranges[r].count;
    }
    return l->count <= MOST_ELEMENTS && of_kind[TRANSPORT] - 1 < MOST_TRANSPORTS && of_kind[STORAGE] + of_kind[PORT] > 0;
}

static bool hosts_sound(const library *l)
{
    const uint8_t *r = l->head + RECORDS;
    for (unsigned host = 0; host < HOSTS; host++, r += RECORD_BYTES) {
        unsigned attention = get16(r + 3);
        if (r[0] > 15 || (r[0] == 0 && (r[1] | r[2])) || (attention && attention != 0x2801 && attention != 0x2900))
            return false;
    }
    return l->head[UNIT] <= HOSTS;
}

/* All are 1 to 8, so that one less leaves the low three bits alone. A sum of what is wrong, without a way out of the loop, goes many bytes at a time. */
static bool generations_sound(const library *l)
{
    uint8_t wrong = 0;
    for (unsigned volume = 0; volume < l->volumes; volume++)
        wrong |= (uint8_t)(l->generations[volume] - 1);
    return wrong < GENERATIONS;
}

/* The mask is that of a drive, the volume is one that there is. */
static inline bool takes(const library *l, uint8_t mask, unsigned volume) { return mask >> (l->generations[volume - 1] - 1) & 1; }

static bool elements_sound(const library *l)
{
    uint8_t seen[MOST_VOLUMES + 1];
    const uint8_t *e = l->elements, *mask = l->masks, unit = l->head[UNIT];
    unsigned empty_shelves = 0;
    memset(seen, 0, l->volumes + 1);
    for (unsigned r = 0; r < l->filled; r++) {
        const unsigned kind = l->ranges[r].kind, most = kind == TRANSPORT ? 0 : l->volumes;
        unsigned full = 0; /* counted where a volume is marked: a sum over all elements took a fifth longer */
        for (const uint8_t *end = e + SMC_ELEMENT_SIZE * l->ranges[r].count; e < end; e += SMC_ELEMENT_SIZE) {
            const unsigned volume = get16(e + VOLUME), source = get16(e + SOURCE);
            if (volume > most || e[ZERO])
                return false;
            if (volume) {
                if (seen[volume]++)
                    return false;
                full++;
            }
            if (source && (!volume || !is_shelf(l, source)))
                return false;
            if (e[MARK] && (e[MARK] != 1 || kind != PORT || !volume))
                return false;
            if (e[HOLDER] ? e[HOLDER] > HOSTS || (unit && e[HOLDER] != unit) : e[ID])
                return false;
        }
        if (kind == STORAGE)
            empty_shelves = l->ranges[r].count - full;
        if (kind == DRIVE)
            for (const uint8_t *drive = e - SMC_ELEMENT_SIZE * l->ranges[r].count; drive < e; drive += SMC_ELEMENT_SIZE, mask++)
                if (get16(drive + VOLUME) && !takes(l, *mask, get16(drive + VOLUME)))
                    return false;
    }
    return empty_shelves == get16(l->head + FREE);
}

static bool search_sound(const library *l)
{
    const uint8_t *s = l->search;
    uint8_t any = 0;
    if (s[SMC_SEARCH_ACTION] == SMC_FIND_IN_RANGE || s[SMC_SEARCH_ACTION] == SMC_FIND_ANY_NUMBER)
        return s[SMC_SEARCH_TYPE] <= DRIVE && get24(s + SMC_SEARCH_NEXT) <= MOST_NEXT;
    for (unsigned at = 0; at < SMC_SEARCH_SIZE; at++)
        any |= s[at];
    return any == 0;
}

static inline bool read_tables(library *l, SMC_TABLES)
{
    *l = (library){.head = head, .elements = elements, .tags = tags, .blank = blank, .generations = generations, .masks = masks, .search = search,
                   .volumes = (unsigned)(tags_len / SMC_TAG_SIZE)};
    return head_len == SMC_HEAD_SIZE && blank_len == SMC_TAG_SIZE && tags_len <= MOST_VOLUMES * SMC_TAG_SIZE &&
           tags_len % SMC_TAG_SIZE == 0 && generations_len == l->volumes && search_len == SMC_SEARCH_SIZE && search_sound(l) && read_ranges(l) &&
           elements_len == (size_t)SMC_ELEMENT_SIZE * l->count && masks_len == get16(head + 4 * (DRIVE - 1) + 2) && hosts_sound(l) &&
           generations_sound(l) && elements_sound(l);
}

/* ---- how a call ends ---- */

static inline smc_reply refused(uint8_t number) { return (smc_reply){.number = number}; }

static inline smc_reply ends(library *l, uint32_t host, uint8_t status, uint8_t key, uint8_t asc, uint8_t ascq)
{
    uint8_t *record = l->head + RECORDS + RECORD_BYTES * (host - 1);
    record[0] = key;
    record[1] = asc;
    record[2] = ascq;
    return (smc_reply){.status = status};
}

#define GOOD ends(l, q->host, SMC_GOOD, 0, 0, 0)
#define CONFLICT ends(l, q->host, SMC_RESERVATION_CONFLICT, 0, 0, 0)
#define CHECK(asc, ascq) ends(l, q->host, SMC_CHECK_CONDITION, 5, asc, ascq)
#define INVALID_FIELD CHECK(0x24, 0x00)
#define LIST_LENGTH CHECK(0x1A, 0x00)
#define LIST_RESERVED CHECK(0x26, 0x00)
#define WRONG_ADDRESS CHECK(0x21, 0x01)
#define SOURCE_EMPTY CHECK(0x3B, 0x0E)
#define DESTINATION_FULL CHECK(0x3B, 0x0D)
#define WRONG_CARTRIDGE CHECK(0x30, 0x12)

/* ---- the commands ---- */

static smc_reply request_sense(library *l, const request *q)
{
    uint8_t *record = l->head + RECORDS + RECORD_BYTES * (q->host - 1), told[18] = {0x70, [7] = 0x0A};
    unsigned count = q->kept ? min(q->block[4], sizeof told) : 0;
    if (q->answer_len < count)
        return refused(SMC_ANSWER_TOO_SHORT);
    if (record[0]) {
        told[2] = record[0];
        memcpy(told + 12, record + 1, 2);
        memset(record, 0, 3);
    } else if (record[3]) {
        told[2] = 6;
        memcpy(told + 12, record + 3, 2);
        memset(record + 3, 0, 2);
    }
    if (count > 0)
        memcpy(q->answer, told, count);
    return (smc_reply){.count = count};
}

static inline bool others(const uint8_t *e, const request *q) { return e[HOLDER] && e[HOLDER] != q->host; }

static inline bool others_hold(const library *l, const request *q)
{
    for (const uint8_t *e = l->elements, *end = e + SMC_ELEMENT_SIZE * l->count; e < end; e += SMC_ELEMENT_SIZE)
        if (others(e, q))
            return true;
    return false;
}

static smc_reply reserve_unit(library *l, const request *q)
{
    if (q->parameters_len != 0)
        return INVALID_FIELD;
    if (others_hold(l, q))
        return CONFLICT;
    l->head[UNIT] = (uint8_t)q->host;
    return GOOD;
}

static smc_reply reserve_elements(library *l, const request *q)
{
    uint8_t named[MOST_ELEMENTS], host = (uint8_t)q->host, id = q->block[2];
    const uint8_t *d = q->parameters, *last = d + q->parameters_len;
    bool conflict = false;
    memset(named, 0, l->count);
    if (q->parameters_len == 0 || q->parameters_len > MOST_DESCRIPTORS * DESCRIPTOR_BYTES || q->parameters_len % DESCRIPTOR_BYTES)
        return LIST_LENGTH;
    for (; d < last; d += DESCRIPTOR_BYTES) {
        unsigned unused, number = get16(d + 2), place = find(l, get16(d + 4), &unused);
        if (get16(d))
            return LIST_RESERVED;
        if (place == NOWHERE || number > l->count - place)
            return WRONG_ADDRESS;
        for (unsigned end = number ? place + number : l->count; place < end; place++) {
            const uint8_t *e = l->elements + SMC_ELEMENT_SIZE * place;
            if (named[place])
                return WRONG_ADDRESS;
            named[place] = 1;
            conflict |= e[HOLDER] && (e[HOLDER] != host || e[ID] != id);
        }
    }
    if (conflict)
        return CONFLICT;
    for (unsigned place = 0; place < l->count; place++) {
        uint8_t *e = l->elements + SMC_ELEMENT_SIZE * place;
        if (named[place]) {
            e[HOLDER] = host;
            e[ID] = id;
        } else if (e[HOLDER] == host && e[ID] == id) {
            e[HOLDER] = e[ID] = 0;
        }
    }
    return GOOD;
}

static smc_reply release(library *l, const request *q)
{
    bool all = !(q->block[1] & 1);
    if (all && l->head[UNIT] == q->host)
        l->head[UNIT] = 0;
    for (uint8_t *e = l->elements, *end = e + SMC_ELEMENT_SIZE * l->count; e < end; e += SMC_ELEMENT_SIZE)
        if (e[HOLDER] == q->host && (all || e[ID] == q->block[2]))
            e[HOLDER] = e[ID] = 0;
    return GOOD;
}

static smc_reply prevent_allow(library *l, const request *q)
{
    uint8_t bit = (uint8_t)(1 << (q->host - 1));
    l->head[MASK] = q->block[4] ? l->head[MASK] | bit : l->head[MASK] & (uint8_t)~bit;
    return GOOD;
}

/* The record of the transport that is named, null for none. 0 names the lowest that no other host holds; where there is none, it is the last, whose holder
 * step 6 then finds. */
static inline uint8_t *transport(const library *l, const request *q)
{
    const unsigned address = get16(q->block + 2);
    unsigned kind = TRANSPORT, place = find(l, address ? address : get16(l->head), &kind);
    if (place == NOWHERE || kind != TRANSPORT)
        return NULL;
    uint8_t *arm = l->elements + SMC_ELEMENT_SIZE * place;
    if (!address)
        for (unsigned behind = get16(l->head + 2) - 1; behind > 0 && others(arm, q); behind--)
            arm += SMC_ELEMENT_SIZE;
    return arm;
}

/* An element that is no transport: its record, null for none, whether it is a shelf, and which generations it takes; shelves and slots take all. */
typedef struct {
    uint8_t *e;
    bool shelf;
    uint8_t mask;
} spot;

static inline spot spot_of(const library *l, unsigned address)
{
    unsigned kind = TRANSPORT, place = find(l, address, &kind);
    const uint8_t mask = kind == DRIVE ? l->masks[address - get16(l->head + 4 * (DRIVE - 1))] : 0xFF;
    return (spot){kind == TRANSPORT ? NULL : l->elements + SMC_ELEMENT_SIZE * place, kind == STORAGE, mask};
}

/* The first four bytes are volume and source. */
static inline void fill(uint8_t *e, unsigned volume, unsigned source)
{
    put16(e + VOLUME, volume);
    put16(e + SOURCE, source);
    e[MARK] = 0;
}

/* The source that a volume takes along: the shelf that it leaves, else the one that it had. */
static inline unsigned shelf_of(spot left, unsigned address) { return left.shelf ? address : get16(left.e + SOURCE); }

/* The number of empty shelves, where one place was left and another filled. */
static inline void count(library *l, spot left, spot filled)
{
    put16(l->head + FREE, get16(l->head + FREE) + left.shelf - filled.shelf);
}

static smc_reply move(library *l, const request *q)
{
    unsigned source = get16(q->block + 4), destination = get16(q->block + 6);
    const spot from = spot_of(l, source), to = spot_of(l, destination);
    uint8_t *t = transport(l, q), *s = from.e, *d = to.e;
    if (!t || !s || !d)
        return WRONG_ADDRESS;
    if (others(t, q) || others(s, q) || others(d, q))
        return CONFLICT;
    if (!get16(s + VOLUME))
        return SOURCE_EMPTY;
    if (get16(d + VOLUME))
        return DESTINATION_FULL;
    if (!takes(l, to.mask, get16(s + VOLUME)))
        return WRONG_CARTRIDGE;
    fill(d, get16(s + VOLUME), shelf_of(from, source));
    fill(s, 0, 0);
    count(l, from, to);
    return GOOD;
}

static smc_reply exchange(library *l, const request *q)
{
    unsigned source = get16(q->block + 4), first = get16(q->block + 6), second = get16(q->block + 8), up, down, up_shelf, down_shelf;
    const spot from = spot_of(l, source), by = spot_of(l, first), to = spot_of(l, second);
    uint8_t *t = transport(l, q), *s = from.e, *f = by.e, *g = to.e;
    if (!t || !s || !f || !g || f == s)
        return WRONG_ADDRESS;
    if (others(t, q) || others(s, q) || others(f, q) || others(g, q))
        return CONFLICT;
    up = get16(s + VOLUME);
    down = get16(f + VOLUME);
    if (!up || !down)
        return SOURCE_EMPTY;
    if (g != s && get16(g + VOLUME))
        return DESTINATION_FULL;
    if (!takes(l, by.mask, up) || !takes(l, to.mask, down))
        return WRONG_CARTRIDGE;
    up_shelf = shelf_of(from, source);
    down_shelf = shelf_of(by, first);
    fill(s, 0, 0);
    fill(f, up, up_shelf);
    fill(g, down, down_shelf);
    count(l, from, to);
    return GOOD;
}

static inline uint8_t *describe(const library *l, uint8_t *out, const uint8_t *e, unsigned address, unsigned kind, bool tags)
{
    static const uint8_t flags[] = {[TRANSPORT] = 0x00, [STORAGE] = 0x08, [PORT] = 0x38, [DRIVE] = 0x08};
    unsigned volume = get16(e + VOLUME);
    memset(out, 0, 16);
    put16(out, address);
    out[2] = flags[kind] | (volume != 0) | (uint8_t)(e[MARK] << 1);
    out[9] = get16(e + SOURCE) ? 0x80 : 0;
    memcpy(out + 10, e + SOURCE, 2);
    if (!tags)
        return out + 16;
    memcpy(out + 12, volume ? l->tags + SMC_TAG_SIZE * (volume - 1) : l->blank, SMC_TAG_SIZE);
    memset(out + 48, 0, 4);
    return out + 52;
}

static inline uint8_t *page_header(uint8_t *out, unsigned kind, bool tags, unsigned size, unsigned descriptors)
{
    memcpy(out, (uint8_t[5]){(uint8_t)kind, tags ? 0x80 : 0, 0, (uint8_t)size, 0}, 5);
    put24(out + 5, size * descriptors);
    return out + 8;
}

static smc_reply read_element_status(library *l, const request *q)
{
    const uint8_t *b = q->block;
    const bool tags = b[1] & 0x10;
    const unsigned type = b[1] & 0x0F, start = get16(b + 2), size = tags ? 52 : 16, allocation = (unsigned)b[7] << 16 | get16(b + 8);
    unsigned left = get16(b + 4), pages = 0, chosen = 0, counted = 0, returned = 8;
    bool open = true; /* nothing was cut yet */
    range page[4];
    unsigned shown[4];
    uint8_t header[8] = {0}, *out;
    if (!q->kept)
        return GOOD;
    for (unsigned r = 0; r < l->filled; r++) {
        range p = l->ranges[r];
        unsigned skipped = start > p.first ? min(start - p.first, p.count) : 0;
        p = (range){p.first + skipped, min(p.count - skipped, left), p.kind, p.place + skipped};
        if (p.count == 0 || (type && type != p.kind))
            continue;
        left -= p.count;
        chosen += p.count;
        counted += 8 + size * p.count;
        shown[pages] = open && allocation >= returned + 8 + size ? min(p.count, (allocation - returned - 8) / size) : 0;
        if (shown[pages])
            returned += 8 + size * shown[pages];
        open = shown[pages] == p.count;
        page[pages++] = p;
    }
    put16(header, pages ? page[0].first : 0);
    put16(header + 2, chosen);
    put24(header + 5, counted);
    if (allocation < 8)
        returned = allocation;
    if (q->answer_len < returned)
        return refused(SMC_ANSWER_TOO_SHORT);
    if (returned > 0)
        memcpy(q->answer, header, min(returned, 8));
    out = returned > 8 ? q->answer + 8 : NULL;
    for (unsigned p = 0; out && p < pages && shown[p]; p++) {
        const uint8_t *e = l->elements + SMC_ELEMENT_SIZE * page[p].place;
        out = page_header(out, page[p].kind, tags, size, page[p].count);
        for (unsigned i = 0; i < shown[p]; i++, e += SMC_ELEMENT_SIZE)
            out = describe(l, out, e, page[p].first + i, page[p].kind, tags);
    }
    GOOD;
    return (smc_reply){.count = returned};
}

/* ---- find by label ---- */

static smc_reply send_volume_tag(library *l, const request *q)
{
    const uint8_t *b = q->block, *list = q->parameters;
    uint8_t *s = l->search;
    if (q->parameters_len != SMC_TAG_LIST_SIZE)
        return LIST_LENGTH;
    if (get16(list + 32) | get16(list + 36))
        return LIST_RESERVED;
    memcpy(s, list, SMC_TEMPLATE_SIZE);
    s[SMC_SEARCH_TYPE] = b[1] & 0x0F;
    s[SMC_SEARCH_ACTION] = b[5];
    memcpy(s + SMC_SEARCH_LEAST, list + SMC_TAG_LIST_LEAST, 2);
    memcpy(s + SMC_SEARCH_GREATEST, list + SMC_TAG_LIST_GREATEST, 2);
    put24(s + SMC_SEARCH_NEXT, get16(b + 2));
    return GOOD;
}

/* What is compared of a label, in words: the bits of bytes that are no wild card and stand before the first '*'. */
typedef struct {
    uint64_t bits[TEMPLATE_WORDS], compared[TEMPLATE_WORDS];
    unsigned least, beyond; /* sequence numbers: least, and how many from there on */
} pattern;

static pattern pattern_of(const uint8_t *s)
{
    uint8_t compared[SMC_TEMPLATE_SIZE] = {0};
    const bool ranged = s[SMC_SEARCH_ACTION] == SMC_FIND_IN_RANGE;
    const unsigned least = ranged ? get16(s + SMC_SEARCH_LEAST) : 0, greatest = ranged ? get16(s + SMC_SEARCH_GREATEST) : 0xFFFF;
    pattern w = {.least = least, .beyond = greatest < least ? 0 : greatest - least + 1};
    for (unsigned at = 0; at < SMC_TEMPLATE_SIZE && s[at] != SMC_ANY_STRING; at++)
        compared[at] = s[at] == SMC_ANY_CHARACTER ? 0 : 0xFF;
    memcpy(w.compared, compared, sizeof compared);
    memcpy(w.bits, s, SMC_TEMPLATE_SIZE);
    return w;
}

static inline bool matches(const library *l, const pattern *w, unsigned volume)
{
    const uint8_t *label = l->tags + SMC_TAG_SIZE * (volume - 1);
    uint64_t shown[TEMPLATE_WORDS], differs = 0;
    memcpy(shown, label, sizeof shown);
    for (unsigned at = 0; at < TEMPLATE_WORDS; at++)
        differs |= (shown[at] ^ w->bits[at]) & w->compared[at];
    return !differs && get16(label + SMC_LABEL_SEQUENCE) - w->least < w->beyond;
}

/* The elements of a range that may be told, from so many places on, at most so many: their places in the range, and how many they are. */
static inline unsigned look(const library *l, const pattern *w, range p, unsigned from, unsigned most, uint16_t *found)
{
    const uint8_t *e = l->elements + SMC_ELEMENT_SIZE * (p.place + from);
    unsigned many = 0;
    for (; from < p.count && many < most; from++, e += SMC_ELEMENT_SIZE)
        if (get16(e + VOLUME) && matches(l, w, get16(e + VOLUME)))
            found[many++] = (uint16_t)from;
    return many;
}

/* The elements found, page by page, from the answer's ninth byte on; so many of each page are shown. */
static inline void tell_found(const library *l, uint8_t *out, const range *page, const unsigned *shown, unsigned pages, const uint16_t *at, bool tags)
{
    const unsigned size = tags ? 52 : 16;
    for (unsigned p = 0; p < pages && shown[p]; at += page[p++].count) {
        const uint8_t *first = l->elements + SMC_ELEMENT_SIZE * page[p].place;
        out = page_header(out, page[p].kind, tags, size, page[p].count);
        for (unsigned i = 0; i < shown[p]; i++)
            out = describe(l, out, first + SMC_ELEMENT_SIZE * at[i], page[p].first + at[i], page[p].kind, tags);
    }
}

/* In a replay there is no answer; what would have been told counts as told. */
static smc_reply request_address(library *l, const request *q)
{
    const uint8_t *b = q->block, *s = l->search;
    const bool tags = b[1] & 0x10;
    const unsigned type = b[1] & 0x0F, of = s[SMC_SEARCH_TYPE], start = get16(b + 2), next = get24(s + SMC_SEARCH_NEXT), from = start > next ? start : next;
    const unsigned size = tags ? 52 : 16, allocation = get16(b + 7);
    unsigned left = s[SMC_SEARCH_ACTION] ? get16(b + 4) : 0, pages = 0, chosen = 0, counted = 0, returned = 8, behind = next;
    const pattern w = pattern_of(s);
    bool open = true; /* nothing was cut yet */
    range page[4];
    unsigned shown[4];
    uint16_t found[MOST_ELEMENTS], *at = found; /* by page, one behind the other */
    uint8_t header[8] = {[SMC_LISTING_ACTION] = s[SMC_SEARCH_ACTION]};
    for (unsigned r = 0; r < l->filled; r++) {
        range p = l->ranges[r];
        const unsigned skipped = from > p.first ? min(from - p.first, p.count) : 0;
        if ((type && type != p.kind) || (of && of != p.kind))
            continue;
        const unsigned many = look(l, &w, p, skipped, left, at);
        if (many == 0)
            continue;
        if (chosen == 0)
            put16(header, p.first + at[0]);
        left -= many;
        chosen += many;
        counted += 8 + size * many;
        shown[pages] = open && allocation >= returned + 8 + size ? min(many, (allocation - returned - 8) / size) : 0;
        if (shown[pages]) {
            returned += 8 + size * shown[pages];
            behind = p.first + at[shown[pages] - 1] + 1;
        }
        open = shown[pages] == many;
        p.count = many;
        page[pages++] = p;
        at += many;
    }
    put16(header + 2, chosen);
    put24(header + 5, counted);
    if (allocation < 8)
        returned = allocation;
    if (q->kept && q->answer_len < returned)
        return refused(SMC_ANSWER_TOO_SHORT);
    if (chosen)
        put24(l->search + SMC_SEARCH_NEXT, behind);
    if (!q->kept)
        return GOOD;
    if (returned > 0)
        memcpy(q->answer, header, min(returned, 8));
    if (returned > 8)
        tell_found(l, q->answer + 8, page, shown, pages, found, tags);
    GOOD;
    return (smc_reply){.count = returned};
}

/* What stores, moves and exchanges. */
static const uint8_t capabilities[18] = {0x0E, 0, 0, 0x0E, 0x0E, 0x0E, 0, 0, 0, 0, 0, 0x0E, 0x0E, 0x0E};

static inline uint8_t *page(uint8_t *out, uint8_t code, const uint8_t *bytes, unsigned count)
{
    out[0] = code;
    out[1] = (uint8_t)count;
    memcpy(out + SMC_MODE_PAGE_HEADER_SIZE, bytes, count);
    return out + SMC_MODE_PAGE_HEADER_SIZE + count;
}

/* Page control and page code are one byte, so that one that is not served asks for no page. */
static smc_reply mode_sense(library *l, const request *q)
{
    const uint8_t asked = q->block[2];
    const bool all = asked == SMC_MODE_ALL_PAGES, by_address = all || asked == SMC_MODE_ADDRESSES, of_arms = all || asked == SMC_MODE_GEOMETRY,
               of_types = all || asked == SMC_MODE_CAPABILITIES;
    const unsigned transports = get16(l->head + 2), geometry_bytes = SMC_MODE_ARM_SIZE * transports;
    const unsigned length = SMC_MODE_HEADER_SIZE + 20 * by_address + (SMC_MODE_PAGE_HEADER_SIZE + geometry_bytes) * of_arms + 20 * of_types;
    const unsigned count = min(q->block[4], length);
    uint8_t whole[SMC_MODE_HEADER_SIZE + 20 + SMC_MODE_PAGE_HEADER_SIZE + SMC_MODE_ARM_SIZE * MOST_TRANSPORTS + 20];
    uint8_t addresses[18] = {0}, geometry[SMC_MODE_ARM_SIZE * MOST_TRANSPORTS] = {0}, *out = whole + SMC_MODE_HEADER_SIZE;
    if (length == SMC_MODE_HEADER_SIZE || length > MODE_MOST_BYTES)
        return INVALID_FIELD;
    if (!q->kept)
        return GOOD;
    if (q->answer_len < count)
        return refused(SMC_ANSWER_TOO_SHORT);
    if (by_address) {
        memcpy(addresses, l->head, 16);
        out = page(out, SMC_MODE_ADDRESSES, addresses, sizeof addresses);
    }
    if (of_arms) {
        for (unsigned member = 0; member < transports; member++)
            geometry[SMC_MODE_ARM_SIZE * member + 1] = (uint8_t)member;
        out = page(out, SMC_MODE_GEOMETRY, geometry, geometry_bytes);
    }
    if (of_types)
        page(out, SMC_MODE_CAPABILITIES, capabilities, sizeof capabilities);
    memcpy(whole, (uint8_t[SMC_MODE_HEADER_SIZE]){(uint8_t)(length - 1)}, SMC_MODE_HEADER_SIZE);
    if (count > 0)
        memcpy(q->answer, whole, count);
    GOOD;
    return (smc_reply){.count = count};
}

/* ---- the order ---- */

static inline bool block_fits(const uint8_t *block, size_t length)
{
    static const uint8_t lengths[8] = {6, 10, 10, 0, 16, 12, 0, 0};
    return length > 0 && (lengths[block[0] >> 5] == 0 || lengths[block[0] >> 5] == length);
}

/* House numbers 2 to 4, then the steps. */
static inline smc_reply serve(library *l, const request *q)
{
    const uint8_t *b = q->block;
    const uint32_t host = q->host;
    if (host - 1 >= HOSTS)
        return refused(SMC_UNKNOWN_HOST);
    if (!block_fits(b, q->block_len))
        return refused(SMC_BLOCK_LENGTH);
    const uint8_t first = b[0];
    switch (first) {
    case 0x00: case 0x03: case 0x16: case 0x17: case 0x1A: case 0x1E: case 0xA5: case 0xA6: case 0xB5: case 0xB6: case 0xB8:
        if (q->parameters_len != (first == 0x16 ? get16(b + 3) : first == 0xB6 ? get16(b + 8) : 0))
            return refused(SMC_PARAMETER_LENGTH);
        break;
    default:
        return CHECK(0x20, 0x00);
    }
    if (first != 0x03) {
        uint8_t *attention = l->head + RECORDS + RECORD_BYTES * (host - 1) + 3, asc = attention[0], ascq = attention[1];
        if (asc) {
            memset(attention, 0, 2);
            return ends(l, host, SMC_CHECK_CONDITION, 6, asc, ascq);
        }
        if (first != 0x17 && l->head[UNIT] && l->head[UNIT] != host)
            return CONFLICT;
        if ((first == 0xB5 || first == 0xB6) && others_hold(l, q))
            return CONFLICT;
    }
    switch (first) {
    case 0x00:
        return (b[1] & 0x1F) | b[2] | b[3] | b[4] | b[5] ? INVALID_FIELD : GOOD;
    case 0x03:
        return (b[1] & 0x1F) | b[2] | b[3] | b[5] ? INVALID_FIELD : request_sense(l, q);
    case 0x16:
        return (b[1] & 0x1E) | b[5] ? INVALID_FIELD : b[1] & 1 ? reserve_elements(l, q) : reserve_unit(l, q);
    case 0x17:
        return (b[1] & 0x1E) | b[3] | b[4] | b[5] ? INVALID_FIELD : release(l, q);
    case 0x1A:
        return (b[1] & 0x17) | b[3] | b[5] ? INVALID_FIELD : mode_sense(l, q);
    case 0x1E:
        return (b[1] & 0x1F) | b[2] | b[3] | (b[4] & 0xFE) | b[5] ? INVALID_FIELD : prevent_allow(l, q);
    case 0xA5:
        return (b[1] & 0x1F) | b[8] | b[9] | b[10] | b[11] ? INVALID_FIELD : move(l, q);
    case 0xA6:
        return (b[1] & 0x1F) | b[10] | b[11] ? INVALID_FIELD : exchange(l, q);
    case 0xB5:
        return b[6] | b[9] | b[10] | b[11] || (b[1] & 0x0F) > 4 ? INVALID_FIELD : request_address(l, q);
    case 0xB6:
        return (b[1] & 0x10) | b[4] | b[6] | b[7] | b[10] | b[11] || (b[1] & 0x0F) > 4 || (b[5] != 1 && b[5] != 5) ? INVALID_FIELD : send_volume_tag(l, q);
    default:
        return b[6] | b[10] | b[11] || (b[1] & 0x0F) > 4 ? INVALID_FIELD : read_element_status(l, q);
    }
}

smc_reply plain_command(SMC_TABLES, SMC_COMMAND)
{
    const request asked = {host, block, parameters, answer, block_len, parameters_len, answer_len, true};
    library here, *l = &here;
    return read_tables(l, SMC_LENT) ? serve(l, &asked) : refused(SMC_TABLES_NOT_SOUND);
}

/* ---- the events ---- */

/* The record of an import/export element that may be filled or emptied; null for none, and the refusal in *why. */
static uint8_t *port(const library *l, uint32_t address, bool full, smc_reply *why)
{
    unsigned kind = 0, place = find(l, address, &kind), mask = l->head[MASK];
    uint8_t *e = kind == PORT ? l->elements + SMC_ELEMENT_SIZE * place : NULL;
    *why = refused(0);
    if (!e)
        *why = refused(SMC_NO_IMPORT_EXPORT);
    else if (mask)
        *why = (smc_reply){SMC_REMOVAL_PREVENTED, 0, (uint8_t)__builtin_popcount(mask), (uint8_t)(__builtin_ctz(mask) + 1), 0};
    else if ((get16(e + VOLUME) != 0) != full)
        *why = refused(SMC_FULL_OR_EMPTY);
    return why->number ? NULL : e;
}

static void tell_hosts(library *l)
{
    uint8_t *record = l->head + RECORDS;
    for (unsigned host = 0; host < HOSTS; host++, record += RECORD_BYTES)
        if (!record[3])
            put16(record + 3, 0x2801);
}

static smc_reply import(library *l, uint32_t address, uint32_t volume)
{
    smc_reply why;
    uint8_t *e = port(l, address, false, &why);
    if (!e)
        return why;
    if (volume - 1 >= l->volumes)
        return refused(SMC_WRONG_VOLUME);
    for (unsigned place = 0; place < l->count; place++)
        if (get16(l->elements + SMC_ELEMENT_SIZE * place) == volume)
            return refused(SMC_WRONG_VOLUME);
    fill(e, volume, 0);
    e[MARK] = 1;
    tell_hosts(l);
    return why;
}

static smc_reply export(library *l, uint32_t address)
{
    smc_reply why;
    uint8_t *e = port(l, address, true, &why);
    if (!e)
        return why;
    fill(e, 0, 0);
    tell_hosts(l);
    return why;
}

static smc_reply reset(library *l)
{
    l->head[UNIT] = l->head[MASK] = 0;
    memset(l->search, 0, SMC_SEARCH_SIZE);
    for (unsigned host = 0; host < HOSTS; host++)
        memcpy(l->head + RECORDS + RECORD_BYTES * host, (uint8_t[RECORD_BYTES]){0, 0, 0, 0x29, 0x00}, RECORD_BYTES);
    for (unsigned place = 0; place < l->count; place++)
        memset(l->elements + SMC_ELEMENT_SIZE * place + HOLDER, 0, 2);
    return refused(0);
}

smc_reply plain_import(SMC_TABLES, uint32_t address, uint32_t volume)
{
    library here, *l = &here;
    return read_tables(l, SMC_LENT) ? import(l, address, volume) : refused(SMC_TABLES_NOT_SOUND);
}

smc_reply plain_export(SMC_TABLES, uint32_t address)
{
    library here, *l = &here;
    return read_tables(l, SMC_LENT) ? export(l, address) : refused(SMC_TABLES_NOT_SOUND);
}

smc_reply plain_reset(SMC_TABLES)
{
    library here, *l = &here;
    return read_tables(l, SMC_LENT) ? reset(l) : refused(SMC_TABLES_NOT_SOUND);
}

/* ---- replay ---- */

enum { LONGEST_LINE = 512, MOST_DIGITS = 9, DIGIT = 0x10 };

/* The value of a digit, and DIGIT; 0 for what is none. */
static const uint8_t digits[256] = {
    ['0'] = 0x10, 0x11, 0x12, 0x13, 0x14, 0x15, 0x16, 0x17, 0x18, 0x19, ['A'] = 0x1A, 0x1B, 0x1C, 0x1D, 0x1E, 0x1F,
};

/* Bytes from pairs of digits. Goes as far as there are such; at the latest the line's end is none. */
static inline const uint8_t *decode(const uint8_t *at, uint8_t *out, size_t *count)
{
    const uint8_t *const began = out;
    for (;; at += 2) {
        const uint8_t high = digits[at[0]];
        if (!high || !digits[at[1]])
            break;
        *out++ = (uint8_t)(high << 4 | (digits[at[1]] & 0x0F));
    }
    *count = (size_t)(out - began);
    return at;
}

static inline bool happens(library *l, const request *q)
{
    const uint8_t *p = q->parameters;
    if (q->block_len != 1)
        return false;
    if (q->block[0] == 1 && q->parameters_len == 4)
        return import(l, get16(p), get16(p + 2)), true;
    if (q->block[0] == 2 && q->parameters_len == 2)
        return export(l, get16(p)), true;
    if (q->block[0] == 3 && q->parameters_len == 0)
        return reset(l), true;
    return false;
}

/* The line up to its line feed at `end`: whether it has the form and the number, and then what it does. */
static inline bool apply(library *l, const uint8_t *at, const uint8_t *end, uint32_t expected)
{
    uint8_t block[LONGEST_LINE / 2], parameters[LONGEST_LINE / 2];
    request q = {.block = block, .parameters = parameters, .kept = false};
    const uint8_t *const number_at = at;
    uint32_t number = 0;
    while ((unsigned)*at - '0' < 10 && at < number_at + MOST_DIGITS)
        number = number * 10 + (*at++ - '0');
    if (number != expected || number_at[0] == '0' || at == number_at || *at++ != '\t')
        return false;
    if ((unsigned)*at - '0' >= 10 || at[1] != '\t')
        return false;
    q.host = *at - '0';
    at = decode(at + 2, block, &q.block_len);
    if (*at++ != '\t')
        return false;
    if (decode(at, parameters, &q.parameters_len) != end)
        return false;
    if (q.host == 0)
        return happens(l, &q);
    serve(l, &q);
    return true;
}

smc_replayed plain_replay(SMC_TABLES, const uint8_t *log, size_t log_len, uint32_t expected, uint32_t budget)
{
    library here, *l = &here;
    smc_replayed told = {.expected = expected};
    if (!read_tables(l, SMC_LENT)) {
        told.number = SMC_TABLES_NOT_SOUND;
        return told;
    }
    while (told.lines < budget && told.place < log_len) {
        const size_t left = log_len - told.place;
        const uint8_t *line = log + told.place, *end = memchr(line, '\n', left > LONGEST_LINE ? LONGEST_LINE + 1 : left);
        if (!end || !apply(l, line, end, told.expected)) {
            told.number = SMC_WRONG_LINE;
            return told;
        }
        told.lines++;
        told.expected++;
        told.place += (size_t)(end - line) + 1;
    }
    return told;
}
