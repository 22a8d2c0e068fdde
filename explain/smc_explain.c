/* Why tables are not sound: the clauses of crates/rules/specs/Sound.antt, in their order but for the ranges, and for the generations and the search, which come
 * behind the number of empty shelves: so the clauses of before keep their numbers. */
#include "smc_explain.h"
#include <stdbool.h>
#include <stdio.h>

enum { RANGES = 4, TRANSPORT = 1, STORAGE = 2, PORT = 3, DRIVE = 4 };
enum { HOSTS = 8, MOST_ELEMENTS = 512, MOST_TRANSPORTS = 127, MOST_VOLUMES = 512, MOST_KEY = 15, BEHIND_LAST = 65536 };
enum { UNIT = 16, RECORDS = 18, RECORD_BYTES = 5 };

typedef struct {
    unsigned first, count, kind;
} range;

/* What the clauses read, once what they stand on is known to hold. */
typedef struct {
    const uint8_t *head, *elements, *generations, *masks;
    size_t volumes;
    range ranges[RANGES]; /* in the order of the head.. */
    range sorted[RANGES]; /* ..and of their addresses */
    unsigned count;       /* of elements */
} library;

typedef struct {
    unsigned volume, source, holder, id, mark, zero;
} element;

static const smc_fault none = {0};

static unsigned get16(const uint8_t *at) { return (unsigned)at[0] << 8 | at[1]; }

static element element_at(const library *l, unsigned place)
{
    const uint8_t *e = l->elements + (size_t)SMC_ELEMENT_SIZE * place;
    return (element){get16(e), get16(e + 2), e[4], e[5], e[6], e[7]};
}

static smc_fault of_range(smc_clause clause, unsigned kind, uint64_t value, uint64_t other)
{
    return (smc_fault){.clause = clause, .range = (uint8_t)kind, .value = value, .other = other};
}

static smc_fault of_host(smc_clause clause, unsigned host, uint64_t value)
{
    return (smc_fault){.clause = clause, .host = (uint8_t)host, .value = value};
}

/* The address and the type of a place: "one for each address in the ranges, ascending". */
static range slot(const library *l, unsigned place)
{
    const range *r = l->sorted;
    for (; place >= r->count; r++)
        place -= r->count;
    return (range){r->first + place, 1, r->kind};
}

static smc_fault of_element(const library *l, smc_clause clause, unsigned place, uint64_t value, uint64_t other)
{
    uint16_t address = (uint16_t)slot(l, place).first;
    return (smc_fault){.clause = clause, .address = address, .place = (uint16_t)place, .value = value, .other = other};
}

/* ---- the head ---- */

static void read_ranges(library *l)
{
    for (unsigned r = 0; r < RANGES; r++) {
        unsigned at = r;
        l->ranges[r] = (range){get16(l->head + 4 * r), get16(l->head + 4 * r + 2), r + 1};
        l->count += l->ranges[r].count;
        for (; at > 0 && l->sorted[at - 1].first > l->ranges[r].first; at--)
            l->sorted[at] = l->sorted[at - 1];
        l->sorted[at] = l->ranges[r];
    }
}

/* "1 to 512 elements; 1 to 127 transports; at least one storage or import/export element" */
static smc_fault counts(const library *l)
{
    unsigned transports = l->ranges[0].count, shelves = l->ranges[1].count + l->ranges[2].count;
    if (l->count < 1 || l->count > MOST_ELEMENTS)
        return of_range(SMC_CLAUSE_ELEMENT_COUNT, 0, l->count, 0);
    if (transports < 1 || transports > MOST_TRANSPORTS)
        return of_range(SMC_CLAUSE_TRANSPORT_COUNT, 0, transports, 0);
    return shelves < 1 ? of_range(SMC_CLAUSE_NO_SHELF, 0, 0, 0) : none;
}

/* "each range within 1 to 65,535 with no overlap; a count of 0 has first address 0". Each is judged for itself before two are held together:
 * an empty range with an address in another one overlaps nothing. */
static smc_fault ranges(const library *l)
{
    const range *end = l->ranges + RANGES;
    for (const range *r = l->ranges; r < end; r++) {
        if (r->count == 0 && r->first != 0)
            return of_range(SMC_CLAUSE_EMPTY_RANGE_FIRST, r->kind, r->first, 0);
        if (r->count != 0 && (r->first < 1 || r->first + r->count > BEHIND_LAST))
            return of_range(SMC_CLAUSE_RANGE_WITHIN, r->kind, r->first < 1 ? 0 : r->first + r->count - 1, 0);
    }
    for (const range *r = l->ranges; r < end; r++)
        for (const range *s = r + 1; s < end; s++)
            if (r->first + r->count > s->first && s->first + s->count > r->first)
                return of_range(SMC_CLAUSE_RANGE_OVERLAP, r->kind, 0, s->kind);
    return none;
}

/* "Holder and unit holder are at most 8", "Sense key at most 15, and key 0 has codes 0. Attention is none, 28h/01h or 29h/00h." */
static smc_fault hosts(const library *l)
{
    const uint8_t *records = l->head + RECORDS;
    if (l->head[UNIT] > HOSTS)
        return of_host(SMC_CLAUSE_UNIT_HOLDER, 0, l->head[UNIT]);
    for (unsigned host = 1; host <= HOSTS; host++) {
        const uint8_t *r = records + RECORD_BYTES * (host - 1);
        if (r[0] > MOST_KEY)
            return of_host(SMC_CLAUSE_SENSE_KEY, host, r[0]);
        if (r[0] == 0 && get16(r + 1) != 0)
            return of_host(SMC_CLAUSE_CODES_WITHOUT_KEY, host, get16(r + 1));
    }
    for (unsigned host = 1; host <= HOSTS; host++) {
        unsigned codes = get16(records + RECORD_BYTES * (host - 1) + 3);
        if (codes != 0 && codes != 0x2801 && codes != 0x2900)
            return of_host(SMC_CLAUSE_ATTENTION_CODES, host, codes);
    }
    return none;
}

/* ---- the elements ---- */

static bool is_storage(const library *l, unsigned address)
{
    const range *r = l->ranges + STORAGE - 1;
    return address >= r->first && address < r->first + r->count;
}

/* "Each volume number is at most V", "Transports are empty"; a source is "only a storage address or 0", "and 0 where empty. The mark is 1 only on
 * a full import/export element, else 0." */
static smc_fault stock(const library *l, unsigned place)
{
    element e = element_at(l, place);
    unsigned kind = slot(l, place).kind;
    if (e.volume > l->volumes)
        return of_element(l, SMC_CLAUSE_VOLUME_NUMBER, place, e.volume, 0);
    if (kind == TRANSPORT && e.volume != 0)
        return of_element(l, SMC_CLAUSE_TRANSPORT_FULL, place, e.volume, 0);
    if (e.source != 0 && e.volume == 0)
        return of_element(l, SMC_CLAUSE_SOURCE_WHERE_EMPTY, place, e.source, 0);
    if (e.source != 0 && !is_storage(l, e.source))
        return of_element(l, SMC_CLAUSE_SOURCE_ADDRESS, place, e.source, 0);
    if (e.mark != 0 && (e.mark != 1 || kind != PORT || e.volume == 0))
        return of_element(l, SMC_CLAUSE_MARK_PLACE, place, e.mark, 0);
    return none;
}

/* "Holder .. at most 8; id is 0 where there is no holder; if the unit is held, no other host holds an element." */
static smc_fault hold(const library *l, unsigned place)
{
    element e = element_at(l, place);
    unsigned unit = l->head[UNIT];
    if (e.holder > HOSTS)
        return of_element(l, SMC_CLAUSE_HOLDER_NUMBER, place, e.holder, 0);
    if (e.holder == 0 && e.id != 0)
        return of_element(l, SMC_CLAUSE_ID_WITHOUT_HOLDER, place, e.id, 0);
    if (unit != 0 && e.holder != 0 && e.holder != unit)
        return of_element(l, SMC_CLAUSE_UNIT_HELD_ALONE, place, e.holder, unit);
    return none;
}

/* "the zero byte 0" */
static smc_fault zero(const library *l, unsigned place)
{
    element e = element_at(l, place);
    return e.zero != 0 ? of_element(l, SMC_CLAUSE_ZERO_BYTE, place, e.zero, 0) : none;
}

/* "and, 0 aside, stands at most once" */
static smc_fault once(const library *l, unsigned place)
{
    element e = element_at(l, place);
    for (unsigned before = 0; e.volume != 0 && before < place; before++)
        if (element_at(l, before).volume == e.volume)
            return of_element(l, SMC_CLAUSE_VOLUME_TWICE, place, e.volume, slot(l, before).first);
    return none;
}

static smc_fault elements_of(const library *l)
{
    static smc_fault (*const clauses[])(const library *, unsigned) = {stock, hold, zero, once};
    for (size_t c = 0; c < sizeof clauses / sizeof *clauses; c++)
        for (unsigned place = 0; place < l->count; place++) {
            smc_fault found = clauses[c](l, place);
            if (found.clause != SMC_SOUND)
                return found;
        }
    return none;
}

/* "Sound tables have it equal to the true count" */
static smc_fault empty_shelves(const library *l)
{
    unsigned number = get16(l->head + SMC_HEAD_FREE), count = 0;
    for (unsigned place = 0; place < l->count; place++)
        count += slot(l, place).kind == STORAGE && element_at(l, place).volume == 0;
    return number != count ? of_range(SMC_CLAUSE_EMPTY_SHELVES, 0, number, count) : none;
}

/* ---- the cartridges ---- */

/* "generation 1 to 8 for each volume" */
static smc_fault generations_of(const library *l)
{
    for (size_t volume = 1; volume <= l->volumes; volume++) {
        const unsigned generation = l->generations[volume - 1];
        if (generation < SMC_LEAST_GENERATION || generation > SMC_MOST_GENERATION)
            return of_range(SMC_CLAUSE_GENERATION_NUMBER, 0, generation, volume);
    }
    return none;
}

/* "A table that already has an ill-fitting volume in a drive is not sound." */
static smc_fault drives(const library *l)
{
    const uint8_t *mask = l->masks;
    for (unsigned place = 0; place < l->count; place++) {
        const unsigned volume = element_at(l, place).volume;
        if (slot(l, place).kind != DRIVE)
            continue;
        if (volume != 0 && !(*mask & SMC_MASK_BIT(l->generations[volume - 1])))
            return of_element(l, SMC_CLAUSE_DRIVE_TAKES, place, l->generations[volume - 1], *mask);
        mask++;
    }
    return none;
}

/* ---- the search ---- */

/* "All zeros means no search; only a wrong length, or a field's value that no search could leave, is number 1" */
static smc_fault search_of(const uint8_t *search, size_t length)
{
    bool any = false;
    if (length != SMC_SEARCH_SIZE)
        return of_range(SMC_CLAUSE_SEARCH_LENGTH, 0, length, 0);
    for (size_t at = 0; at < length; at++)
        any |= search[at] != 0;
    const unsigned action = search[SMC_SEARCH_ACTION], type = search[SMC_SEARCH_TYPE];
    const unsigned next = (unsigned)search[SMC_SEARCH_NEXT] << 16 | get16(search + SMC_SEARCH_NEXT + 1);
    if (any && action != SMC_FIND_IN_RANGE && action != SMC_FIND_ANY_NUMBER)
        return of_range(SMC_CLAUSE_SEARCH_ACTION, 0, action, 0);
    if (type > DRIVE)
        return of_range(SMC_CLAUSE_SEARCH_TYPE, 0, type, 0);
    return next > BEHIND_LAST ? of_range(SMC_CLAUSE_SEARCH_NEXT, 0, next, 0) : none;
}

/* ---- the whole ---- */

smc_fault smc_explain(SMC_TABLES)
{
    library l = {.head = head, .elements = elements, .generations = generations, .masks = masks, .volumes = tags_len / SMC_TAG_SIZE};
    smc_fault found;
    (void)tags;
    (void)blank;
    if (head_len != SMC_HEAD_SIZE)
        return of_range(SMC_CLAUSE_HEAD_LENGTH, 0, head_len, 0);
    read_ranges(&l);
    if ((found = counts(&l)).clause || (found = ranges(&l)).clause || (found = hosts(&l)).clause)
        return found;
    if (l.volumes > MOST_VOLUMES)
        return of_range(SMC_CLAUSE_TAG_COUNT, 0, l.volumes, 0);
    if (tags_len % SMC_TAG_SIZE != 0)
        return of_range(SMC_CLAUSE_TAGS_LENGTH, 0, tags_len, 0);
    if (blank_len != SMC_TAG_SIZE)
        return of_range(SMC_CLAUSE_BLANK_LENGTH, 0, blank_len, 0);
    if (elements_len != (size_t)SMC_ELEMENT_SIZE * l.count)
        return of_range(SMC_CLAUSE_ELEMENTS_LENGTH, 0, elements_len, (uint64_t)SMC_ELEMENT_SIZE * l.count);
    if ((found = elements_of(&l)).clause || (found = empty_shelves(&l)).clause)
        return found;
    if (generations_len != l.volumes)
        return of_range(SMC_CLAUSE_GENERATIONS_LENGTH, 0, generations_len, l.volumes);
    if ((found = generations_of(&l)).clause)
        return found;
    if (masks_len != l.ranges[DRIVE - 1].count)
        return of_range(SMC_CLAUSE_MASKS_LENGTH, 0, masks_len, l.ranges[DRIVE - 1].count);
    if ((found = drives(&l)).clause)
        return found;
    return search_of(search, search_len);
}

/* ---- in words ---- */

static const char *const range_names[] = {"", "transport", "storage", "import/export", "drive"};

/* The rule; what the value is called, and whether it is told in decimal or in hexadecimal, or not at all. */
static const struct {
    const char *rule, *value;
    enum { NOT_TOLD, DECIMAL, HEXADECIMAL } base;
} words[] = {
    [SMC_SOUND] = {"the tables are sound", "", NOT_TOLD},
    [SMC_CLAUSE_HEAD_LENGTH] = {"the head has 60 bytes", "length", DECIMAL},
    [SMC_CLAUSE_ELEMENT_COUNT] = {"there are 1 to 512 elements", "number", DECIMAL},
    [SMC_CLAUSE_TRANSPORT_COUNT] = {"there are 1 to 127 transports", "number", DECIMAL},
    [SMC_CLAUSE_NO_SHELF] = {"there is a storage or import/export element", "", NOT_TOLD},
    [SMC_CLAUSE_EMPTY_RANGE_FIRST] = {"a range with count 0 has first address 0", "first address", HEXADECIMAL},
    [SMC_CLAUSE_RANGE_WITHIN] = {"each range lies within 1 to 65535", "address", DECIMAL},
    [SMC_CLAUSE_RANGE_OVERLAP] = {"no two ranges overlap", "", NOT_TOLD},
    [SMC_CLAUSE_UNIT_HOLDER] = {"the unit holder is at most 8", "unit holder", DECIMAL},
    [SMC_CLAUSE_SENSE_KEY] = {"a sense key is at most 15", "key", DECIMAL},
    [SMC_CLAUSE_CODES_WITHOUT_KEY] = {"sense key 0 has codes 0", "codes", HEXADECIMAL},
    [SMC_CLAUSE_ATTENTION_CODES] = {"attention is none, 2801h or 2900h", "codes", HEXADECIMAL},
    [SMC_CLAUSE_TAG_COUNT] = {"there are at most 512 tags", "number", DECIMAL},
    [SMC_CLAUSE_TAGS_LENGTH] = {"the tags have 36 bytes each", "length", DECIMAL},
    [SMC_CLAUSE_BLANK_LENGTH] = {"the blank label has 36 bytes", "length", DECIMAL},
    [SMC_CLAUSE_ELEMENTS_LENGTH] = {"the elements have 8 bytes each", "length", DECIMAL},
    [SMC_CLAUSE_VOLUME_NUMBER] = {"a volume number is at most the number of tags", "volume", DECIMAL},
    [SMC_CLAUSE_TRANSPORT_FULL] = {"transports are empty", "volume", DECIMAL},
    [SMC_CLAUSE_SOURCE_WHERE_EMPTY] = {"an empty element has source 0", "source", HEXADECIMAL},
    [SMC_CLAUSE_SOURCE_ADDRESS] = {"a source is 0 or a storage element's address", "source", HEXADECIMAL},
    [SMC_CLAUSE_MARK_PLACE] = {"the mark is 1 only on a full import/export element, else 0", "mark", DECIMAL},
    [SMC_CLAUSE_HOLDER_NUMBER] = {"a holder is at most 8", "holder", DECIMAL},
    [SMC_CLAUSE_ID_WITHOUT_HOLDER] = {"the reservation id is 0 where there is no holder", "id", DECIMAL},
    [SMC_CLAUSE_UNIT_HELD_ALONE] = {"if the unit is held, no other host holds an element", "holder", DECIMAL},
    [SMC_CLAUSE_ZERO_BYTE] = {"the last byte of an element is 0", "byte", DECIMAL},
    [SMC_CLAUSE_VOLUME_TWICE] = {"a volume stands in one element at most", "volume", DECIMAL},
    [SMC_CLAUSE_EMPTY_SHELVES] = {"the head's last two bytes are the number of empty storage elements", "number", DECIMAL},
    [SMC_CLAUSE_GENERATIONS_LENGTH] = {"there is a generation for each tag", "length", DECIMAL},
    [SMC_CLAUSE_GENERATION_NUMBER] = {"a generation is 1 to 8", "generation", DECIMAL},
    [SMC_CLAUSE_MASKS_LENGTH] = {"there is a mask for each drive", "length", DECIMAL},
    [SMC_CLAUSE_DRIVE_TAKES] = {"a full drive takes its volume's generation", "generation", DECIMAL},
    [SMC_CLAUSE_SEARCH_LENGTH] = {"the search has 41 bytes", "length", DECIMAL},
    [SMC_CLAUSE_SEARCH_ACTION] = {"a search is all zeros or has action 1 or 5", "action", DECIMAL},
    [SMC_CLAUSE_SEARCH_TYPE] = {"the type of a search is at most 4", "type", DECIMAL},
    [SMC_CLAUSE_SEARCH_NEXT] = {"the next address of a search is at most 10000h", "address", HEXADECIMAL},
};

enum { CLAUSES = sizeof words / sizeof *words };

const char *smc_clause_text(smc_clause clause)
{
    return (size_t)clause < CLAUSES ? words[clause].rule : "no clause has this number";
}

static void tell_where(const smc_fault *f, char *text, size_t size)
{
    if (f->range != 0 && f->range <= RANGES)
        snprintf(text, size, ": the %s range", range_names[f->range]);
    else if (f->host != 0)
        snprintf(text, size, ": host %u", f->host);
    else if (f->address != 0)
        snprintf(text, size, ": element %04Xh (place %u)", f->address, f->place);
}

static void tell_value(const smc_fault *f, char *text, size_t size)
{
    const char *name = words[f->clause].value;
    if (words[f->clause].base == DECIMAL)
        snprintf(text, size, ": %s %llu", name, (unsigned long long)f->value);
    if (words[f->clause].base == HEXADECIMAL)
        snprintf(text, size, ": %s %04llXh", name, (unsigned long long)f->value);
}

/* What it is held against; nothing for most clauses. */
static void tell_other(const smc_fault *f, char *text, size_t size)
{
    unsigned long long other = f->other;
    if (f->clause == SMC_CLAUSE_RANGE_OVERLAP && other <= RANGES)
        snprintf(text, size, " and the %s range", range_names[other]);
    if (f->clause == SMC_CLAUSE_UNIT_HELD_ALONE)
        snprintf(text, size, ", and host %llu holds the unit", other);
    if (f->clause == SMC_CLAUSE_ELEMENTS_LENGTH || f->clause == SMC_CLAUSE_EMPTY_SHELVES || f->clause == SMC_CLAUSE_GENERATIONS_LENGTH
        || f->clause == SMC_CLAUSE_MASKS_LENGTH)
        snprintf(text, size, " and not %llu", other);
    if (f->clause == SMC_CLAUSE_GENERATION_NUMBER)
        snprintf(text, size, " of volume %llu", other);
    if (f->clause == SMC_CLAUSE_DRIVE_TAKES)
        snprintf(text, size, ", and the mask is %02llXh", other);
    if (f->clause == SMC_CLAUSE_VOLUME_TWICE)
        snprintf(text, size, " stands in element %04llXh too", other);
}

int smc_fault_text(smc_fault fault, char *text, size_t size)
{
    char where[64] = "", value[64] = "", other[64] = "";
    if (fault.clause == SMC_SOUND || (size_t)fault.clause >= CLAUSES)
        return snprintf(text, size, "%s", smc_clause_text(fault.clause));
    tell_where(&fault, where, sizeof where);
    tell_value(&fault, value, sizeof value);
    tell_other(&fault, other, sizeof other);
    return snprintf(text, size, "clause %d, %s%s%s%s", (int)fault.clause, words[fault.clause].rule, where, value, other);
}
