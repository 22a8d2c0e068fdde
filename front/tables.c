/* The lent tables in one list. A further table is a row here and a name in loft.h. */
#include "loft.h"
#include "smc_explain.h"
#include <stdarg.h>
#include <stdlib.h>
#include <string.h>

bool loft_fail(loft_fault *fault, int code, const char *format, ...)
{
    va_list words;
    va_start(words, format);
    fault->code = code;
    vsnprintf(fault->text, sizeof fault->text, format, words);
    va_end(words);
    return false;
}

static size_t of_head(const loft_shape *s) { return s ? SMC_HEAD_SIZE : 0; }
static size_t of_blank(const loft_shape *s) { return s ? SMC_TAG_SIZE : 0; }
static size_t of_search(const loft_shape *s) { return s ? SMC_SEARCH_SIZE : 0; }
static size_t of_tags(const loft_shape *s) { return (size_t)SMC_TAG_SIZE * s->volumes; }
static size_t of_generations(const loft_shape *s) { return s->volumes; }
static size_t of_masks(const loft_shape *s) { return s->count[SMC_DRIVE]; }
static size_t of_elements(const loft_shape *s)
{
    size_t all = 0;
    for (int type = 1; type <= SMC_RANGES; type++)
        all += s->count[type];
    return SMC_ELEMENT_SIZE * all;
}

#define IN(name) #name, offsetof(smc_tables, name), offsetof(smc_tables, name##_len)

const loft_table loft_tables[LOFT_TABLES] = {
    [LOFT_HEAD] = {IN(head), true, of_head, SMC_HEAD_SIZE, 0, 1},
    [LOFT_ELEMENTS] = {IN(elements), true, of_elements, SMC_ELEMENT_SIZE * SMC_MOST_ELEMENTS, 0, 1},
    [LOFT_TAGS] = {IN(tags), false, of_tags, SMC_TAG_SIZE * SMC_MOST_VOLUMES, ' ', 1},
    [LOFT_BLANK] = {IN(blank), false, of_blank, SMC_TAG_SIZE, ' ', 1},
    [LOFT_GENERATIONS] = {IN(generations), false, of_generations, SMC_MOST_VOLUMES, 1, 2},
    [LOFT_MASKS] = {IN(masks), false, of_masks, SMC_MOST_ELEMENTS, 0xFF, 2},
    [LOFT_SEARCH] = {IN(search), true, of_search, SMC_SEARCH_SIZE, 0, 3},
};

smc_tables loft_lend(const loft_bytes *tables)
{
    smc_tables lent = {0};
    for (int t = 0; t < LOFT_TABLES; t++) {
        memcpy((char *)&lent + loft_tables[t].at, &tables->bytes[t], sizeof tables->bytes[t]);
        memcpy((char *)&lent + loft_tables[t].length_at, &tables->length[t], sizeof tables->length[t]);
    }
    return lent;
}

/* Exactly so many bytes, so that a read behind them is seen by a tool that looks for such. */
bool loft_room(loft_bytes *tables, int table, size_t length, loft_fault *fault)
{
    free(tables->bytes[table]);
    tables->length[table] = length;
    tables->bytes[table] = malloc(length ? length : 1);
    if (!tables->bytes[table])
        return loft_fail(fault, 2, "no memory for %zu bytes", length);
    memset(tables->bytes[table], loft_tables[table].fill, length);
    return true;
}

bool loft_copy(loft_bytes *to, const loft_bytes *from, loft_fault *fault)
{
    for (int t = 0; t < LOFT_TABLES; t++) {
        if (!from->bytes[t])
            continue;
        if (!loft_room(to, t, from->length[t], fault))
            return false;
        memcpy(to->bytes[t], from->bytes[t], from->length[t]);
    }
    return true;
}

void loft_free(loft_bytes *tables)
{
    for (int t = 0; t < LOFT_TABLES; t++)
        free(tables->bytes[t]);
    memset(tables, 0, sizeof *tables);
}

loft_shape loft_shape_of(const loft_bytes *tables)
{
    loft_shape s = {0};
    const uint8_t *head = tables->bytes[LOFT_HEAD];
    if (tables->length[LOFT_HEAD] != SMC_HEAD_SIZE)
        return s;
    for (int type = 1; type <= SMC_RANGES; type++) {
        const uint8_t *r = head + SMC_RANGE_AT(type);
        s.first[type] = r[SMC_RANGE_FIRST] * 256u + r[SMC_RANGE_FIRST + 1];
        s.count[type] = r[SMC_RANGE_COUNT] * 256u + r[SMC_RANGE_COUNT + 1];
    }
    s.volumes = (unsigned)(tables->length[LOFT_TAGS] / SMC_TAG_SIZE);
    return s;
}

/* The core decides; smc_explain finds the words for it. */
bool loft_sound(const loft_bytes *tables, char *why, size_t size)
{
    const smc_tables t = loft_lend(tables);
    const smc_replayed judged = smc_replay(SMC_LEND(&t), NULL, 0, 1, 0);
    if (judged.number == 0)
        return true;
    smc_fault_text(smc_explain(SMC_LEND(&t)), why, size);
    return false;
}
