/* The library file: a magic, a version, lengths, the numbers that tie it to its log, every table by name, a check sum. docs/LOFT.md has its form. */
#include "loft.h"
#include <stdlib.h>
#include <string.h>

enum { MAGIC = 8, VERSION = 8, LENGTH = 12, FIRST = 16, NEXT = 20, PLACE = 24, PARTS = 32, HEADER = 36, NAME = 24, SUM = 4, MOST_PARTS = 32 };
enum { MOST_FILE = 1 << 20 };

/* The first byte is no text; the end of a line would be seen to be changed by a program that takes the file for text. */
static const uint8_t magic[MAGIC] = {0x8C, 'L', 'O', 'F', 'T', '\r', '\n', 0x1A};
static const char opening[] = "opening.";

static void put32(uint8_t *at, uint32_t value)
{
    for (int i = 0; i < 4; i++)
        at[i] = (uint8_t)(value >> (24 - 8 * i));
}

static uint32_t get32(const uint8_t *at) { return (uint32_t)at[0] << 24 | (uint32_t)at[1] << 16 | (uint32_t)at[2] << 8 | at[3]; }

/* CRC-32, as in many other files (polynomial EDB88320h). */
static uint32_t check_sum(const uint8_t *bytes, size_t length)
{
    uint32_t sum = 0xFFFFFFFF;
    for (size_t i = 0; i < length; i++) {
        sum ^= bytes[i];
        for (int bit = 0; bit < 8; bit++)
            sum = sum >> 1 ^ (sum & 1 ? 0xEDB88320u : 0);
    }
    return ~sum;
}

void loft_library_free(loft_library *library)
{
    loft_free(&library->now);
    loft_free(&library->then);
}

bool loft_opening(const loft_library *library, loft_bytes *copy, loft_fault *fault)
{
    return loft_copy(copy, &library->now, fault) && loft_copy(copy, &library->then, fault);
}

/* ---- written ---- */

static size_t size_of(const loft_bytes *tables)
{
    size_t size = 0;
    for (int t = 0; t < LOFT_TABLES; t++)
        if (tables->bytes[t])
            size += NAME + 4 + tables->length[t];
    return size;
}

static uint8_t *put_parts(uint8_t *at, const loft_bytes *tables, const char *before, uint32_t *parts)
{
    for (int t = 0; t < LOFT_TABLES; t++) {
        if (!tables->bytes[t])
            continue;
        snprintf((char *)at, NAME, "%s%s", before, loft_tables[t].name);
        put32(at + NAME, (uint32_t)tables->length[t]);
        memcpy(at + NAME + 4, tables->bytes[t], tables->length[t]);
        at += NAME + 4 + tables->length[t];
        ++*parts;
    }
    return at;
}

bool loft_library_encode(const loft_library *library, uint8_t **bytes, size_t *length, loft_fault *fault)
{
    uint32_t parts = 0;
    *length = HEADER + size_of(&library->now) + size_of(&library->then) + SUM;
    uint8_t *file = *bytes = calloc(1, *length);
    if (!file)
        return loft_fail(fault, 2, "no memory for %zu bytes", *length);
    memcpy(file, magic, MAGIC);
    put32(file + VERSION, LOFT_VERSION);
    put32(file + LENGTH, (uint32_t)*length);
    put32(file + FIRST, library->first);
    put32(file + NEXT, library->next);
    put32(file + PLACE, (uint32_t)(library->place >> 32));
    put32(file + PLACE + 4, (uint32_t)library->place);
    uint8_t *end = put_parts(file + HEADER, &library->now, "", &parts);
    end = put_parts(end, &library->then, opening, &parts);
    put32(file + PARTS, parts);
    put32(end, check_sum(file, *length - SUM));
    return true;
}

/* ---- read ---- */

/* The header and the check sum: everything that can be told before a table is looked at. */
static bool judge(const char *path, const uint8_t *bytes, size_t length, loft_fault *fault)
{
    if (length < MAGIC || memcmp(bytes, magic, MAGIC) != 0)
        return loft_fail(fault, 2, "%s: no library file: it does not begin with the bytes of one", path);
    if (length < HEADER + SUM)
        return loft_fail(fault, 2, "%s: cut off: %zu bytes, and its header alone has %d", path, length, HEADER + SUM);
    if (get32(bytes + VERSION) < 1 || get32(bytes + VERSION) > LOFT_VERSION)
        return loft_fail(fault, 2, "%s: of version %u, and this program knows versions 1 to %d: use a newer one", path, get32(bytes + VERSION), LOFT_VERSION);
    if (get32(bytes + LENGTH) != length)
        return loft_fail(fault, 2, "%s: %zu bytes long, and its header says %u: cut off or added to", path, length, get32(bytes + LENGTH));
    if (get32(bytes + length - SUM) != check_sum(bytes, length - SUM))
        return loft_fail(fault, 2, "%s: damaged: its check sum does not fit its bytes", path);
    return true;
}

static int table_named(const char *name)
{
    for (int t = 0; t < LOFT_TABLES; t++)
        if (strcmp(name, loft_tables[t].name) == 0)
            return t;
    return -1;
}

/* One table from byte *at on, which then is the byte behind it. */
static bool take_part(loft_library *library, const char *path, const uint8_t *bytes, size_t end, size_t *at, loft_fault *fault)
{
    char name[NAME + 1] = "";
    if (end - *at < NAME + 4)
        return loft_fail(fault, 2, "%s: byte %zu: a table's name and length are cut off", path, *at);
    memcpy(name, bytes + *at, NAME);
    const bool then = strncmp(name, opening, strlen(opening)) == 0;
    const int table = table_named(then ? name + strlen(opening) : name);
    const size_t length = get32(bytes + *at + NAME);
    loft_bytes *to = then ? &library->then : &library->now;
    if (table < 0 || (then && !loft_tables[table].written))
        return loft_fail(fault, 2, "%s: byte %zu: no table has the name that stands there", path, *at);
    if (to->bytes[table])
        return loft_fail(fault, 2, "%s: byte %zu: the table %s stands there a second time", path, *at, name);
    if (length > loft_tables[table].most || length > end - *at - NAME - 4)
        return loft_fail(fault, 2, "%s: byte %zu: the table %s has %zu bytes, which is more than it may have or the file has", path, *at, name, length);
    if (!loft_room(to, table, length, fault))
        return false;
    memcpy(to->bytes[table], bytes + *at + NAME + 4, length);
    *at += NAME + 4 + length;
    return true;
}

/* A table that came after the file's version is made with what it is filled with; any other must be there. */
static bool complete(loft_library *library, const char *path, uint32_t version, loft_fault *fault)
{
    for (int t = 0; t < LOFT_TABLES; t++) {
        const loft_table *table = loft_tables + t;
        const loft_shape shape = loft_shape_of(&library->now);
        const bool lacks = !library->now.bytes[t] || (table->written && !library->then.bytes[t]);
        if (lacks && version >= table->since)
            return loft_fail(fault, 2, "%s: the table %s is missing", path, table->name);
        if (!lacks)
            continue;
        const size_t length = table->length(&shape) <= table->most ? table->length(&shape) : 0;
        if (!loft_room(&library->now, t, length, fault) || (table->written && !loft_room(&library->then, t, length, fault)))
            return false;
    }
    return true;
}

bool loft_library_decode(loft_library *library, const char *path, const uint8_t *bytes, size_t length, loft_fault *fault)
{
    if (!judge(path, bytes, length, fault))
        return false;
    const size_t end = length - SUM;
    size_t at = HEADER;
    library->first = get32(bytes + FIRST);
    library->next = get32(bytes + NEXT);
    library->place = (uint64_t)get32(bytes + PLACE) << 32 | get32(bytes + PLACE + 4);
    if (library->first < 1 || library->next < library->first || library->next > SMC_MOST_LINE_NUMBER + 1u)
        return loft_fail(fault, 2, "%s: the log's numbers %u and %u are none", path, library->first, library->next);
    if (get32(bytes + PARTS) > MOST_PARTS)
        return loft_fail(fault, 2, "%s: %u tables, and at most %d are known", path, get32(bytes + PARTS), MOST_PARTS);
    for (uint32_t part = get32(bytes + PARTS); part > 0; part--)
        if (!take_part(library, path, bytes, end, &at, fault))
            return false;
    if (at != end)
        return loft_fail(fault, 2, "%s: byte %zu: %zu bytes behind the last table", path, at, end - at);
    return complete(library, path, get32(bytes + VERSION), fault);
}

bool loft_library_load(loft_library *library, const char *path, loft_fault *fault)
{
    uint8_t *bytes = NULL;
    size_t length = 0;
    memset(library, 0, sizeof *library);
    if (!loft_read_file(path, MOST_FILE, &bytes, &length, fault))
        return false;
    const bool good = loft_library_decode(library, path, bytes, length, fault);
    free(bytes);
    if (!good)
        loft_library_free(library);
    return good;
}
