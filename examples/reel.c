/* Where did a reel go this morning? The log is replayed on the tables as they were at opening, one line a call, and behind each line the reel is looked for.
 * A line in the log is at fault: it is told, put right, and the replay goes on from there. */
#include "smc.h"
#include <stdio.h>
#include <string.h>

#define ELEMENTS 7

static uint8_t head[SMC_HEAD_SIZE];
static uint8_t elements[ELEMENTS * SMC_ELEMENT_SIZE];
static uint8_t tags[3 * SMC_TAG_SIZE];
static uint8_t blank[SMC_TAG_SIZE];
static const uint8_t generations[3] = {1, 1, 1};
static const uint8_t masks[1] = {SMC_MASK_BIT(1)};
static uint8_t search[SMC_SEARCH_SIZE]; /* all zeros: no search */

static const smc_tables tables = {
    .head = head,
    .head_len = sizeof head,
    .elements = elements,
    .elements_len = sizeof elements,
    .tags = tags,
    .tags_len = sizeof tags,
    .blank = blank,
    .blank_len = sizeof blank,
    .generations = generations,
    .generations_len = sizeof generations,
    .masks = masks,
    .masks_len = sizeof masks,
    .search = search,
    .search_len = sizeof search,
};

/* The elements in the order of their records, which is that of their addresses. */
static const struct {
    unsigned address;
    const char *name;
} places[ELEMENTS] = {{0x0001, "in the arm"}, {0x0010, "in the mail slot"}, {0x0100, "in the drive"}, {0x1000, "on shelf"},
                      {0x1001, "on shelf"},   {0x1002, "on shelf"},         {0x1003, "on shelf"}};

static char morning[] = "1041\t0\t01\t00100003\n"                  /* the operator imports volume 3 at 0010h */
                        "1042\t1\t000000000000\t\n"                /* host 1 asks whether the unit is ready, and is told of it */
                        "1043\t1\tA50000000010100100000000\t\n"    /* host 1 moves it to shelf 1001h */
                        "1044\t1\tB8100000FFFF00FFFFFF0000\t\n"    /* host 1 lists all elements: no answer is kept */
                        "1045\t0\t01\t00100003\n"                  /* import of volume 3 again: the core refused it by number; it counts */
                        "1046\t1\tA50000001001010000000000\t\n"    /* host 1 moves it to the drive */
                        "1047\t1\ta50000000100100300000000\t\n"    /* .. and to shelf 1003h; a small letter is another form */
                        "1048\t1\tA50000001000010000000000\t\n";   /* host 1 moves volume 1 to the drive */

static void put16(uint8_t *at, unsigned value)
{
    at[0] = (uint8_t)(value >> 8);
    at[1] = (uint8_t)value;
}

static void put_range(int type, unsigned first, unsigned count)
{
    put16(head + SMC_RANGE_AT(type) + SMC_RANGE_FIRST, first);
    put16(head + SMC_RANGE_AT(type) + SMC_RANGE_COUNT, count);
}

/* As at opening: volume 1 at 1000h, volume 2 at 1002h, two shelves empty. The cartridges are those of that morning too: all of generation 1,
 * which the drive takes. Where a reel went is told by its number, so the labels may be any. */
static void open_library(void)
{
    put_range(SMC_TRANSPORT, 0x0001, 1);
    put_range(SMC_STORAGE, 0x1000, 4);
    put_range(SMC_IMPORT_EXPORT, 0x0010, 1);
    put_range(SMC_DRIVE, 0x0100, 1);
    put16(elements + 3 * SMC_ELEMENT_SIZE + SMC_ELEMENT_VOLUME, 1);
    put16(elements + 5 * SMC_ELEMENT_SIZE + SMC_ELEMENT_VOLUME, 2);
    put16(head + SMC_HEAD_FREE, 2);
}

/* Which element holds the volume; ELEMENTS for none. */
static int place_of(unsigned volume)
{
    int place = 0;
    for (const uint8_t *e = elements; place < ELEMENTS; place++, e += SMC_ELEMENT_SIZE)
        if (e[SMC_ELEMENT_VOLUME] * 256u + e[SMC_ELEMENT_VOLUME + 1] == volume)
            break;
    return place;
}

static void tell(unsigned number, unsigned volume, int place)
{
    if (place < ELEMENTS)
        printf("line %u: volume %u is %s %04Xh\n", number, volume, places[place].name, places[place].address);
    else
        printf("line %u: volume %u is not in the library\n", number, volume);
}

/* Line by line to the end of the log, or to a line that is at fault; every change of place is told. Where the replay stopped. */
static smc_replayed follow(unsigned volume, size_t from, uint32_t expected)
{
    const uint8_t *log = (const uint8_t *)morning;
    const size_t length = strlen(morning);
    smc_replayed whole = {.place = from, .expected = expected};
    int before = place_of(volume);
    while (whole.number == 0 && whole.place < length) {
        const smc_replayed one = smc_replay(SMC_LEND(&tables), log + whole.place, length - whole.place, whole.expected, 1);
        const int now = place_of(volume);
        if (now != before)
            tell(whole.expected, volume, now);
        before = now;
        whole.number = one.number;
        whole.lines += one.lines;
        whole.place += one.place;
        whole.expected = one.expected;
    }
    return whole;
}

int main(void)
{
    open_library();
    smc_replayed r = follow(3, 0, 1041);
    printf("%u lines applied, number %u\n", (unsigned)r.lines, (unsigned)r.number);
    if (r.number == SMC_WRONG_LINE) {
        char *line = morning + r.place;
        printf("line %u is expected, and this is no such line: %.*s\n", (unsigned)r.expected, (int)strcspn(line, "\n"), line);
        *strchr(line, 'a') = 'A';
        r = follow(3, r.place, r.expected);
        printf("put right: %u lines applied, number %u\n", (unsigned)r.lines, (unsigned)r.number);
    }
    return r.number != 0;
}
