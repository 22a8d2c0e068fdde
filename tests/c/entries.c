/* Every entry of the C interface on the small library: granted and refused calls, canary bytes round every lent slice, empty slices by
 * null pointers, numbers too large for a byte. Expected values are those of documents 01 and 02. The last line counts: "N passed, M failed". */
#include "smc.h"
#include <stdio.h>
#include <string.h>

/* The header's sizes follow from one another. */
_Static_assert(SMC_HEAD_FREE == SMC_HOST_AT(SMC_HOSTS + 1) && SMC_RANGE_AT(SMC_RANGES + 1) == SMC_HEAD_UNIT, "the head");
_Static_assert(SMC_HEAD_SIZE == SMC_HEAD_FREE + 2, "the number of empty storage elements");
_Static_assert(SMC_TAGGED_DESCRIPTOR_SIZE == SMC_PLAIN_DESCRIPTOR_SIZE + SMC_TAG_SIZE, "a descriptor");
_Static_assert(SMC_LARGEST_ANSWER == SMC_LISTING_HEADER_SIZE + SMC_RANGES * SMC_PAGE_HEADER_SIZE
                   + SMC_MOST_ELEMENTS * SMC_TAGGED_DESCRIPTOR_SIZE, "the largest answer");
_Static_assert(SMC_MASK_BIT(SMC_LEAST_GENERATION) == 0x01 && SMC_MASK_BIT(SMC_MOST_GENERATION) == 0x80, "a mask");
_Static_assert(SMC_LARGEST_MODE_ANSWER == UINT8_MAX, "the largest allocation of MODE SENSE");
_Static_assert(SMC_SEARCH_TYPE == SMC_SEARCH_TEMPLATE + SMC_TEMPLATE_SIZE && SMC_SEARCH_SIZE == SMC_SEARCH_NEXT + 3, "a search");
_Static_assert(SMC_TAG_LIST_SIZE == SMC_TAG_LIST_GREATEST + 2 && SMC_LABEL_SEQUENCE + 2 == SMC_TAG_SIZE, "the list of a search, and a label");
_Static_assert(sizeof(smc_reply) == 8, "the reply");
_Static_assert(sizeof(smc_replayed) == 24 && offsetof(smc_replayed, place) == 8 && offsetof(smc_replayed, expected) == 16, "what a replay ends with");

#define GUARD 16
#define CANARY 0xC5

/* A slice with canary bytes on both sides. */
#define LENT(name, size) static uint8_t name##_room[(size) + 2 * GUARD], *const name = name##_room + GUARD

LENT(head, SMC_HEAD_SIZE);
LENT(elements, 7 * SMC_ELEMENT_SIZE);
LENT(tags, 3 * SMC_TAG_SIZE);
LENT(blank, SMC_TAG_SIZE);
LENT(generations, 3);
LENT(masks, 1);
LENT(search, SMC_SEARCH_SIZE);
LENT(answer, 512);
LENT(log_lent, 1024);

static uint8_t head_before[SMC_HEAD_SIZE], elements_before[7 * SMC_ELEMENT_SIZE], search_before[SMC_SEARCH_SIZE], answer_before[512];
static uint8_t tags_before[3 * SMC_TAG_SIZE], blank_before[SMC_TAG_SIZE], generations_before[3], masks_before[1];
static int passed, failed;

static const smc_tables lent = {
    .head = head_room + GUARD,
    .head_len = SMC_HEAD_SIZE,
    .elements = elements_room + GUARD,
    .elements_len = 7 * SMC_ELEMENT_SIZE,
    .tags = tags_room + GUARD,
    .tags_len = 3 * SMC_TAG_SIZE,
    .blank = blank_room + GUARD,
    .blank_len = SMC_TAG_SIZE,
    .generations = generations_room + GUARD,
    .generations_len = 3,
    .masks = masks_room + GUARD,
    .masks_len = 1,
    .search = search_room + GUARD,
    .search_len = SMC_SEARCH_SIZE,
};
static const smc_tables nothing;

#define TABLES SMC_LEND(&lent)

static void expect(int holds, const char *call, const char *what)
{
    if (holds) {
        passed++;
    } else {
        failed++;
        printf("FAILED %s: %s\n", call, what);
    }
}

static void put16(uint8_t *at, unsigned value)
{
    at[0] = (uint8_t)(value >> 8);
    at[1] = (uint8_t)value;
}

static void guard(uint8_t *room, size_t size, int fill)
{
    memset(room, CANARY, size + 2 * GUARD);
    memset(room + GUARD, fill, size);
}

static int guarded(const uint8_t *room, size_t size)
{
    for (size_t i = 0; i < GUARD; i++)
        if (room[i] != CANARY || room[GUARD + size + i] != CANARY)
            return 0;
    return 1;
}

/* "Transport 0001h, import/export 0010h, drive 0100h, storage 1000h to 1003h. Volume 1 at 1000h, 2 at 1002h"; "both volumes are of generation 1 and the
 * drive takes it". */
static void small_library(void)
{
    static const unsigned ranges[4][2] = {{0x0001, 1}, {0x1000, 4}, {0x0010, 1}, {0x0100, 1}};
    guard(head_room, SMC_HEAD_SIZE, 0);
    guard(elements_room, 7 * SMC_ELEMENT_SIZE, 0);
    guard(tags_room, 3 * SMC_TAG_SIZE, 0x41);
    guard(blank_room, SMC_TAG_SIZE, 0x20);
    guard(generations_room, 3, 1);
    guard(masks_room, 1, 0x01);
    guard(search_room, SMC_SEARCH_SIZE, 0);
    guard(answer_room, 512, 0xEE);
    for (int k = 0; k < 4; k++) {
        put16(head + 4 * k, ranges[k][0]);
        put16(head + 4 * k + 2, ranges[k][1]);
    }
    put16(elements + 3 * SMC_ELEMENT_SIZE, 1);
    put16(elements + 5 * SMC_ELEMENT_SIZE, 2);
    put16(head + SMC_HEAD_FREE, 2);
}

static void remember(void)
{
    memcpy(head_before, head, sizeof head_before);
    memcpy(elements_before, elements, sizeof elements_before);
    memcpy(search_before, search, sizeof search_before);
    memcpy(answer_before, answer, sizeof answer_before);
    memcpy(tags_before, tags, sizeof tags_before);
    memcpy(blank_before, blank, sizeof blank_before);
    memcpy(generations_before, generations, sizeof generations_before);
    memcpy(masks_before, masks, sizeof masks_before);
}

/* What holds of every call: no canary touched, labels, generations and masks as they were, buffer as it was past the count. */
static void always(const char *call, smc_reply reply)
{
    expect(guarded(head_room, SMC_HEAD_SIZE) && guarded(elements_room, 7 * SMC_ELEMENT_SIZE)
               && guarded(tags_room, 3 * SMC_TAG_SIZE) && guarded(blank_room, SMC_TAG_SIZE) && guarded(generations_room, 3)
               && guarded(masks_room, 1) && guarded(search_room, SMC_SEARCH_SIZE) && guarded(answer_room, 512),
           call, "a byte outside a lent slice changed");
    expect(!memcmp(tags, tags_before, sizeof tags_before) && !memcmp(blank, blank_before, sizeof blank_before), call, "a label changed");
    expect(!memcmp(generations, generations_before, sizeof generations_before) && !memcmp(masks, masks_before, sizeof masks_before), call,
           "a generation or a mask changed");
    expect(reply.count <= 512 && !memcmp(answer + reply.count, answer_before + reply.count, 512 - reply.count), call,
           "a byte of the answer past the count changed");
}

static int untouched(void)
{
    return !memcmp(head, head_before, sizeof head_before) && !memcmp(elements, elements_before, sizeof elements_before)
           && !memcmp(search, search_before, sizeof search_before) && !memcmp(answer, answer_before, sizeof answer_before);
}

static void refused(const char *call, smc_reply reply, int number)
{
    always(call, reply);
    expect(reply.number == number, call, "another house number");
    expect(reply.status == 0 && reply.count == 0, call, "status and count of a refusal");
    expect(reply.number == 7 || (reply.preventers == 0 && reply.lowest == 0), call, "preventers of another number than 7");
    expect(untouched(), call, "a refusal changed a byte");
}

static void ended(const char *call, smc_reply reply, int status, uint32_t count)
{
    always(call, reply);
    expect(reply.number == 0, call, "a house number");
    expect(reply.status == status, call, "another status");
    expect(reply.count == count, call, "another count");
    expect(reply.preventers == 0 && reply.lowest == 0, call, "preventers without number 7");
}

static void sense_is(const char *call, unsigned host, int key, int asc, int ascq)
{
    const uint8_t *record = head + SMC_HOST_AT(host);
    expect(record[0] == key && record[1] == asc && record[2] == ascq, call, "another sense");
}

static void element_is(const char *call, int place, unsigned volume, unsigned source, int holder, int id, int mark)
{
    const uint8_t *e = elements + place * SMC_ELEMENT_SIZE;
    expect(e[0] * 256u + e[1] == volume && e[2] * 256u + e[3] == source && e[4] == holder && e[5] == id && e[6] == mark && e[7] == 0,
           call, "another element record");
}

static void free_is(const char *call, unsigned number)
{
    expect(head[SMC_HEAD_FREE] == number / 256 && head[SMC_HEAD_FREE + 1] == number % 256, call, "another number of empty shelves");
}

typedef smc_reply (*entry)(SMC_TABLES, SMC_COMMAND);

static smc_reply send(entry to, uint32_t host, const uint8_t *block, size_t length)
{
    remember();
    return to(TABLES, host, block, length, NULL, 0, answer, 512);
}

static const uint8_t ready[6] = {0x00}, sense18[6] = {0x03, 0, 0, 0, 18, 0}, prevent[6] = {0x1E, 0, 0, 0, 1, 0};
static const uint8_t p1[12] = {0xA5, 0, 0, 0, 0x10, 0x00, 0x01, 0x00}, p2[12] = {0xA5, 0, 0, 0, 0x10, 0x01, 0x01, 0x00};
static const uint8_t p7[12] = {0xA6, 0, 0, 0, 0x10, 0x00, 0x10, 0x02, 0x10, 0x00};
static const uint8_t p12[12] = {0xB8, 2, 0, 0, 0, 2, 0, 0, 0, 48};

/* Each named entry answers for any block: a move through every one of them. */
static void every_entry_moves(void)
{
    static const struct {
        const char *name;
        entry to;
    } entries[] = {{"smc_command", smc_command},           {"smc_test_unit_ready", smc_test_unit_ready},
                   {"smc_request_sense", smc_request_sense}, {"smc_reserve", smc_reserve},
                   {"smc_release", smc_release},           {"smc_prevent_allow", smc_prevent_allow},
                   {"smc_move_medium", smc_move_medium},   {"smc_exchange_medium", smc_exchange_medium},
                   {"smc_read_element_status", smc_read_element_status}, {"smc_mode_sense", smc_mode_sense},
                   {"smc_send_volume_tag", smc_send_volume_tag}, {"smc_request_volume_element_address", smc_request_volume_element_address}};
    for (size_t i = 0; i < sizeof entries / sizeof *entries; i++) {
        small_library();
        ended(entries[i].name, send(entries[i].to, 1, p1, 12), SMC_GOOD, 0);
        element_is(entries[i].name, 2, 1, 0x1000, 0, 0, 0);
        element_is(entries[i].name, 3, 0, 0, 0, 0, 0);
        free_is(entries[i].name, 3);
        small_library();
        refused(entries[i].name, send(entries[i].to, 257, p1, 12), SMC_UNKNOWN_HOST);
        refused(entries[i].name, send(entries[i].to, 0, p1, 12), SMC_UNKNOWN_HOST);
        refused(entries[i].name, send(entries[i].to, 1, p1, 11), SMC_BLOCK_LENGTH);
        refused(entries[i].name, send(entries[i].to, 1, NULL, 0), SMC_BLOCK_LENGTH);
        head[16] = 9;
        refused(entries[i].name, send(entries[i].to, 1, p1, 12), SMC_TABLES_NOT_SOUND);
    }
}

static void commands(void)
{
    small_library();
    ended("ready", send(smc_test_unit_ready, 8, ready, 6), SMC_GOOD, 0);
    ended("P2", send(smc_move_medium, 1, p2, 12), SMC_CHECK_CONDITION, 0);
    sense_is("P2", 1, 5, 0x3B, 0x0E);
    expect(!memcmp(elements, elements_before, sizeof elements_before), "P2", "a refusal moved a volume");
    ended("sense", send(smc_request_sense, 1, sense18, 6), SMC_GOOD, 18);
    static const uint8_t told[18] = {0x70, 0, 5, 0, 0, 0, 0, 0x0A, 0, 0, 0, 0, 0x3B, 0x0E};
    expect(!memcmp(answer, told, 18), "sense", "other bytes");
    sense_is("sense", 1, 0, 0, 0);
    ended("P7", send(smc_exchange_medium, 1, p7, 12), SMC_GOOD, 0);
    element_is("P7", 3, 2, 0x1002, 0, 0, 0);
    element_is("P7", 5, 1, 0x1000, 0, 0, 0);
    ended("prevent", send(smc_prevent_allow, 3, prevent, 6), SMC_GOOD, 0);
    expect(head[17] == 0x04, "prevent", "another mask");
}

static void listings(void)
{
    static const uint8_t whole[48] = {0x10, 0, 0, 2, 0, 0, 0, 0x28, 2, 0, 0, 0x10, 0, 0, 0, 0x20, 0x10, 0, 9,
                                      0,    0, 0, 0, 0, 0, 0, 0,    0, 0, 0, 0,    0, 0x10, 1, 8};
    static const struct {
        unsigned allocation, count;
    } cuts[] = {{48, 48}, {47, 32}, {32, 32}, {31, 8}, {8, 8}, {7, 7}, {0, 0}};
    for (size_t i = 0; i < sizeof cuts / sizeof *cuts; i++) {
        uint8_t block[12];
        memcpy(block, p12, 12);
        block[9] = (uint8_t)cuts[i].allocation;
        small_library();
        ended("P12", send(smc_read_element_status, 1, block, 12), SMC_GOOD, cuts[i].count);
        expect(!memcmp(answer, whole, cuts[i].count), "P12", "other bytes");
        small_library();
        remember();
        smc_reply exact = smc_read_element_status(TABLES, 1, block, 12, NULL, 0, answer, cuts[i].count);
        ended("P12, buffer exact", exact, SMC_GOOD, cuts[i].count);
        if (cuts[i].count > 0) {
            small_library();
            remember();
            smc_reply little = smc_read_element_status(TABLES, 1, block, 12, NULL, 0, answer, cuts[i].count - 1);
            refused("P12, buffer too short", little, SMC_ANSWER_TOO_SHORT);
        }
    }
}

/* Document 02, One: all pages of the small library, and each page by itself. */
static const uint8_t all_pages[48] = {0x2F, 0, 0, 0,
                                      0x1D, 0x12, 0, 1, 0, 1, 0x10, 0, 0, 4, 0, 0x10, 0, 1, 1, 0, 0, 1, 0, 0,
                                      0x1E, 0x02, 0, 0,
                                      0x1F, 0x12, 0x0E, 0, 0, 0x0E, 0x0E, 0x0E, 0, 0, 0, 0, 0, 0x0E, 0x0E, 0x0E, 0, 0, 0, 0};

/* A page with its own header, at each allocation up to one more than it needs and at the largest; a buffer of one byte less than is returned is too short. */
static void page_is(uint8_t page, const uint8_t *whole, uint32_t length)
{
    for (unsigned allocation = 0; allocation <= 255; allocation = allocation == length + 1 ? 255 : allocation + 1) {
        const uint8_t block[6] = {SMC_MODE_SENSE, 0x08, page, 0, (uint8_t)allocation, 0};
        const uint32_t count = allocation < length ? allocation : length;
        small_library();
        ended("mode", send(smc_mode_sense, 1, block, 6), SMC_GOOD, count);
        expect(!memcmp(answer, whole, count), "mode", "other bytes");
        expect(!memcmp(head, head_before, sizeof head_before) && !memcmp(elements, elements_before, sizeof elements_before), "mode",
               "a table changed");
        small_library();
        remember();
        ended("mode, buffer exact", smc_mode_sense(TABLES, 1, block, 6, NULL, 0, count ? answer : NULL, count), SMC_GOOD, count);
        if (count > 0) {
            small_library();
            remember();
            refused("mode, buffer too short", smc_mode_sense(TABLES, 1, block, 6, NULL, 0, answer, count - 1), SMC_ANSWER_TOO_SHORT);
        }
    }
}

static void mode_pages(void)
{
    uint8_t addresses[24] = {0x17}, geometry[8] = {0x07}, capabilities[24] = {0x17};
    memcpy(addresses + 4, all_pages + 4, 20);
    memcpy(geometry + 4, all_pages + 24, 4);
    memcpy(capabilities + 4, all_pages + 28, 20);
    page_is(SMC_MODE_ALL_PAGES, all_pages, sizeof all_pages);
    page_is(SMC_MODE_ADDRESSES, addresses, sizeof addresses);
    page_is(SMC_MODE_GEOMETRY, geometry, sizeof geometry);
    page_is(SMC_MODE_CAPABILITIES, capabilities, sizeof capabilities);
}

static void mode_refusals(void)
{
    static const uint8_t wrong[][6] = {{0x1A, 0, 0x7F, 0, 255, 0}, {0x1A, 0, 0xBF, 0, 255, 0}, {0x1A, 0, 0xDD, 0, 255, 0},
                                       {0x1A, 0, 0x00, 0, 255, 0}, {0x1A, 0, 0x1C, 0, 255, 0}, {0x1A, 0, 0x20, 0, 0, 0},
                                       {0x1A, 0, 0x3E, 0, 255, 0}, {0x1A, 0x10, 0x3F, 0, 255, 0}, {0x1A, 0, 0x3F, 1, 255, 0},
                                       {0x1A, 0, 0x3F, 0, 255, 1}};
    for (size_t i = 0; i < sizeof wrong / sizeof *wrong; i++) {
        small_library();
        ended("mode, a fault", send(smc_mode_sense, 1, wrong[i], 6), SMC_CHECK_CONDITION, 0);
        sense_is("mode, a fault", 1, 5, 0x24, 0x00);
        remember();
        refused("mode, parameters", smc_mode_sense(TABLES, 1, wrong[i], 6, blank, 1, answer, 512), SMC_PARAMETER_LENGTH);
        head[SMC_HEAD_UNIT] = 2;
        ended("mode, unit held", send(smc_mode_sense, 1, wrong[i], 6), SMC_RESERVATION_CONFLICT, 0);
        sense_is("mode, unit held", 1, 0, 0, 0);
    }
}

/* Nothing but the ranges and the number of elements stands for so many transports and one shelf. */
static void mode_of_many_transports(void)
{
    static uint8_t arms_head[SMC_HEAD_SIZE], arms[128 * SMC_ELEMENT_SIZE];
    static const struct {
        unsigned transports;
        uint8_t page;
        int status;
        uint32_t count;
    } rows[] = {{105, 0x3F, SMC_GOOD, 255}, {106, 0x3F, SMC_CHECK_CONDITION, 0}, {106, 0x1E, SMC_GOOD, 218},
                {125, 0x1E, SMC_GOOD, 255}, {126, 0x1E, SMC_CHECK_CONDITION, 0}, {127, 0x1D, SMC_GOOD, 24},
                {127, 0x1F, SMC_GOOD, 24}};
    for (size_t i = 0; i < sizeof rows / sizeof *rows; i++) {
        const uint8_t block[6] = {0x1A, 0, rows[i].page, 0, 255, 0};
        const unsigned count = rows[i].transports;
        small_library();
        remember();
        memset(arms_head, 0, sizeof arms_head);
        put16(arms_head, 1);
        put16(arms_head + 2, count);
        put16(arms_head + 4, 1 + count);
        put16(arms_head + 6, 1);
        put16(arms_head + SMC_HEAD_FREE, 1);
        smc_tables many = lent;
        many.head = arms_head;
        many.elements = arms;
        many.elements_len = (count + 1) * SMC_ELEMENT_SIZE;
        many.masks_len = 0;
        smc_reply reply = smc_mode_sense(SMC_LEND(&many), 1, block, 6, NULL, 0, answer, 512);
        ended("mode, many transports", reply, rows[i].status, rows[i].count);
        expect(arms_head[SMC_HOST_AT(1)] == (rows[i].status == SMC_GOOD ? 0 : 5), "mode, many transports", "another sense");
        if (rows[i].page == 0x1E && rows[i].count > 0)
            expect(answer[0] == 5 + 2 * count && answer[4] == 0x1E && answer[5] == 2 * count && answer[7] == 0 && answer[216] == 0
                       && answer[217] == 105,
                   "mode, many transports", "other bytes");
    }
}

/* Document 02, Two: a volume keeps its last shelf, and tables with a source that is no shelf are not sound. */
static void last_shelf(void)
{
    static const uint8_t to_slot[12] = {0xA5, 0, 0, 0, 0x01, 0x00, 0x00, 0x10}, to_shelf[12] = {0xA5, 0, 0, 0, 0x00, 0x10, 0x10, 0x03};
    static const uint8_t swap[12] = {0xA6, 0, 0, 0, 0x01, 0x00, 0x10, 0x02, 0x01, 0x00};
    static const uint8_t of_slot[12] = {0xB8, 3, 0, 0, 0, 1, 0, 0, 0, 32};
    static const uint8_t listed[32] = {0x00, 0x10, 0, 1, 0, 0, 0, 0x18, 3, 0, 0, 0x10, 0, 0, 0, 0x10, 0x00, 0x10, 0x39,
                                       0,    0,    0, 0, 0, 0, 0x80, 0x10, 0x00};
    static const unsigned no_shelf[] = {0x0001, 0x0010, 0x0100, 0x0002, 0x0FFF, 0x1004, 0xFFFF};
    small_library();
    ended("shelf to drive", send(smc_move_medium, 1, p1, 12), SMC_GOOD, 0);
    ended("drive to mail slot", send(smc_move_medium, 1, to_slot, 12), SMC_GOOD, 0);
    element_is("drive to mail slot", 1, 1, 0x1000, 0, 0, 0);
    element_is("drive to mail slot", 2, 0, 0, 0, 0, 0);
    ended("mail slot, listed", send(smc_read_element_status, 1, of_slot, 12), SMC_GOOD, 32);
    expect(!memcmp(answer, listed, 32), "mail slot, listed", "other bytes");
    ended("mail slot to shelf", send(smc_move_medium, 1, to_shelf, 12), SMC_GOOD, 0);
    element_is("mail slot to shelf", 6, 1, 0x1000, 0, 0, 0);
    small_library();
    ended("shelf to drive", send(smc_move_medium, 1, p1, 12), SMC_GOOD, 0);
    ended("swap from the drive", send(smc_exchange_medium, 1, swap, 12), SMC_GOOD, 0);
    element_is("swap from the drive", 2, 2, 0x1002, 0, 0, 0);
    element_is("swap from the drive", 5, 1, 0x1000, 0, 0, 0);
    for (size_t i = 0; i < sizeof no_shelf / sizeof *no_shelf; i++) {
        small_library();
        put16(elements + 3 * SMC_ELEMENT_SIZE + SMC_ELEMENT_SOURCE, no_shelf[i]);
        refused("a source that is no shelf", send(smc_test_unit_ready, 1, ready, 6), SMC_TABLES_NOT_SOUND);
    }
    put16(elements + 3 * SMC_ELEMENT_SIZE + SMC_ELEMENT_SOURCE, 0x1003);
    ended("a source that is a shelf", send(smc_test_unit_ready, 1, ready, 6), SMC_GOOD, 0);
}

/* Document 02, Four: the head's last two bytes are the number of empty shelves, at the start and behind every move, exchange, import, export and reset. */
static void empty_shelves(void)
{
    static const uint8_t to_shelf[12] = {0xA5, 0, 0, 0, 0x01, 0x00, 0x10, 0x01}, between[12] = {0xA5, 0, 0, 0, 0x10, 0x02, 0x10, 0x03};
    static const uint8_t onward[12] = {0xA6, 0, 0, 0, 0x10, 0x03, 0x01, 0x00, 0x00, 0x10}, back[12] = {0xA6, 0, 0, 0, 0x00, 0x10, 0x01, 0x00, 0x10, 0x03};
    static const unsigned wrong[] = {0, 1, 3, 4, 0x0102, 0x0200, 0xFFFF};
    small_library();
    ended("shelf to shelf", send(smc_move_medium, 1, between, 12), SMC_GOOD, 0);
    free_is("shelf to shelf", 2);
    ended("shelf to drive", send(smc_move_medium, 1, p1, 12), SMC_GOOD, 0);
    free_is("shelf to drive", 3);
    ended("shelf, drive, mail slot", send(smc_exchange_medium, 1, onward, 12), SMC_GOOD, 0);
    free_is("shelf, drive, mail slot", 4);
    ended("mail slot, drive, shelf", send(smc_exchange_medium, 1, back, 12), SMC_GOOD, 0);
    free_is("mail slot, drive, shelf", 3);
    ended("drive to shelf", send(smc_move_medium, 1, to_shelf, 12), SMC_GOOD, 0);
    free_is("drive to shelf", 2);
    remember();
    ended("import", smc_import(TABLES, 0x0010, 3), SMC_GOOD, 0);
    free_is("import", 2);
    remember();
    ended("export", smc_export(TABLES, 0x0010), SMC_GOOD, 0);
    free_is("export", 2);
    remember();
    ended("reset", smc_reset(TABLES), SMC_GOOD, 0);
    free_is("reset", 2);
    for (size_t i = 0; i < sizeof wrong / sizeof *wrong; i++) {
        small_library();
        put16(head + SMC_HEAD_FREE, wrong[i]);
        refused("another number", send(smc_test_unit_ready, 1, ready, 6), SMC_TABLES_NOT_SOUND);
        refused("another number", smc_import(TABLES, 0x0010, 3), SMC_TABLES_NOT_SOUND);
    }
}

/* ---- Document 02, Six. */

static const uint8_t to_drive[12] = {0xA5, 0, 0, 0, 0x10, 0x02, 0x01, 0x00}, by_drive[12] = {0xA6, 0, 0, 0, 0x10, 0x00, 0x01, 0x00, 0x10, 0x01};
static const uint8_t into_drive[12] = {0xA6, 0, 0, 0, 0x10, 0x00, 0x10, 0x02, 0x01, 0x00}, back_in_drive[12] = {0xA6, 0, 0, 0, 0x01, 0x00, 0x10, 0x02, 0x01, 0x00};

/* The small library, with these generations of volumes 1 and 2 and this mask; if it is to be full, volume 3, of generation 1, stands in the drive. */
static void cartridges_are(uint8_t one, uint8_t two, uint8_t mask, int full)
{
    small_library();
    generations[0] = one;
    generations[1] = two;
    masks[0] = mask;
    put16(elements + 2 * SMC_ELEMENT_SIZE, full ? 3 : 0);
}

static void not_taken(const char *call, entry to, const uint8_t *block)
{
    ended(call, send(to, 1, block, 12), SMC_CHECK_CONDITION, 0);
    sense_is(call, 1, 5, 0x30, 0x12);
    expect(!memcmp(elements, elements_before, sizeof elements_before), call, "a refusal moved a volume");
    free_is(call, 2);
}

/* Each leg that ends in a drive, taken and not; a shelf takes anything. */
static void cartridges(void)
{
    for (uint8_t g = SMC_LEAST_GENERATION; g <= SMC_MOST_GENERATION; g++) {
        cartridges_are(g, 1, (uint8_t)SMC_MASK_BIT(g), 0);
        ended("taken", send(smc_move_medium, 1, p1, 12), SMC_GOOD, 0);
        element_is("taken", 2, 1, 0x1000, 0, 0, 0);
        cartridges_are(g, 1, (uint8_t)~SMC_MASK_BIT(g), 0);
        not_taken("not taken", smc_move_medium, p1);
    }
    cartridges_are(1, 2, 0x01, 0);
    not_taken("another volume's generation", smc_move_medium, to_drive);
    cartridges_are(2, 2, 0x00, 0);
    ended("shelves take anything", send(smc_exchange_medium, 1, p7, 12), SMC_GOOD, 0);
    cartridges_are(2, 1, 0x01, 1);
    not_taken("first leg", smc_exchange_medium, by_drive);
    cartridges_are(2, 1, 0x03, 1);
    ended("first leg, taken", send(smc_exchange_medium, 1, by_drive, 12), SMC_GOOD, 0);
    cartridges_are(1, 2, 0x01, 0);
    not_taken("second leg", smc_exchange_medium, into_drive);
    cartridges_are(1, 2, 0x02, 0);
    ended("second leg, taken", send(smc_exchange_medium, 1, into_drive, 12), SMC_GOOD, 0);
    element_is("second leg, taken", 2, 2, 0x1002, 0, 0, 0);
    cartridges_are(1, 2, 0x01, 1);
    not_taken("back into the drive", smc_exchange_medium, back_in_drive);
    cartridges_are(1, 2, 0x03, 1);
    ended("back into the drive, taken", send(smc_exchange_medium, 1, back_in_drive, 12), SMC_GOOD, 0);
    element_is("back into the drive, taken", 2, 2, 0x1002, 0, 0, 0);
}

/* Full comes first, and 18h; import takes anything. */
static void order_of_cartridges(void)
{
    cartridges_are(2, 1, 0x01, 1);
    ended("full first", send(smc_move_medium, 1, p1, 12), SMC_CHECK_CONDITION, 0);
    sense_is("full first", 1, 5, 0x3B, 0x0D);
    elements[SMC_ELEMENT_HOLDER] = 2;
    ended("held first", send(smc_move_medium, 1, p1, 12), SMC_RESERVATION_CONFLICT, 0);
    cartridges_are(1, 1, 0x01, 0);
    generations[2] = 8;
    remember();
    ended("import of any generation", smc_import(TABLES, 0x0010, 3), SMC_GOOD, 0);
    element_is("import of any generation", 1, 3, 0, 0, 0, 1);
}

/* A byte more or fewer, generations 0 and 9, and a volume in a drive that does not take it: no entry serves. */
static void unfit_tables(void)
{
    static const struct {
        uint8_t one, three, mask;
        int full;
        size_t generations_len, masks_len;
        int number;
    } rows[] = {{1, 1, 0x01, 0, 3, 1, 0}, {1, 1, 0x00, 0, 3, 1, 0}, {1, 1, 0xFF, 1, 3, 1, 0}, {8, 8, 0x80, 1, 3, 1, 0}, {1, 1, 0x01, 0, 2, 1, 1},
                {1, 1, 0x01, 0, 0, 1, 1}, {1, 1, 0x01, 0, 3, 0, 1}, {0, 1, 0x01, 0, 3, 1, 1}, {9, 1, 0x01, 0, 3, 1, 1}, {255, 1, 0x01, 0, 3, 1, 1},
                {1, 0, 0x01, 0, 3, 1, 1}, {1, 9, 0x01, 0, 3, 1, 1}, {1, 1, 0x00, 1, 3, 1, 1}, {1, 1, 0xFE, 1, 3, 1, 1}, {1, 2, 0x01, 1, 3, 1, 1},
                {1, 8, 0x7F, 1, 3, 1, 1}};
    for (size_t i = 0; i < sizeof rows / sizeof *rows; i++) {
        smc_tables t = lent;
        cartridges_are(rows[i].one, 1, rows[i].mask, rows[i].full);
        generations[2] = rows[i].three;
        t.generations_len = rows[i].generations_len;
        t.masks_len = rows[i].masks_len;
        remember();
        if (rows[i].number == 0) {
            ended("fit tables", smc_command(SMC_LEND(&t), 1, ready, 6, NULL, 0, answer, 512), SMC_GOOD, 0);
            continue;
        }
        refused("unfit tables", smc_command(SMC_LEND(&t), 1, ready, 6, NULL, 0, answer, 512), SMC_TABLES_NOT_SOUND);
        refused("unfit tables", smc_move_medium(SMC_LEND(&t), 1, p1, 12, NULL, 0, answer, 512), SMC_TABLES_NOT_SOUND);
        refused("unfit tables", smc_import(SMC_LEND(&t), 0x0010, 3), SMC_TABLES_NOT_SOUND);
        refused("unfit tables", smc_export(SMC_LEND(&t), 0x0010), SMC_TABLES_NOT_SOUND);
        refused("unfit tables", smc_reset(SMC_LEND(&t)), SMC_TABLES_NOT_SOUND);
        expect(smc_replay(SMC_LEND(&t), NULL, 0, 1, 1).number == SMC_TABLES_NOT_SOUND && untouched(), "unfit tables", "a replay");
    }
}

/* ---- Document 02, Seven: two arms, 0001h and 0002h, and shelves 1000h and 1001h with volume 1 in the first. */
static void any_free_arm(void)
{
    static uint8_t arms_head[SMC_HEAD_SIZE], arms[4 * SMC_ELEMENT_SIZE];
    static const uint8_t ranges[16] = {0, 1, 0, 2, 0x10, 0, 0, 2}, wrong[12] = {0xA5, 0, 0, 0, 0x10, 0, 0x10, 2};
    static const smc_tables two_arms = {
        .head = arms_head, .head_len = sizeof arms_head, .elements = arms, .elements_len = sizeof arms, .tags = tags_room + GUARD, .tags_len = 3 * SMC_TAG_SIZE,
        .blank = blank_room + GUARD, .blank_len = SMC_TAG_SIZE, .generations = generations_room + GUARD, .generations_len = 3,
        .search = search_room + GUARD, .search_len = SMC_SEARCH_SIZE};
    /* The holders of the arms, the arm that host 1 names, and the status. */
    static const struct {
        uint8_t one, two, named, status;
    } rows[] = {{0, 0, 0, SMC_GOOD}, {1, 0, 0, SMC_GOOD}, {1, 1, 0, SMC_GOOD}, {2, 0, 0, SMC_GOOD}, {2, 1, 0, SMC_GOOD}, {0, 2, 0, SMC_GOOD}, {1, 3, 0, SMC_GOOD},
                {2, 2, 0, SMC_RESERVATION_CONFLICT}, {2, 8, 0, SMC_RESERVATION_CONFLICT}, {2, 0, 1, SMC_RESERVATION_CONFLICT}, {0, 2, 2, SMC_RESERVATION_CONFLICT},
                {2, 0, 2, SMC_GOOD}, {0, 2, 1, SMC_GOOD}, {2, 0, 3, SMC_CHECK_CONDITION}};
    small_library();
    for (size_t i = 0; i < 2 * (sizeof rows / sizeof *rows); i++) {
        const size_t row = i / 2;
        const int swap = i % 2;
        const uint8_t block[12] = {swap ? 0xA6 : 0xA5, 0, 0, rows[row].named, 0x10, 0, 0x10, 1, swap ? 0x10 : 0, 0};
        memset(arms_head, 0, sizeof arms_head);
        memset(arms, 0, sizeof arms);
        memcpy(arms_head, ranges, sizeof ranges);
        put16(arms_head + SMC_HEAD_FREE, swap ? 0 : 1);
        arms[SMC_ELEMENT_HOLDER] = rows[row].one;
        arms[SMC_ELEMENT_SIZE + SMC_ELEMENT_HOLDER] = rows[row].two;
        put16(arms + 2 * SMC_ELEMENT_SIZE, 1);
        put16(arms + 3 * SMC_ELEMENT_SIZE, swap ? 2 : 0);
        remember();
        ended("any free arm", smc_command(SMC_LEND(&two_arms), 1, block, 12, NULL, 0, answer, 512), rows[row].status, 0);
        expect((arms[3 * SMC_ELEMENT_SIZE + 1] == 1) == (rows[row].status == SMC_GOOD), "any free arm", "another volume on the shelf");
        expect(arms[SMC_ELEMENT_HOLDER] == rows[row].one && arms[SMC_ELEMENT_SIZE + SMC_ELEMENT_HOLDER] == rows[row].two, "any free arm", "another holder");
        if (rows[row].status == SMC_RESERVATION_CONFLICT && rows[row].named == 0) {
            ended("the address first", smc_command(SMC_LEND(&two_arms), 1, wrong, 12, NULL, 0, answer, 512), SMC_CHECK_CONDITION, 0);
            expect(arms_head[SMC_HOST_AT(1) + SMC_HOST_ASC] == 0x21, "the address first", "another sense");
        }
    }
}

static void reservations(void)
{
    static const uint8_t hold[6] = {0x16, 1, 5, 0, 6, 0}, list[6] = {0, 0, 0, 2, 0x10, 0x01}, release[6] = {0x17, 1, 5, 0, 0, 0};
    small_library();
    remember();
    ended("reserve", smc_reserve(TABLES, 2, hold, 6, list, 6, NULL, 0), SMC_GOOD, 0);
    element_is("reserve", 4, 0, 0, 2, 5, 0);
    element_is("reserve", 5, 2, 0, 2, 5, 0);
    refused("reserve, list too short", send(smc_reserve, 2, hold, 6), SMC_PARAMETER_LENGTH);
    remember();
    ended("reserve, conflict", smc_reserve(TABLES, 1, hold, 6, list, 6, NULL, 0), SMC_RESERVATION_CONFLICT, 0);
    expect(untouched(), "reserve, conflict", "a conflict changed a byte");
    ended("release", send(smc_release, 2, release, 6), SMC_GOOD, 0);
    element_is("release", 5, 2, 0, 0, 0, 0);
}

static void events(void)
{
    small_library();
    remember();
    refused("import at 65552", smc_import(TABLES, 65536 + 0x0010, 3), SMC_NO_IMPORT_EXPORT);
    refused("import of 65539", smc_import(TABLES, 0x0010, 65536 + 3), SMC_WRONG_VOLUME);
    refused("export", smc_export(TABLES, 0x0010), SMC_FULL_OR_EMPTY);
    ended("import", smc_import(TABLES, 0x0010, 3), SMC_GOOD, 0);
    element_is("import", 1, 3, 0, 0, 0, 1);
    expect(head[21] == 0x28 && head[22] == 0x01 && head[56] == 0x28 && head[57] == 0x01, "import", "attention");
    remember();
    refused("import, full", smc_import(TABLES, 0x0010, 3), SMC_FULL_OR_EMPTY);
    head[17] = 0x84;
    remember();
    smc_reply locked = smc_export(TABLES, 0x0010);
    refused("export, prevented", locked, SMC_REMOVAL_PREVENTED);
    expect(locked.preventers == 2 && locked.lowest == 3, "export, prevented", "other preventers");
    ended("reset", smc_reset(TABLES), SMC_GOOD, 0);
    expect(head[17] == 0 && head[21] == 0x29 && head[22] == 0x00, "reset", "mask or attention");
    element_is("reset", 1, 3, 0, 0, 0, 1);
    remember();
    ended("export", smc_export(TABLES, 0x0010), SMC_GOOD, 0);
    element_is("export", 1, 0, 0, 0, 0, 0);
    expect(head[21] == 0x29, "export", "attention of the reset overwritten");
}

/* ---- Document 02, Eight. Volumes 1, 2 and 3 are FILM0001 at 1000h, FILM0002 at 1002h and SOUND001 in the drive; their sequence numbers are 1, 2, 300h. */

static void labelled_library(void)
{
    static const char *const names[] = {"FILM0001", "FILM0002", "SOUND001"};
    static const unsigned numbers[] = {1, 2, 0x0300};
    small_library();
    for (int volume = 0; volume < 3; volume++) {
        uint8_t *label = tags + volume * SMC_TAG_SIZE;
        memset(label, ' ', 32);
        memcpy(label, names[volume], 8);
        put16(label + 32, 0);
        put16(label + SMC_LABEL_SEQUENCE, numbers[volume]);
    }
    put16(elements + 2 * SMC_ELEMENT_SIZE, 3);
}

static uint8_t look_for[12] = {0xB6, 0, 0, 0, 0, 1, 0, 0, 0, 40}, tag_list[41];
static const uint8_t where[12] = {0xB5, 0, 0, 0, 0xFF, 0xFF, 0, 0xFF, 0xFF};

static void set_list(const char *template, unsigned least, unsigned greatest)
{
    memset(tag_list, 0, sizeof tag_list);
    memset(tag_list, ' ', SMC_TEMPLATE_SIZE);
    memcpy(tag_list, template, strlen(template));
    put16(tag_list + SMC_TAG_LIST_LEAST, least);
    put16(tag_list + SMC_TAG_LIST_GREATEST, greatest);
}

static smc_reply look(uint32_t host, uint8_t type, unsigned start, uint8_t action, size_t length)
{
    look_for[1] = type;
    put16(look_for + 2, start);
    look_for[5] = action;
    put16(look_for + 8, (unsigned)length);
    remember();
    return smc_send_volume_tag(TABLES, host, look_for, 12, tag_list, length, NULL, 0);
}

static void search_is(const char *call, int type, int action, unsigned least, unsigned greatest, unsigned next)
{
    const uint8_t *s = search;
    expect(!memcmp(s, tag_list, SMC_TEMPLATE_SIZE), call, "another template");
    expect(s[32] == type && s[33] == action && s[34] * 256u + s[35] == least && s[36] * 256u + s[37] == greatest, call, "another type, action or range");
    expect(s[38] * 65536u + s[39] * 256u + s[40] == next, call, "another next address");
}

/* An answer without tags has these bytes at its front, and so many of them are returned. */
static void found_is(const char *call, const uint8_t *block, uint32_t count, const uint8_t *front, size_t length)
{
    ended(call, send(smc_request_volume_element_address, 1, block, 12), SMC_GOOD, count);
    expect(!memcmp(answer, front, length), call, "another answer");
}

static void searches(void)
{
    static const uint8_t both[56] = {0x10, 0x00, 0, 2, 1, 0, 0, 0x28, 2, 0, 0, 16, 0, 0, 0, 32, 0x10, 0x00, 0x09, [32] = 0x10, 0x02, 0x09};
    static const uint8_t none[8] = {0}, no_more[8] = {0, 0, 0, 0, 1}, sounds[8] = {0x01, 0x00, 0, 1, 5, 0, 0, 0x18};
    static const uint8_t header[12] = {0xB5, 0, 0, 0, 0xFF, 0xFF, 0, 0, 8}, one[12] = {0xB5, 0, 0, 0, 0xFF, 0xFF, 0, 0, 47};
    static const uint8_t second[8] = {0x10, 0x02, 0, 1, 1, 0, 0, 0x18}, tagged[12] = {0xB5, 0x10, 0, 0, 0xFF, 0xFF, 0, 0, 68};
    labelled_library();
    found_is("no search", where, 8, none, 8);
    set_list("FILM*", 0, 0xFFFF);
    ended("a search", look(1, 0, 0, 1, 40), SMC_GOOD, 0);
    search_is("a search", 0, 1, 0, 0xFFFF, 0);
    found_is("the header", header, 8, both, 8);
    search_is("the header", 0, 1, 0, 0xFFFF, 0);
    found_is("one of two", one, 32, both, 32);
    search_is("one of two", 0, 1, 0, 0xFFFF, 0x1001);
    found_is("the second", where, 32, second, 8);
    search_is("the second", 0, 1, 0, 0xFFFF, 0x1003);
    found_is("no more", where, 8, no_more, 8);
    search_is("no more", 0, 1, 0, 0xFFFF, 0x1003);
    ended("the same again", look(1, 0, 0, 1, 40), SMC_GOOD, 0);
    found_is("both", where, 48, both, 48);
    set_list("?????0?1*", 7, 3);
    ended("wild cards", look(2, 4, 0x0100, 5, 40), SMC_GOOD, 0);
    search_is("wild cards", 4, 5, 7, 3, 0x0100);
    ended("with tags", send(smc_command, 1, tagged, 12), SMC_GOOD, 68);
    expect(!memcmp(answer, (uint8_t[]){0x01, 0x00, 0, 1, 5, 0, 0, 60, 4, 0x80, 0, 52, 0, 0, 0, 52, 0x01, 0x00, 0x09}, 19)
               && !memcmp(answer + 28, tags + 2 * SMC_TAG_SIZE, SMC_TAG_SIZE), "with tags", "another answer");
    ended("wild cards again", look(2, 4, 0x0100, 5, 40), SMC_GOOD, 0);
    remember();
    refused("no room", smc_request_volume_element_address(TABLES, 1, where, 12, NULL, 0, answer, 31), SMC_ANSWER_TOO_SHORT);
    found_is("with room", where, 32, sounds, 8);
    remember();
    ended("reset", smc_reset(TABLES), SMC_GOOD, 0);
    for (int i = 0; i < SMC_SEARCH_SIZE; i++)
        expect(search[i] == 0, "reset", "a byte of the search is left");
}

/* Sequence numbers 1, 2 and 300h: which of the three a range finds. */
static void sequence_numbers(void)
{
    static const struct {
        unsigned least, greatest;
        uint8_t action, found;
    } rows[] = {{0, 0xFFFF, 1, 3}, {1, 1, 1, 1}, {2, 0x0300, 1, 2}, {3, 0x02FF, 1, 0}, {0x0300, 0x0300, 1, 1}, {2, 1, 1, 0}, {2, 1, 5, 3}, {0, 0, 5, 3}};
    for (size_t i = 0; i < sizeof rows / sizeof *rows; i++) {
        labelled_library();
        set_list("*", rows[i].least, rows[i].greatest);
        ended("sequence numbers", look(1, 0, 0, rows[i].action, 40), SMC_GOOD, 0);
        remember();
        smc_reply told = smc_request_volume_element_address(TABLES, 1, where, 12, NULL, 0, answer, 512);
        always("sequence numbers", told);
        expect(told.number == 0 && answer[3] == rows[i].found && answer[4] == rows[i].action, "sequence numbers", "another number of elements, or another action");
    }
}

/* What is refused keeps the search before. */
static void refused_searches(void)
{
    static const uint8_t wrong[][12] = {
        {0xB6, 0, 0, 0, 0, 0, 0, 0, 0, 40}, {0xB6, 0, 0, 0, 0, 2, 0, 0, 0, 40}, {0xB6, 0, 0, 0, 0, 0x11, 0, 0, 0, 40}, {0xB6, 5, 0, 0, 0, 1, 0, 0, 0, 40},
        {0xB6, 0x10, 0, 0, 0, 1, 0, 0, 0, 40}, {0xB6, 0, 0, 0, 1, 1, 0, 0, 0, 40}, {0xB6, 0, 0, 0, 0, 1, 0, 0, 0, 40, 0, 1}};
    static const uint8_t byte_9[12] = {0xB5, 0, 0, 0, 0xFF, 0xFF, 0, 0xFF, 0xFF, 1};
    static const int reserved[] = {32, 33, 36, 37};
    labelled_library();
    set_list("FILM*", 0, 0xFFFF);
    ended("a search", look(1, 2, 0x1000, 1, 40), SMC_GOOD, 0);
    for (size_t i = 0; i < sizeof wrong / sizeof *wrong; i++) {
        remember();
        ended("a wrong field", smc_send_volume_tag(TABLES, 1, wrong[i], 12, tag_list, 40, NULL, 0), SMC_CHECK_CONDITION, 0);
        sense_is("a wrong field", 1, 5, 0x24, 0x00);
        search_is("a wrong field", 2, 1, 0, 0xFFFF, 0x1000);
    }
    ended("39 bytes", look(1, 0, 0, 1, 39), SMC_CHECK_CONDITION, 0);
    sense_is("39 bytes", 1, 5, 0x1A, 0x00);
    ended("41 bytes", look(1, 0, 0, 1, 41), SMC_CHECK_CONDITION, 0);
    sense_is("41 bytes", 1, 5, 0x1A, 0x00);
    remember();
    refused("41 for 40", smc_send_volume_tag(TABLES, 1, (uint8_t[12]){0xB6, 0, 0, 0, 0, 1, 0, 0, 0, 40}, 12, tag_list, 41, NULL, 0), SMC_PARAMETER_LENGTH);
    for (size_t i = 0; i < sizeof reserved / sizeof *reserved; i++) {
        tag_list[reserved[i]] = 1;
        ended("a reserved byte", look(1, 0, 0, 1, 40), SMC_CHECK_CONDITION, 0);
        sense_is("a reserved byte", 1, 5, 0x26, 0x00);
        tag_list[reserved[i]] = 0;
    }
    ended("byte 9", send(smc_request_volume_element_address, 1, byte_9, 12), SMC_CHECK_CONDITION, 0);
    sense_is("byte 9", 1, 5, 0x24, 0x00);
    elements[6 * SMC_ELEMENT_SIZE + SMC_ELEMENT_HOLDER] = 2;
    ended("another host holds a shelf", look(1, 0, 0, 1, 40), SMC_RESERVATION_CONFLICT, 0);
    ended("another host holds a shelf", send(smc_request_volume_element_address, 1, where, 12), SMC_RESERVATION_CONFLICT, 0);
    search_is("refused", 2, 1, 0, 0xFFFF, 0x1000);
    ended("the host that holds it", look(2, 0, 0, 5, 40), SMC_GOOD, 0);
    search_is("the host that holds it", 0, 5, 0, 0xFFFF, 0);
}

/* All zeros, or what a search could leave; else number 1. */
static void wrong_searches(void)
{
    static const struct {
        int at, value, action, sound;
    } rows[] = {{33, 0, 0, 1}, {33, 1, 1, 1}, {33, 2, 2, 0}, {33, 5, 5, 1}, {33, 0x11, 0x11, 0}, {0, '*', 0, 0}, {40, 1, 0, 0},
                {32, 4, 1, 1}, {32, 5, 1, 0}, {38, 1, 5, 1}, {38, 2, 5, 0}, {34, 0xFF, 1, 1}};
    smc_tables other = lent;
    for (size_t i = 0; i < sizeof rows / sizeof *rows; i++) {
        small_library();
        search[SMC_SEARCH_ACTION] = (uint8_t)rows[i].action;
        search[rows[i].at] = (uint8_t)rows[i].value;
        remember();
        smc_reply told = smc_test_unit_ready(TABLES, 1, ready, 6, NULL, 0, NULL, 0);
        expect(told.number == (rows[i].sound ? 0 : SMC_TABLES_NOT_SOUND) && untouched(), "a search that could be", "another number, or a byte changed");
    }
    small_library();
    remember();
    other.search_len = SMC_SEARCH_SIZE - 1;
    refused("a search of 40 bytes", smc_test_unit_ready(SMC_LEND(&other), 1, ready, 6, NULL, 0, NULL, 0), SMC_TABLES_NOT_SOUND);
    other.search = NULL;
    other.search_len = 0;
    refused("no search lent", smc_reset(SMC_LEND(&other)), SMC_TABLES_NOT_SOUND);
}

/* ---- Document 02, Five. */

static smc_replayed replay(const char *text, size_t length, uint32_t expected, uint32_t budget)
{
    guard(log_lent_room, length, 0);
    memcpy(log_lent, text, length);
    remember();
    return smc_replay(TABLES, length ? log_lent : NULL, length, expected, budget);
}

/* Also what holds of every replay: no canary touched, the log, the labels and the answer as they were. */
static void replayed(const char *call, smc_replayed told, uint32_t number, uint32_t lines, size_t place, uint32_t expected, const char *text, size_t length)
{
    always(call, (smc_reply){0});
    expect(guarded(log_lent_room, length) && !memcmp(log_lent, text, length), call, "the log, or a byte beside it, changed");
    expect(told.number == number, call, "another number");
    expect(told.lines == lines, call, "another count of lines");
    expect(told.place == place, call, "another place");
    expect(told.expected == expected, call, "another number expected next");
}

#define REPLAY(call, text, given, budget, number, lines, place, next) \
    replayed(call, replay(text, sizeof(text) - 1, given, budget), number, lines, place, next, text, sizeof(text) - 1)

/* 16 bytes, 18, 31, 17 and 31: an import; a readiness test, which host 1 is told of it with; the volume from the mail slot to shelf 1001h; an import of what is there
 * already, refused by number 9; the volume to the drive. */
#define IMPORTED "8\t0\t01\t00100003\n"
#define TOLD "9\t1\t000000000000\t\n"
#define SHELVED "10\t1\tA50000000010100100000000\t\n"
#define AGAIN "11\t0\t01\t00100003\n"
#define LOADED "12\t1\tA50000001001010000000000\t\n"

/* A list of 40 bytes: FILM*, 27 blanks, sequence numbers 0 to FFFFh. */
#define FILMS "46494C4D2A" "202020202020202020202020202020202020202020202020202020" "000000000000FFFF"

static void replays(void)
{
    static const char day[] = IMPORTED TOLD SHELVED AGAIN LOADED, bad[] = IMPORTED TOLD SHELVED "11\t0\t01\t0010003\n" LOADED;
    small_library();
    REPLAY("a day", day, 8, 5, 0, 5, 113, 13);
    element_is("a day", 2, 3, 0x1001, 0, 0, 0);
    element_is("a day", 4, 0, 0, 0, 0, 0);
    sense_is("a day", 1, 0, 0, 0);
    free_is("a day", 2);
    small_library();
    REPLAY("an import", day, 8, 1, 0, 1, 16, 9);
    element_is("an import", 1, 3, 0, 0, 0, 1);
    expect(head[21] == 0x28 && head[22] == 0x01 && head[56] == 0x28 && head[57] == 0x01, "an import", "attention");
    REPLAY("the host is told", TOLD SHELVED, 9, 1, 0, 1, 18, 10);
    sense_is("the host is told", 1, 6, 0x28, 0x01);
    expect(head[21] == 0 && head[26] == 0x28, "the host is told", "attention");
    REPLAY("a move", SHELVED AGAIN, 10, 1, 0, 1, 31, 11);
    element_is("a move", 4, 3, 0, 0, 0, 0);
    free_is("a move", 1);
    REPLAY("a refused line", AGAIN LOADED, 11, 1, 0, 1, 17, 12);
    expect(untouched(), "a refused line", "it changed a byte");
    REPLAY("the rest", LOADED, 12, 9, 0, 1, 31, 13);
    element_is("the rest", 2, 3, 0x1001, 0, 0, 0);
    small_library();
    REPLAY("a bad line", bad, 8, 9, SMC_WRONG_LINE, 3, 65, 11);
    element_is("a bad line", 4, 3, 0, 0, 0, 0);
    free_is("a bad line", 1);
    REPLAY("a bad line again", "11\t0\t01\t0010003\n" LOADED, 11, 9, SMC_WRONG_LINE, 0, 0, 11);
    expect(untouched(), "a bad line again", "it changed a byte");
    REPLAY("going on", AGAIN LOADED, 11, 9, 0, 2, 48, 13);
    element_is("going on", 2, 3, 0x1001, 0, 0, 0);
    cartridges_are(2, 1, 0x01, 0);
    REPLAY("a cartridge not taken", "7\t1\tA50000001000010000000000\t\n", 7, 9, 0, 1, 30, 8);
    sense_is("a cartridge not taken", 1, 5, 0x30, 0x12);
    element_is("a cartridge not taken", 3, 1, 0, 0, 0, 0);
    labelled_library();
    set_list("FILM*", 0, 0xFFFF);
    ended("a search", look(1, 0, 0, 1, 40), SMC_GOOD, 0);
    REPLAY("a search goes on", "7\t1\tB5000000FFFF000020000000\t\n", 7, 9, 0, 1, 30, 8);
    search_is("a search goes on", 0, 1, 0, 0xFFFF, 0x1001);
    REPLAY("a search begins", "8\t3\tB60000000005000000280000\t" FILMS "\n", 8, 9, 0, 1, 110, 9);
    search_is("a search begins", 0, 5, 0, 0xFFFF, 0);
    REPLAY("a search ends", "9\t0\t03\t\n", 9, 9, 0, 1, 8, 10);
    expect(search[SMC_SEARCH_ACTION] == 0 && search[0] == 0, "a search ends", "it is left");
    small_library();
    REPLAY("up to the bad line", bad, 8, 3, 0, 3, 65, 11);
    REPLAY("no budget", "x", 7, 0, 0, 0, 0, 7);
    REPLAY("no log", "", UINT32_MAX, 9, 0, 0, 0, UINT32_MAX);
    expect(untouched(), "no log", "it changed a byte");
}

/* Each alone and for number 7: of another form or number, so that nothing changes. */
static void wrong_lines(void)
{
    static const char *const wrong[] = {
        "\n", "7\n", "7\t1\t000000000000\n", "7\t1\t000000000000\t\t\n", "7 1\t000000000000\t\n", "7\t1\t000000000000\t", "7\t1\t000000000000\t\r\n",
        "07\t1\t000000000000\t\n", "6\t1\t000000000000\t\n", "8\t1\t000000000000\t\n", "4294967303\t1\t000000000000\t\n",
        "18446744073709551623\t1\t000000000000\t\n", "\t1\t000000000000\t\n", "+7\t1\t000000000000\t\n", "7\t\t000000000000\t\n",
        "7\t01\t000000000000\t\n", "7\tA\t000000000000\t\n", "7\t1\t00000000000\t\n", "7\t1\tc0\t\n", "7\t1\tC0\t0a\n", "7\t1\tC0\t0\n", "7\t1\tC0\t0G\n",
        "7\t0\t\t\n", "7\t0\t04\t\n", "7\t0\t0101\t00100003\n", "7\t0\t01\t0010\n", "7\t0\t02\t00100003\n", "7\t0\t03\t00\n", "7\t1\t0000\xFF\xFF\t\n"};
    static const char nul[] = "7\t1\t0000\0000000000\t\n";
    for (size_t i = 0; i < sizeof wrong / sizeof *wrong; i++) {
        const size_t length = strlen(wrong[i]);
        small_library();
        replayed(wrong[i], replay(wrong[i], length, 7, 1), SMC_WRONG_LINE, 0, 0, 7, wrong[i], length);
        expect(untouched(), wrong[i], "a line of another form changed a byte");
    }
    small_library();
    REPLAY("a NUL", nul, 7, 1, SMC_WRONG_LINE, 0, 0, 7);
}

/* They have the form, and the core refuses them by number: nothing changes, and each counts. */
static void refused_lines(void)
{
    static const char *const refusals[] = {
        "7\t9\t000000000000\t\n", "7\t1\t\t\n", "7\t1\t\t00\n", "7\t1\t0000000000\t\n", "7\t1\t000000000000\t00\n", "7\t0\t01\t10000003\n",
        "7\t0\t01\t00100000\n", "7\t0\t01\t00100004\n", "7\t0\t01\t00100001\n", "7\t0\t02\t0010\n", "7\t0\t02\t1000\n"};
    for (size_t i = 0; i < sizeof refusals / sizeof *refusals; i++) {
        const size_t length = strlen(refusals[i]);
        small_library();
        replayed(refusals[i], replay(refusals[i], length, 7, 9), 0, 1, length, 8, refusals[i], length);
        expect(untouched(), refusals[i], "a refused line changed a byte");
    }
}

/* 512 bytes before the line feed are a line, 514 are none; with a number of one digit 511 and 513. Host 1 is told of an unknown command. */
static void longest_lines(void)
{
    static const struct {
        const char *number;
        size_t bytes;
        uint32_t given, lines;
    } rows[] = {{"42", 512, 42, 1}, {"42", 514, 42, 0}, {"7", 511, 7, 1}, {"7", 513, 7, 0}, {"42", 900, 42, 0}};
    char line[1024];
    for (size_t i = 0; i < sizeof rows / sizeof *rows; i++) {
        memset(line, '0', sizeof line);
        const int front = snprintf(line, sizeof line, "%s\t1\tC0\t", rows[i].number);
        line[front] = '0';
        line[rows[i].bytes] = '\n';
        small_library();
        replayed("a long line", replay(line, rows[i].bytes + 1, rows[i].given, 1), rows[i].lines ? 0 : SMC_WRONG_LINE, rows[i].lines,
                 rows[i].lines ? rows[i].bytes + 1 : 0, rows[i].given + rows[i].lines, line, rows[i].bytes + 1);
        sense_is("a long line", 1, rows[i].lines ? 5 : 0, rows[i].lines ? 0x20 : 0, 0);
    }
}

/* Numbers that no line can have are no fault by themselves; a listing and the sense are asked for, and no answer is kept. */
static void numbers_of_lines(void)
{
    small_library();
    REPLAY("the largest", "999999999\t1\t000000000000\t\n", 999999999, 9, 0, 1, 26, 1000000000);
    REPLAY("ten digits", "1000000000\t1\t000000000000\t\n", 1000000000, 9, SMC_WRONG_LINE, 0, 0, 1000000000);
    REPLAY("zero", "0\t1\t000000000000\t\n", 0, 9, SMC_WRONG_LINE, 0, 0, 0);
    head[SMC_HOST_AT(1)] = 5;
    head[SMC_HOST_AT(2)] = 5;
    REPLAY("no answer", "1\t1\tB8100000FFFF00FFFFFF0000\t\n2\t2\t030000001200\t\n", 1, 2, 0, 2, 48, 3);
    sense_is("no answer", 1, 0, 0, 0);
    sense_is("no answer", 2, 0, 0, 0);
    head[SMC_HEAD_UNIT] = 9;
    REPLAY("not sound", IMPORTED, 8, 1, SMC_TABLES_NOT_SOUND, 0, 0, 8);
    REPLAY("not sound, no budget", IMPORTED, 8, 0, SMC_TABLES_NOT_SOUND, 0, 0, 8);
    REPLAY("not sound, no log", "", 8, 1, SMC_TABLES_NOT_SOUND, 0, 0, 8);
    expect(untouched(), "not sound", "a refusal changed a byte");
}

/* All slices empty: number 1, by null pointers. */
static void nothing_lent(void)
{
    small_library();
    remember();
    refused("nothing lent", smc_command(SMC_LEND(&nothing), 1, NULL, 0, NULL, 0, NULL, 0), SMC_TABLES_NOT_SOUND);
    refused("nothing lent", smc_import(SMC_LEND(&nothing), 1, 1), SMC_TABLES_NOT_SOUND);
    refused("nothing lent", smc_export(SMC_LEND(&nothing), 1), SMC_TABLES_NOT_SOUND);
    refused("nothing lent", smc_reset(SMC_LEND(&nothing)), SMC_TABLES_NOT_SOUND);
    expect(smc_replay(SMC_LEND(&nothing), NULL, 0, 1, 1).number == SMC_TABLES_NOT_SOUND && untouched(), "nothing lent", "a replay");
}

int main(void)
{
    every_entry_moves();
    commands();
    listings();
    mode_pages();
    mode_refusals();
    mode_of_many_transports();
    last_shelf();
    empty_shelves();
    cartridges();
    order_of_cartridges();
    unfit_tables();
    any_free_arm();
    searches();
    sequence_numbers();
    refused_searches();
    wrong_searches();
    reservations();
    events();
    replays();
    wrong_lines();
    refused_lines();
    longest_lines();
    numbers_of_lines();
    nothing_lent();
    printf("%d passed, %d failed\n", passed, failed);
    return failed != 0;
}
