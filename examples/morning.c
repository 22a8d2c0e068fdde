/* A morning in a small library: one transport, one import/export element, one drive, four shelves, three labelled volumes. The drive takes cartridges of
 * generation 1; volume 3, which comes in, is of generation 2. */
#include "smc.h"
#include <stdio.h>
#include <string.h>

#define ELEMENTS 7

static uint8_t head[SMC_HEAD_SIZE];
static uint8_t elements[ELEMENTS * SMC_ELEMENT_SIZE];
static uint8_t tags[3 * SMC_TAG_SIZE];
static uint8_t blank[SMC_TAG_SIZE];
static const uint8_t generations[3] = {1, 1, 2};
static const uint8_t masks[1] = {SMC_MASK_BIT(1)};
static uint8_t search[SMC_SEARCH_SIZE]; /* all zeros: no search */
static uint8_t answer[512];

static const smc_tables tables = {
    .head = head,
    .head_len = sizeof head,
    .elements = elements,
    .elements_len = sizeof elements,
    .tags = tags,
    .tags_len = sizeof tags,
    .blank = blank,
    .blank_len = sizeof blank,
    .generations = generations,
    .generations_len = sizeof generations,
    .masks = masks,
    .masks_len = sizeof masks,
    .search = search,
    .search_len = sizeof search,
};

static void put16(uint8_t *at, unsigned value)
{
    at[0] = (uint8_t)(value >> 8);
    at[1] = (uint8_t)value;
}

static void put_range(int type, unsigned first, unsigned count)
{
    put16(head + SMC_RANGE_AT(type) + SMC_RANGE_FIRST, first);
    put16(head + SMC_RANGE_AT(type) + SMC_RANGE_COUNT, count);
}

/* A label: the barcode, filled up with blanks to 32 characters, and four zeros. */
static void write_label(uint8_t *at, const char *barcode)
{
    memset(at, ' ', 32);
    memset(at + 32, 0, 4);
    memcpy(at, barcode, strlen(barcode));
}

/* The tables lie in address order: 0001h transport, 0010h import/export, 0100h drive, 1000h to 1003h shelves. */
static void build_library(void)
{
    put_range(SMC_TRANSPORT, 0x0001, 1);
    put_range(SMC_STORAGE, 0x1000, 4);
    put_range(SMC_IMPORT_EXPORT, 0x0010, 1);
    put_range(SMC_DRIVE, 0x0100, 1);
    put16(elements + 3 * SMC_ELEMENT_SIZE + SMC_ELEMENT_VOLUME, 1); /* volume 1 at 1000h */
    put16(elements + 5 * SMC_ELEMENT_SIZE + SMC_ELEMENT_VOLUME, 2); /* volume 2 at 1002h */
    put16(head + SMC_HEAD_FREE, 2); /* 1001h and 1003h are empty: counted once, and kept by the calls from here on */
    write_label(tags, "FILM01L8");
    write_label(tags + SMC_TAG_SIZE, "FILM02L8");
    write_label(tags + 2 * SMC_TAG_SIZE, "FILM03L8");
    memset(blank, ' ', sizeof blank);
}

static void say(const char *what, smc_reply reply)
{
    if (reply.number == SMC_REMOVAL_PREVENTED)
        printf("%-52s refused: %d host(s) prevent removal, host %d the lowest\n", what, reply.preventers, reply.lowest);
    else if (reply.number != 0)
        printf("%-52s refused by house number %d\n", what, reply.number);
    else if (reply.status == SMC_RESERVATION_CONFLICT)
        printf("%-52s reservation conflict\n", what);
    else if (reply.status == SMC_CHECK_CONDITION)
        printf("%-52s check condition\n", what);
    else
        printf("%-52s good, %u bytes\n", what, (unsigned)reply.count);
}

static smc_reply send(unsigned host, const uint8_t *block, size_t length, const uint8_t *list, size_t list_length)
{
    return smc_command(SMC_LEND(&tables), host, block, length, list, list_length, answer, sizeof answer);
}

static smc_reply move(unsigned host, unsigned from, unsigned to)
{
    uint8_t block[12] = {SMC_MOVE_MEDIUM};
    put16(block + 4, from);
    put16(block + 6, to);
    return send(host, block, sizeof block, NULL, 0);
}

static smc_reply reserve(unsigned host, unsigned id, unsigned address)
{
    uint8_t block[6] = {SMC_RESERVE, 1, (uint8_t)id, 0, SMC_LIST_DESCRIPTOR_SIZE, 0};
    uint8_t list[SMC_LIST_DESCRIPTOR_SIZE] = {0};
    put16(list + SMC_LIST_NUMBER, 1);
    put16(list + SMC_LIST_ADDRESS, address);
    return send(host, block, sizeof block, list, sizeof list);
}

static void tell_sense(unsigned host)
{
    static const uint8_t block[6] = {SMC_REQUEST_SENSE, 0, 0, 0, SMC_SENSE_SIZE, 0};
    smc_reply reply = send(host, block, sizeof block, NULL, 0);
    if (reply.number == 0 && reply.count == SMC_SENSE_SIZE)
        printf("%50s %u is told %X/%02X/%02X\n", "host", host, answer[SMC_SENSE_KEY], answer[SMC_SENSE_ASC],
               answer[SMC_SENSE_ASCQ]);
}

static smc_reply list_shelves(unsigned host, size_t room)
{
    uint8_t block[12] = {SMC_READ_ELEMENT_STATUS, 0x10 | SMC_STORAGE, 0, 0, 0xFF, 0xFF};
    put16(block + 8, SMC_LISTING_HEADER_SIZE + SMC_PAGE_HEADER_SIZE + 4 * SMC_TAGGED_DESCRIPTOR_SIZE);
    return smc_read_element_status(SMC_LEND(&tables), host, block, sizeof block, NULL, 0, answer, room);
}

static void print_listing(smc_reply reply)
{
    const uint8_t *number = answer + SMC_LISTING_NUMBER, *bytes = answer + SMC_LISTING_BYTES;
    printf("%50s %d shelves, %d bytes of pages in all\n", "listed:", number[0] * 256 + number[1],
           bytes[0] * 65536 + bytes[1] * 256 + bytes[2]);
    const uint8_t *d = answer + SMC_LISTING_HEADER_SIZE + SMC_PAGE_HEADER_SIZE;
    for (; d + SMC_TAGGED_DESCRIPTOR_SIZE <= answer + reply.count; d += SMC_TAGGED_DESCRIPTOR_SIZE)
        printf("%50s %02X%02Xh %s %.8s\n", "", d[0], d[1], d[SMC_DESCRIPTOR_FLAGS] & SMC_FLAG_FULL ? "full " : "empty",
               (const char *)d + SMC_DESCRIPTOR_LABEL);
}

/* What the front panel shows: the calls keep it, so that it is read from the head and nothing is counted. */
static void show_panel(void)
{
    const uint8_t *number = head + SMC_HEAD_FREE;
    printf("%50s %d empty shelves\n", "the panel shows", number[0] * 256 + number[1]);
}

int main(void)
{
    static const uint8_t ready[6] = {SMC_TEST_UNIT_READY};
    build_library();
    say("The operator imports volume 3 at 0010h:", smc_import(SMC_LEND(&tables), 0x0010, 3));
    say("Host 1 asks whether the unit is ready:", send(1, ready, sizeof ready, NULL, 0));
    tell_sense(1);
    say("Host 1 moves volume 3 from 0010h to the drive:", move(1, 0x0010, 0x0100));
    tell_sense(1); /* 5/30/12: the drive does not take its generation */
    say("Host 1 moves volume 3 from 0010h to shelf 1001h:", move(1, 0x0010, 0x1001));
    say("Host 1 moves volume 1 from 1000h to the drive:", move(1, 0x1000, 0x0100));
    show_panel();
    say("Host 1 moves the drive's volume onto shelf 1001h:", move(1, 0x0100, 0x1001));
    tell_sense(1);
    say("Host 2 asks whether the unit is ready:", send(2, ready, sizeof ready, NULL, 0));
    say("Host 2 reserves shelf 1002h:", reserve(2, 1, 0x1002));
    say("Host 1 moves volume 2 from 1002h to 1003h:", move(1, 0x1002, 0x1003));
    say("Host 1 lists the shelves into 100 bytes:", list_shelves(1, 100));
    smc_reply whole = list_shelves(1, sizeof answer);
    say("Host 1 lists the shelves into 512 bytes:", whole);
    print_listing(whole);
    return 0;
}
