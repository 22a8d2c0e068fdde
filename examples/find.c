/* An archivist looks for the reels whose labels begin with FILM, and is told of two at a time. Between two questions the arm carries a reel away: what matches is judged
 * when it is told, and no address is told twice. */
#include "smc.h"
#include <stdio.h>
#include <string.h>

#define SHELVES 6
#define ELEMENTS (SHELVES + 2)
#define REELS 5

static uint8_t head[SMC_HEAD_SIZE] = {
    0x00, 0x01, 0, 1,       /* the arm: 0001h */
    0x10, 0x00, 0, SHELVES, /* the shelves: 1000h to 1005h */
    0x00, 0x00, 0, 0,       /* no mail slot */
    0x01, 0x00, 0, 1,       /* the drive: 0100h */
    [SMC_HEAD_FREE] = 0, SHELVES - REELS,
};
static uint8_t elements[ELEMENTS * SMC_ELEMENT_SIZE]; /* in the order of their addresses: arm, drive, shelves */
static uint8_t tags[REELS * SMC_TAG_SIZE], blank[SMC_TAG_SIZE], search[SMC_SEARCH_SIZE], answer[SMC_LARGEST_ANSWER];
static const uint8_t generations[REELS] = {8, 8, 8, 8, 8}, masks[1] = {SMC_MASK_BIT(8)};

static const smc_tables tables = {
    .head = head,
    .head_len = sizeof head,
    .elements = elements,
    .elements_len = sizeof elements,
    .tags = tags,
    .tags_len = sizeof tags,
    .blank = blank,
    .blank_len = sizeof blank,
    .generations = generations,
    .generations_len = sizeof generations,
    .masks = masks,
    .masks_len = sizeof masks,
    .search = search,
    .search_len = sizeof search,
};

static void put16(uint8_t *at, unsigned value)
{
    at[0] = (uint8_t)(value >> 8);
    at[1] = (uint8_t)value;
}

/* Reel n on the n-th shelf. A label has 32 characters, filled up with blanks, and its sequence number at the end. */
static void build_library(void)
{
    static const char *const names[REELS] = {"FILM01", "SOUND1", "FILM02", "FILM03", "FILM04"};
    for (unsigned n = 0; n < REELS; n++) {
        uint8_t *label = tags + n * SMC_TAG_SIZE;
        memset(label, ' ', SMC_TEMPLATE_SIZE);
        memcpy(label, names[n], strlen(names[n]));
        put16(label + SMC_LABEL_SEQUENCE, n + 1);
        put16(elements + (2 + n) * SMC_ELEMENT_SIZE + SMC_ELEMENT_VOLUME, n + 1);
    }
    memset(blank, ' ', SMC_TEMPLATE_SIZE);
}

/* A template may have '?' for any character, and '*' for whatever follows. */
static smc_reply look_for(const char *template, uint8_t action, unsigned least, unsigned greatest)
{
    const uint8_t block[12] = {SMC_SEND_VOLUME_TAG, [5] = action, [9] = SMC_TAG_LIST_SIZE};
    uint8_t list[SMC_TAG_LIST_SIZE] = {0};
    memset(list, ' ', SMC_TEMPLATE_SIZE);
    memcpy(list, template, strlen(template));
    put16(list + SMC_TAG_LIST_LEAST, least);
    put16(list + SMC_TAG_LIST_GREATEST, greatest);
    return smc_send_volume_tag(SMC_LEND(&tables), 1, block, sizeof block, list, sizeof list, NULL, 0);
}

/* Asks where they are, for so many at most; prints each, and returns how many were told. */
static unsigned tell(unsigned most)
{
    uint8_t block[12] = {SMC_REQUEST_VOLUME_ELEMENT_ADDRESS, 0x10, 0, 0};
    unsigned told = 0;
    put16(block + 4, most);
    put16(block + 7, 0xFFFF);
    smc_reply reply = smc_request_volume_element_address(SMC_LEND(&tables), 1, block, sizeof block, NULL, 0, answer, sizeof answer);
    const uint8_t *at = answer + SMC_LISTING_HEADER_SIZE, *end = answer + reply.count;
    while (at < end) {
        const uint8_t *page_end = at + SMC_PAGE_HEADER_SIZE + at[SMC_PAGE_BYTES + 1] * 256 + at[SMC_PAGE_BYTES + 2];
        const char *place = at[SMC_PAGE_TYPE] == SMC_DRIVE ? "in the drive" : "on the shelf";
        for (at += SMC_PAGE_HEADER_SIZE; at < page_end; at += SMC_TAGGED_DESCRIPTOR_SIZE, told++)
            printf("    %.6s %s %02X%02Xh\n", (const char *)at + SMC_DESCRIPTOR_LABEL, place, at[0], at[1]);
    }
    if (told == 0)
        printf("    no more\n");
    return told;
}

static void carry(unsigned from, unsigned to)
{
    uint8_t block[12] = {SMC_MOVE_MEDIUM};
    put16(block + 4, from);
    put16(block + 6, to);
    smc_reply reply = smc_move_medium(SMC_LEND(&tables), 1, block, sizeof block, NULL, 0, NULL, 0);
    printf("The arm carries a reel from %04Xh to %04Xh: status %02Xh\n", from, to, reply.status);
}

int main(void)
{
    build_library();
    printf("The archivist looks for FILM*: status %02Xh\n", look_for("FILM*", SMC_FIND_ANY_NUMBER, 0, 0).status);
    printf("Two of them:\n");
    tell(2);
    carry(0x1003, 0x1005);
    printf("The others, wherever they are by now:\n");
    while (tell(2) > 0)
        ;
    printf("The archivist looks for FILM0?, sequence numbers 3 to 4: status %02Xh\n", look_for("FILM0?", SMC_FIND_IN_RANGE, 3, 4).status);
    tell(0xFFFF);
    carry(0x1000, 0x0100);
    printf("The archivist looks for *1: what stands behind * is not compared: status %02Xh\n", look_for("*1", SMC_FIND_ANY_NUMBER, 0, 0).status);
    tell(0xFFFF);
    return 0;
}
