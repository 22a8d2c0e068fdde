/* The command core of a tape library, for a front end in C or C++. Link with libchanger.a.
 *
 * docs/RULES.md says what every call ends with, docs/LAYOUT.md shows the bytes of the lent tables and of the answers.
 *
 * What a caller may rely on, for any bytes, any lengths and any numbers:
 * - Every call returns. It reads and writes nothing outside the lent slices; a slice of length 0 may be a null pointer.
 * - number 0: the call was carried out; status, count, the tables and the answer are as the rules say.
 * - number 1 to 9: the call was refused; no byte of head, elements, search or answer has changed, and status and count are 0.
 * - number 10, of smc_replay alone: a line of the log is at fault. What the lines before it did stays done, and is counted.
 * - CHECK CONDITION (02h) and RESERVATION CONFLICT (18h) change no element and no search, and of the head only the calling host's five bytes.
 * - After a call with any number but 1 the last two bytes of the head are the number of empty storage elements. MOVE and EXCHANGE with GOOD
 *   alone change it, sent or replayed.
 * - The search changes by SEND VOLUME TAG and REQUEST VOLUME ELEMENT ADDRESS with GOOD and by a reset alone, sent or replayed.
 * - Bytes of the answer past count are as they were. count is above 0 only for GOOD of REQUEST SENSE, READ ELEMENT STATUS, MODE SENSE
 *   and REQUEST VOLUME ELEMENT ADDRESS.
 * - tags, blank, generations and masks are never written. Sound tables stay sound: no call leaves a volume in a drive that does not take it.
 *
 * What a caller owes:
 * - Each pointer is valid for its length: readable, and head, elements, search and answer writable. Length 0 asks nothing of its pointer.
 * - No two of the lent slices overlap.
 * - No two calls at once on the same tables, and nobody writes a lent slice while a call runs.
 *
 * What the library is:
 * - x86-64 code (x86-64-v2) for the System V calling convention (Linux). Of other symbols it needs memcpy and memset alone.
 * - No slice needs an alignment. It has no state, no heap and no locks: all it knows between two calls is in the tables. Threads may call it
 *   at once on separate tables.
 * - A call takes less than 3 KB of stack (2.6 measured), a replay less than 3.5 (3.1 measured). In a program that binds symbols lazily the
 *   first call takes about 5.4 KB, once: the dynamic linker's look-up of memset. Linked with -static or -Wl,-z,now it does not.
 * - Every call first checks all tables, in one pass. Measured by the benchmark in tests/: a readiness test takes about 0.1 microseconds at 7
 *   elements and 1.5 at 512; at 512, MOVE, EXCHANGE and MODE SENSE take no more than can be told from that; a whole listing with tags, and a
 *   RESERVE of 32 descriptors that name all 512 elements, the dearest calls, take 3 to 5. A replay checks the tables once, and not once a line.
 * Stack and times were measured on a library that an older kit made (rattle-kit-5b), and not again since.
 */
#ifndef SMC_H
#define SMC_H

#include <stddef.h>
#include <stdint.h>

#ifdef __cplusplus
extern "C" {
#endif

/* The interface's version. It rises with each change that moves a layout, lends a further table or adds an entry. 5: every entry is lent one
 * further table behind masks, search, and there are two entries more. A front end that spreads an smc_tables by SMC_LEND sets the two new fields
 * of it; tables that were kept from before are lent with SMC_SEARCH_SIZE zeros, which is no search. */
#define SMC_INTERFACE 5

typedef struct {
    uint8_t number;     /* house number, 0 for none */
    uint8_t status;     /* SCSI status; 0 where number is not 0, and for events */
    uint8_t preventers; /* number 7 alone: how many hosts prevent removal */
    uint8_t lowest;     /* number 7 alone: the lowest such host */
    uint32_t count;     /* bytes returned in the answer buffer */
} smc_reply;

/* How a replay ended. 24 bytes on x86-64, returned by value like the reply. */
typedef struct {
    uint32_t number;    /* house number: 0, SMC_TABLES_NOT_SOUND or SMC_WRONG_LINE */
    uint32_t lines;     /* lines applied by this call */
    size_t place;       /* bytes of the lent log that those lines take: the next line begins there. With SMC_WRONG_LINE, the one at fault. */
    uint32_t expected;  /* the number expected of that line: the one given plus lines */
} smc_replayed;

/* House numbers, in the order in which they are tested; SMC_ANSWER_TOO_SHORT comes after the steps of a command. */
enum {
    SMC_TABLES_NOT_SOUND = 1,
    SMC_UNKNOWN_HOST = 2,       /* host is not 1 to 8 */
    SMC_BLOCK_LENGTH = 3,       /* the command block is empty or of wrong length */
    SMC_PARAMETER_LENGTH = 4,   /* RESERVE, SEND VOLUME TAG: not as many bytes as the block says; other known commands: not none */
    SMC_ANSWER_TOO_SHORT = 5,   /* the answer buffer is shorter than the bytes to be returned */
    SMC_NO_IMPORT_EXPORT = 6,   /* the address is no import/export element */
    SMC_REMOVAL_PREVENTED = 7,  /* preventers and lowest say by how many hosts, and the lowest of them */
    SMC_FULL_OR_EMPTY = 8,      /* import: the element is full; export: it is empty */
    SMC_WRONG_VOLUME = 9,       /* the volume number is 0, has no tag, or is in the library already */
    SMC_WRONG_LINE = 10         /* replay: a line is of another form, or has another number than the expected one */
};

enum { SMC_GOOD = 0x00, SMC_CHECK_CONDITION = 0x02, SMC_RESERVATION_CONFLICT = 0x18 };

/* The first bytes of the command blocks. */
enum {
    SMC_TEST_UNIT_READY = 0x00,
    SMC_REQUEST_SENSE = 0x03,
    SMC_RESERVE = 0x16,
    SMC_RELEASE = 0x17,
    SMC_PREVENT_ALLOW = 0x1E,
    SMC_MOVE_MEDIUM = 0xA5,
    SMC_EXCHANGE_MEDIUM = 0xA6,
    SMC_READ_ELEMENT_STATUS = 0xB8,
    SMC_MODE_SENSE = 0x1A,
    SMC_SEND_VOLUME_TAG = 0xB6,
    SMC_REQUEST_VOLUME_ELEMENT_ADDRESS = 0xB5
};

/* The types of elements; a listing and a search take 0 for all. */
enum { SMC_TRANSPORT = 1, SMC_STORAGE = 2, SMC_IMPORT_EXPORT = 3, SMC_DRIVE = 4 };

/* ---- Sizes and offsets in bytes, and limits. Numbers in slices have their high byte first. */

/* The head: a range for each type, the unit's holder, the prevent mask, a record for each host, the number of empty storage elements. */
#define SMC_HEAD_SIZE 60
#define SMC_RANGES 4
#define SMC_RANGE_SIZE 4
#define SMC_RANGE_AT(type) (SMC_RANGE_SIZE * ((type) - 1))
#define SMC_RANGE_FIRST 0      /* in a range: first address, two bytes */
#define SMC_RANGE_COUNT 2      /* how many elements, two bytes */
#define SMC_HEAD_UNIT 16
#define SMC_HEAD_MASK 17
#define SMC_HEAD_HOSTS 18      /* the record of host 1 */
#define SMC_HOSTS 8
#define SMC_HOST_SIZE 5
#define SMC_HOST_AT(host) (SMC_HEAD_HOSTS + SMC_HOST_SIZE * ((host) - 1))
#define SMC_HOST_KEY 0         /* in a host's record: the sense */
#define SMC_HOST_ASC 1
#define SMC_HOST_ASCQ 2
#define SMC_HOST_ATTENTION 3   /* the attention's ASC and ASCQ */
#define SMC_HOST_ATTENTIONQ 4

/* The head's last two bytes: how many storage elements are empty. Whoever makes fresh tables, or writes elements by himself, stores the true
 * count; from then on the calls keep it, and the front panel reads it here. Any other number is SMC_TABLES_NOT_SOUND. */
#define SMC_HEAD_FREE 58

/* A record of elements. */
#define SMC_ELEMENT_SIZE 8
#define SMC_ELEMENT_VOLUME 0   /* two bytes */
#define SMC_ELEMENT_SOURCE 2   /* two bytes: the last storage element that the volume left since it came in; 0 none */
#define SMC_ELEMENT_HOLDER 4
#define SMC_ELEMENT_ID 5
#define SMC_ELEMENT_MARK 6
#define SMC_ELEMENT_ZERO 7
#define SMC_MOST_ELEMENTS 512
#define SMC_MOST_TRANSPORTS 127
#define SMC_MOST_ADDRESS 65535

/* A record of tags; the blank label. */
#define SMC_TAG_SIZE 36
#define SMC_MOST_VOLUMES 512

/* The cartridges: a byte for each volume, its generation; a byte for each drive in order of address, the mask of the generations that it takes.
 * A mask may have any value, 0 too: such a drive takes nothing. */
#define SMC_LEAST_GENERATION 1
#define SMC_MOST_GENERATION 8
#define SMC_MASK_BIT(generation) (1u << ((generation) - 1))

/* The search of the unit: what SEND VOLUME TAG looks for, and where REQUEST VOLUME ELEMENT ADDRESS goes on. All zeros: no search. Whoever makes
 * fresh tables stores that; from then on the calls keep it. */
#define SMC_SEARCH_SIZE 41
#define SMC_SEARCH_TEMPLATE 0  /* 32 bytes, compared with the first 32 of a label */
#define SMC_SEARCH_TYPE 32     /* 0 for all */
#define SMC_SEARCH_ACTION 33
#define SMC_SEARCH_LEAST 34    /* least sequence number, two bytes */
#define SMC_SEARCH_GREATEST 36 /* greatest sequence number, two bytes */
#define SMC_SEARCH_NEXT 38     /* the lowest address that may still be told, three bytes; 10000h behind the last */
#define SMC_TEMPLATE_SIZE 32
#define SMC_ANY_CHARACTER 0x3F /* '?' in a template */
#define SMC_ANY_STRING 0x2A    /* '*': what stands behind it is not compared */
#define SMC_LABEL_SEQUENCE 34  /* in a label: the sequence number, two bytes */

/* The actions of a search: labels in the range of sequence numbers, labels of any. */
enum { SMC_FIND_IN_RANGE = 1, SMC_FIND_ANY_NUMBER = 5 };

/* The list of SEND VOLUME TAG: a template, two zeros, the least sequence number, two zeros, the greatest. */
#define SMC_TAG_LIST_SIZE 40
#define SMC_TAG_LIST_TEMPLATE 0
#define SMC_TAG_LIST_LEAST 34
#define SMC_TAG_LIST_GREATEST 38

/* A descriptor of RESERVE's list. */
#define SMC_LIST_DESCRIPTOR_SIZE 6
#define SMC_LIST_NUMBER 2      /* two bytes */
#define SMC_LIST_ADDRESS 4     /* two bytes */
#define SMC_MOST_LIST_DESCRIPTORS 32

/* Sense data. */
#define SMC_SENSE_SIZE 18
#define SMC_SENSE_KEY 2
#define SMC_SENSE_ASC 12
#define SMC_SENSE_ASCQ 13

/* A listing: its header, a page's header, a descriptor. */
#define SMC_LISTING_HEADER_SIZE 8
#define SMC_LISTING_FIRST 0    /* first address, two bytes */
#define SMC_LISTING_NUMBER 2   /* elements chosen, two bytes */
#define SMC_LISTING_ACTION 4   /* of REQUEST VOLUME ELEMENT ADDRESS: the search's action, 0 without a search */
#define SMC_LISTING_BYTES 5    /* bytes of all pages, three bytes */
#define SMC_PAGE_HEADER_SIZE 8
#define SMC_PAGE_TYPE 0
#define SMC_PAGE_TAGS 1        /* 80h with labels */
#define SMC_PAGE_WIDTH 2       /* bytes of a descriptor, two bytes */
#define SMC_PAGE_BYTES 5       /* bytes of its descriptors, three bytes */
#define SMC_PLAIN_DESCRIPTOR_SIZE 16
#define SMC_TAGGED_DESCRIPTOR_SIZE 52
#define SMC_DESCRIPTOR_ADDRESS 0       /* two bytes */
#define SMC_DESCRIPTOR_FLAGS 2
#define SMC_DESCRIPTOR_SOURCE_STANDS 9 /* 80h if a source stands */
#define SMC_DESCRIPTOR_SOURCE 10       /* two bytes, as in the element's record */
#define SMC_DESCRIPTOR_LABEL 12        /* 36 bytes, with tags */
#define SMC_FLAG_FULL 0x01
#define SMC_FLAG_MARKED 0x02   /* a person put the volume there */

/* Mode pages: the header, a page's code and length, what follows. */
#define SMC_MODE_HEADER_SIZE 4
#define SMC_MODE_BYTES 0       /* bytes that follow this one in the whole answer */
#define SMC_MODE_PAGE_HEADER_SIZE 2
#define SMC_MODE_PAGE_CODE 0   /* in a page */
#define SMC_MODE_PAGE_BYTES 1  /* bytes that follow this one in the page */
#define SMC_MODE_ADDRESSES 0x1D
#define SMC_MODE_GEOMETRY 0x1E
#define SMC_MODE_CAPABILITIES 0x1F
#define SMC_MODE_ALL_PAGES 0x3F
#define SMC_MODE_ARM_SIZE 2    /* in the geometry page, for each transport: rotation, member number */
#define SMC_LARGEST_MODE_ANSWER 255

/* A line of a log, without its line feed. */
#define SMC_LONGEST_LINE 512
#define SMC_MOST_LINE_NUMBER 999999999

/* The largest answer: 512 elements in four pages, with tags. */
#define SMC_LARGEST_ANSWER 26664

/* ---- What a call is lent. */

/* The lent tables. No two of the lent slices overlap. head, elements, search and answer may change; the others are read only. generations has a byte for
 * each volume, as many as there are tags; masks has one for each drive. A drive that is full takes the generation of what stands in it. search is
 * SMC_SEARCH_SIZE zeros, or has an action that there is, a type of at most 4 and a next address of at most 10000h. Else the tables are not sound. */
#define SMC_TABLES                                                                                                    \
    uint8_t *head, size_t head_len, uint8_t *elements, size_t elements_len, const uint8_t *tags, size_t tags_len,     \
        const uint8_t *blank, size_t blank_len, const uint8_t *generations, size_t generations_len, const uint8_t *masks, \
        size_t masks_len, uint8_t *search, size_t search_len
#define SMC_COMMAND                                                                                                   \
    uint32_t host, const uint8_t *block, size_t block_len, const uint8_t *parameters, size_t parameters_len,          \
        uint8_t *answer, size_t answer_len

/* The same tables as one value. SMC_LEND(&t) spreads it into the first arguments of a call: smc_reset(SMC_LEND(&t)). A front end that
 * lends its tables so keeps its calls as they are when a later version lends further tables. Its argument is read more than once. */
typedef struct {
    uint8_t *head;
    size_t head_len;
    uint8_t *elements;
    size_t elements_len;
    const uint8_t *tags;
    size_t tags_len;
    const uint8_t *blank;
    size_t blank_len;
    const uint8_t *generations;
    size_t generations_len;
    const uint8_t *masks;
    size_t masks_len;
    uint8_t *search;
    size_t search_len;
} smc_tables;

#define SMC_LEND(t)                                                                                                   \
    (t)->head, (t)->head_len, (t)->elements, (t)->elements_len, (t)->tags, (t)->tags_len, (t)->blank, (t)->blank_len,  \
        (t)->generations, (t)->generations_len, (t)->masks, (t)->masks_len, (t)->search, (t)->search_len

/* In a function that was lent SMC_TABLES itself: the same arguments for the call that it makes, smc_reset(SMC_LENT). */
#define SMC_LENT                                                                                                      \
    head, head_len, elements, elements_len, tags, tags_len, blank, blank_len, generations, generations_len, masks,    \
        masks_len, search, search_len

/* ---- Commands. Numbers 1 to 5. */

/* Any command block. The eleven below it answer exactly the same, whatever first byte they are handed. An unknown first byte is
 * CHECK CONDITION with 5/20/00. */
smc_reply smc_command(SMC_TABLES, SMC_COMMAND);

/* GOOD, unless attention is pending, another host holds the unit, or the block has a bit without a use. Changes the calling host's record
 * alone. */
smc_reply smc_test_unit_ready(SMC_TABLES, SMC_COMMAND);

/* Returns up to 18 bytes: the host's sense, else its attention, else zeros. What was told is cleared. Of all commands, this alone tells
 * a pending attention with GOOD. */
smc_reply smc_request_sense(SMC_TABLES, SMC_COMMAND);

/* With GOOD the host holds the unit, or the elements that the list names, under an id; what it held under that id is freed first.
 * Any other end leaves every reservation as it was. */
smc_reply smc_reserve(SMC_TABLES, SMC_COMMAND);

/* With GOOD the host no longer holds the unit and its elements, or its elements of one id. Other hosts' reservations stay. */
smc_reply smc_release(SMC_TABLES, SMC_COMMAND);

/* With GOOD the host's bit of the prevent mask is set or cleared. A set bit hinders import and export, and never a move. */
smc_reply smc_prevent_allow(SMC_TABLES, SMC_COMMAND);

/* Bytes 2-3 of the block of MOVE and of EXCHANGE name the transport. 0 means the lowest-addressed one that no other host holds, so that a library with
 * several arms does not stall because one is reserved; where other hosts hold them all, RESERVATION CONFLICT, once the addresses are known to be right. A transport that is
 * named by its address is used, or is the conflict, even if another is free. */

/* With GOOD one volume has gone from source to destination. If it left a storage element, that one is named as its source from now on; if it
 * left a drive or an import/export element, it keeps the source that it had, none included. The number of empty storage elements in the head
 * goes with it. Any other end moves nothing. A drive that does not take the volume's generation is CHECK CONDITION with 5/30/12, once the source is
 * known to be full and the destination empty. */
smc_reply smc_move_medium(SMC_TABLES, SMC_COMMAND);

/* With GOOD the first destination's volume is in the second, and the source's in the first: a swap, where the second is the source. Each
 * volume's source, and the number of empty storage elements, are as for a move; so is 5/30/12, for either volume that would end in a drive. Any other end
 * moves nothing. */
smc_reply smc_exchange_medium(SMC_TABLES, SMC_COMMAND);

/* Returns a listing, in whole descriptors as many as the allocation has room for. Its counts are of all that was chosen, however small
 * the allocation. */
smc_reply smc_read_element_status(SMC_TABLES, SMC_COMMAND);

/* Returns mode pages: where each type's addresses are, the transports of the one set, what moves and exchanges. The first bytes of the whole answer, as
 * many as the allocation has room for; lengths in it are those of the whole. An answer over 256 bytes is refused with 5/24/00. */
smc_reply smc_mode_sense(SMC_TABLES, SMC_COMMAND);

/* Find by label. There is one search for the unit, whoever sent it. Both commands are RESERVATION CONFLICT where any other host holds the unit or any
 * element; a host that would not be disturbed between the two reserves the unit first. */

/* With GOOD a search begins, in place of the one before: block byte 1 the type (0 all), bytes 2-3 where it starts, byte 5 the action, bytes 8-9 the
 * list's length, which is 40. It is kept as sent, and no element is looked at yet. Any other end keeps the search before. */
smc_reply smc_send_volume_tag(SMC_TABLES, SMC_COMMAND);

/* Returns a listing, as READ ELEMENT STATUS does and by the same rule of choice, of the full elements whose labels match the search now, from its next
 * address on; the allocation is bytes 7-8. The header's fifth byte is the search's action. What is returned whole counts as told, and the next
 * address is behind it: no address is told twice in one search. Without a search, and when all is told, a header without elements. */
smc_reply smc_request_volume_element_address(SMC_TABLES, SMC_COMMAND);

/* ---- Events. Their status and count are 0, and they know no reservation. */

/* A person put a volume into an import/export element. Numbers 1, 6, 7, 8, 9. It stands there with mark 1 and without a source; each host
 * that has no attention pending has 28h/01h. Any generation may come in, also one that no drive takes. */
smc_reply smc_import(SMC_TABLES, uint32_t address, uint32_t volume);

/* A person took the volume out. Numbers 1, 6, 7, 8. The element is empty; attention as for import. */
smc_reply smc_export(SMC_TABLES, uint32_t address);

/* The unit was reset. Number 1. No reservation, no prevent bit, no sense and no search is left; every host has attention 29h/00h; volumes stay. */
smc_reply smc_reset(SMC_TABLES);

/* ---- Replay of a recorded log. Numbers 1 and 10. */

/* The calls that a log records, line by line from its start, on the lent tables: the tables at the end are those that the same calls leave, made
 * one by one. At most `budget` lines are applied; the first must have the number `expected`, the next one more, and so on. The log is text:
 *
 *     41<tab>0<tab>01<tab>00100003<line feed>                        import: at address 0010h, volume 3
 *     42<tab>2<tab>A50000000010100100000000<tab><line feed>          host 2: MOVE MEDIUM from 0010h to 1001h; no parameters
 *     43<tab>0<tab>02<tab>0010<line feed>                            export: at address 0010h
 *     44<tab>0<tab>03<tab><line feed>                                reset
 *
 * - Four fields parted by single tabs: number (decimal, 1 to 999,999,999, no leading zero), host (one digit, 0 for an event), command block and
 *   parameter bytes (upper-case hexadecimal, two digits a byte; nothing for none). At most 512 bytes before the line feed.
 * - number 1: the tables are not sound. It comes first: with an empty log and with budget 0 too. Nothing has changed, lines and place are 0.
 * - number 10: the line at `place` is of another form, or has another number than `expected` says. A rest without a line feed is of another form.
 *   The lines before it stay applied and counted: head, elements and search are as after the line before. Put the line right, and go on from it.
 * - number 0: so many lines as the budget says were applied, or all of the log. The line behind them was not looked at.
 * - To go on, lend the log from `place` on, with `expected` as it came back. Two calls, the first of which ended with 0, end as one with the
 *   sum of their budgets.
 * - A line that the core refuses by number (an import into a full element, host 9, an empty block) has the form: it changes nothing and
 *   counts as applied. So does one that ends in CHECK CONDITION or RESERVATION CONFLICT.
 * - Answers are not kept: no buffer is lent, a listing in the log is not written (what a search told in it counts as told all the same), and number 5
 *   does not arise. The reply of a line is not kept
 *   either; with budget 1 the tables can be looked at behind each line (examples/reel.c).
 * - The tables are checked once a call and not once a line: a long log in few calls is much faster than its calls made one by one. */
smc_replayed smc_replay(SMC_TABLES, const uint8_t *log, size_t log_len, uint32_t expected, uint32_t budget);

#ifdef __cplusplus
}
#endif

#endif
