/* Why tables are not sound, for a front end in C whose call ended with SMC_TABLES_NOT_SOUND. Compile explain/smc_explain.c with the front end.
 *
 * smc_explain finds a fault exactly where every entry of smc.h answers SMC_TABLES_NOT_SOUND. It reads nothing outside the lent slices,
 * writes nothing and keeps nothing; a slice of length 0 may be a null pointer. The core itself does not use it.
 */
#ifndef SMC_EXPLAIN_H
#define SMC_EXPLAIN_H

#include "smc.h"

#ifdef __cplusplus
extern "C" {
#endif

/* The clauses of sound tables, in the order in which they are judged. Later ones are judged only where all the earlier ones hold. */
typedef enum {
    SMC_SOUND = 0,
    SMC_CLAUSE_HEAD_LENGTH,        /* value: the length */
    SMC_CLAUSE_ELEMENT_COUNT,      /* value: how many */
    SMC_CLAUSE_TRANSPORT_COUNT,    /* value: how many */
    SMC_CLAUSE_NO_SHELF,           /* neither storage nor import/export element */
    SMC_CLAUSE_EMPTY_RANGE_FIRST,  /* range; value: its first address */
    SMC_CLAUSE_RANGE_WITHIN,       /* range; value: its first address if that is 0, else its last */
    SMC_CLAUSE_RANGE_OVERLAP,      /* range; other: the range that it overlaps */
    SMC_CLAUSE_UNIT_HOLDER,        /* value: the unit holder */
    SMC_CLAUSE_SENSE_KEY,          /* host; value: the key */
    SMC_CLAUSE_CODES_WITHOUT_KEY,  /* host; value: ASC and ASCQ */
    SMC_CLAUSE_ATTENTION_CODES,    /* host; value: ASC and ASCQ */
    SMC_CLAUSE_TAG_COUNT,          /* value: how many */
    SMC_CLAUSE_TAGS_LENGTH,        /* value: the length */
    SMC_CLAUSE_BLANK_LENGTH,       /* value: the length */
    SMC_CLAUSE_ELEMENTS_LENGTH,    /* value: the length; other: what it should be */
    SMC_CLAUSE_VOLUME_NUMBER,      /* element; value: the volume number */
    SMC_CLAUSE_TRANSPORT_FULL,     /* element; value: the volume number */
    SMC_CLAUSE_SOURCE_WHERE_EMPTY, /* element; value: the source address */
    SMC_CLAUSE_SOURCE_ADDRESS,     /* element; value: the source address, which is no storage element's */
    SMC_CLAUSE_MARK_PLACE,         /* element; value: the mark */
    SMC_CLAUSE_HOLDER_NUMBER,      /* element; value: the holder */
    SMC_CLAUSE_ID_WITHOUT_HOLDER,  /* element; value: the reservation id */
    SMC_CLAUSE_UNIT_HELD_ALONE,    /* element; value: the holder; other: the unit holder */
    SMC_CLAUSE_ZERO_BYTE,          /* element; value: the byte */
    SMC_CLAUSE_VOLUME_TWICE,       /* element; value: the volume number; other: the address of the element where it stands before */
    SMC_CLAUSE_EMPTY_SHELVES,      /* value: the number in the head; other: how many storage elements are empty */
    SMC_CLAUSE_GENERATIONS_LENGTH, /* value: the length; other: how many tags there are */
    SMC_CLAUSE_GENERATION_NUMBER,  /* value: the generation; other: the volume number */
    SMC_CLAUSE_MASKS_LENGTH,       /* value: the length; other: how many drives there are */
    SMC_CLAUSE_DRIVE_TAKES,        /* element, a full drive; value: its volume's generation; other: its mask, which lacks it */
    SMC_CLAUSE_SEARCH_LENGTH,      /* value: the length */
    SMC_CLAUSE_SEARCH_ACTION,      /* value: the action; 0 where another byte is not 0 */
    SMC_CLAUSE_SEARCH_TYPE,        /* value: the type */
    SMC_CLAUSE_SEARCH_NEXT         /* value: the next address */
} smc_clause;

/* The first clause that fails, and where. What a clause does not speak of is 0. */
typedef struct {
    smc_clause clause;
    uint8_t range;    /* 1 transport, 2 storage, 3 import/export, 4 drive */
    uint8_t host;     /* 1 to 8 */
    uint16_t address; /* the element's address.. */
    uint16_t place;   /* ..and its place in the table, from 0 on */
    uint64_t value;   /* what stands there */
    uint64_t other;   /* what it is held against */
} smc_fault;

/* Takes the same tables as the entries, and writes to none of them. */
smc_fault smc_explain(SMC_TABLES);

/* The rule that the clause states, as a sentence; never null. */
const char *smc_clause_text(smc_clause clause);

/* Writes the rule and where it fails, at most size - 1 characters and a 0. Returns the length of the whole text, as snprintf does. */
int smc_fault_text(smc_fault fault, char *text, size_t size);

#ifdef __cplusplus
}
#endif

#endif
