/* A library on disk, over the proved core: the lent tables in one file, and a log of every call beside it, in the form that smc_replay reads.
 * docs/LOFT.md says how the two files are kept so that no answered call is lost. The tool `loft` is written over this; so can a front end be.
 *
 * Every function that can fail answers false and says why in a fault: a whole sentence with the file, the line and the reason, and an exit
 * code: 1 for what was refused or is not so, 2 for a wrong word or the system. Nothing here ends the program or prints. */
#ifndef LOFT_H
#define LOFT_H

#include "smc.h"
#include <stdbool.h>
#include <stdio.h>

typedef struct {
    int code;
    char text[1600];
} loft_fault;

/* Sets the fault and answers false, so that a function can return it. */
bool loft_fail(loft_fault *fault, int code, const char *format, ...) __attribute__((format(printf, 3, 4)));

/* ---- The lent tables: one list (tables.c). */

enum { LOFT_HEAD, LOFT_ELEMENTS, LOFT_TAGS, LOFT_BLANK, LOFT_GENERATIONS, LOFT_MASKS, LOFT_SEARCH, LOFT_TABLES };

/* What the lengths of the tables follow from. first and count by type, 1 to 4. */
typedef struct {
    unsigned first[SMC_RANGES + 1], count[SMC_RANGES + 1], volumes;
} loft_shape;

typedef struct {
    const char *name;
    size_t at, length_at; /* of the pointer and the length in smc_tables */
    bool written;         /* by calls: such a table is kept a second time, as it was when the log began */
    size_t (*length)(const loft_shape *shape);
    size_t most;          /* bytes */
    uint8_t fill;         /* what a new table is filled with, and one that an older file does not have */
    uint32_t since;       /* the first version of the file that has it */
} loft_table;

extern const loft_table loft_tables[LOFT_TABLES];

typedef struct {
    uint8_t *bytes[LOFT_TABLES];
    size_t length[LOFT_TABLES];
} loft_bytes;

smc_tables loft_lend(const loft_bytes *tables);
bool loft_room(loft_bytes *tables, int table, size_t length, loft_fault *fault);
bool loft_copy(loft_bytes *to, const loft_bytes *from, loft_fault *fault);
void loft_free(loft_bytes *tables);

/* What the head and the tags say; of tables that have no whole head all is 0. */
loft_shape loft_shape_of(const loft_bytes *tables);

/* Whether the core takes the tables; if not, which clause fails, and where. */
bool loft_sound(const loft_bytes *tables, char *why, size_t size);

/* ---- Elements and labels of sound tables (places.c). */

typedef struct {
    unsigned place, address, type;
    unsigned volume, source, holder, id, mark;
} loft_element;

unsigned loft_elements(const loft_bytes *tables);
loft_element loft_element_at(const loft_bytes *tables, unsigned place);
bool loft_element_of(const loft_bytes *tables, unsigned address, loft_element *found);
bool loft_element_with(const loft_bytes *tables, unsigned volume, loft_element *found);
unsigned loft_volumes(const loft_bytes *tables);
const char *loft_type_name(unsigned type); /* "shelf" */
/* "shelf 1000h", or "no element 1004h" */
const char *loft_place_text(const loft_bytes *tables, unsigned address, char text[40]);

enum { LOFT_LABEL = 132 }; /* 32 bytes, each as \xNN at worst, and a 0 */
/* The label as it can be printed: without the blanks behind it, every byte that is no visible letter as \xNN. */
const char *loft_label(const loft_bytes *tables, unsigned volume, char text[LOFT_LABEL]);
/* A label, or volume:N. */
bool loft_volume_of(const loft_bytes *tables, const char *name, unsigned *volume, loft_fault *fault);
/* An address in hexadecimal (1000, 1000h, 0x1000), or a label: the element in which that reel stands. */
bool loft_address_of(const loft_bytes *tables, const char *name, unsigned *address, loft_fault *fault);
bool loft_number(const char *text, unsigned base, unsigned long most, unsigned long *value);

/* ---- Files (disk.c). */

bool loft_read_file(const char *path, size_t most, uint8_t **bytes, size_t *length, loft_fault *fault);
bool loft_write_all(int fd, const void *bytes, size_t length);
/* A new file, flushed, renamed over the old one, the directory flushed: the old one or the new one is there, whatever happens. */
bool loft_save_file(const char *path, const void *bytes, size_t length, loft_fault *fault);

/* ---- The library file (library.c). */

/* 1: head, elements, tags, blank. 2: generations and masks with them; a file of version 1 is read with generation 1 for each reel, and drives that take all. 3: the search; an
 * older file is read without one. */
enum { LOFT_VERSION = 3 };

typedef struct {
    loft_bytes now;
    loft_bytes then;    /* as the log began; only the tables that calls write */
    uint32_t first;     /* number of the log's first line */
    uint32_t next;      /* number of the first line that `now` has not seen.. */
    uint64_t place;     /* ..and the bytes of the log before it */
} loft_library;

void loft_library_free(loft_library *library);
/* The tables as they were when the log began, whole: a copy. */
bool loft_opening(const loft_library *library, loft_bytes *copy, loft_fault *fault);
bool loft_library_encode(const loft_library *library, uint8_t **bytes, size_t *length, loft_fault *fault);
bool loft_library_decode(loft_library *library, const char *path, const uint8_t *bytes, size_t length, loft_fault *fault);
bool loft_library_load(loft_library *library, const char *path, loft_fault *fault);

/* ---- A line of the log (line.c). */

typedef struct {
    uint32_t host; /* 0 for an event, as in the log: block 01, 02 or 03 */
    size_t block_length, parameters_length;
    uint8_t block[256], parameters[256];
} loft_call;

/* With its line feed. 0 if the call has no line: host above 9, or too long. */
size_t loft_line_write(uint32_t number, const loft_call *call, char line[SMC_LONGEST_LINE + 2]);
/* What is wrong with a line that smc_replay stopped at with number 10. `ended` says whether a line feed follows. */
void loft_line_fault(const uint8_t *line, size_t length, bool ended, uint32_t expected, char *why, size_t size);
/* The beginning of a line as it can be printed, tabs as <tab>. */
void loft_line_text(const uint8_t *line, size_t length, char *text, size_t size);
smc_reply loft_make(const loft_bytes *tables, const loft_call *call, uint8_t answer[SMC_LARGEST_ANSWER]);

/* ---- The log (log.c). */

typedef enum { LOFT_READ, LOFT_WRITE, LOFT_CREATE } loft_mode;

typedef struct {
    int fd;
    char *path;
    uint64_t size;
} loft_log;

/* Opens and locks: shared to read, alone to write. Waits at most so many seconds for another process. */
bool loft_log_open(loft_log *log, const char *path, loft_mode mode, unsigned wait, loft_fault *fault);
void loft_log_close(loft_log *log);
/* Other processes may write again; what was the log when it was opened stays as it is. */
void loft_log_unlock(loft_log *log);
/* The line is on the disk when this answers true; otherwise it is not in the log, or the fault says that this is not known. */
bool loft_log_append(loft_log *log, const char *line, size_t length, loft_fault *fault);
bool loft_log_cut(loft_log *log, uint64_t size, loft_fault *fault);

/* ---- Replay of a log on disk (replay.c). */

/* Looks on while a log is replayed. Lines that can't concern it are run many at a time. */
typedef struct loft_watch {
    void *self;
    bool (*concerns)(void *self, const uint8_t *line, size_t length);
    bool (*applied)(void *self, uint32_t number, const uint8_t *line, size_t length, loft_fault *fault); /* behind such a line */
    bool (*passed)(void *self, uint32_t number, loft_fault *fault);                                      /* behind many others */
} loft_watch;

typedef struct {
    uint32_t number;     /* as of smc_replay: 0, 1 or 10 */
    uint32_t lines;      /* applied */
    uint32_t expected;   /* the number of the next line */
    uint64_t place;      /* where in the file the next line begins */
    bool torn;           /* number 10 at the log's end: the last line has no line feed, or holds zero bytes */
    char why[200];       /* with number 10 */
    char text[120];      /* the line, as far as it can be shown */
} loft_replayed;

/* From byte `place` of the log to its end, on these tables, which are written. `progress` is told on a terminal, or null. */
bool loft_replay(const loft_bytes *tables, const loft_log *log, uint64_t place, uint32_t expected, const loft_watch *watch, FILE *progress,
                 loft_replayed *end, loft_fault *fault);

/* ---- Both files together (store.c). */

typedef struct {
    char *path;             /* as it was named */
    char *file;             /* where it is */
    loft_library library;
    loft_log log;
    uint32_t recovered;     /* lines that the tables had not seen */
    char torn[320];         /* what was found at the log's end; empty for nothing */
    bool unsaved;
} loft_store;

/* With LOFT_WRITE a torn last line is cut off, and lines that the tables had not seen are saved in them. */
bool loft_open(loft_store *store, const char *path, loft_mode mode, unsigned wait, loft_fault *fault);
/* FILE and FILE.log must not be there yet, or the log be empty. The store takes the library over. */
bool loft_create(loft_store *store, const char *path, loft_library *library, loft_fault *fault);
/* Logs the call, flushes the log, and makes the call. False: it was not made. */
bool loft_send(loft_store *store, const loft_call *call, smc_reply *reply, uint8_t answer[SMC_LARGEST_ANSWER], loft_fault *fault);
bool loft_save(loft_store *store, loft_fault *fault);
void loft_close(loft_store *store);

/* ---- A reel's way (reel.c). */

typedef struct {
    uint32_t number, line; /* the line's own number, and which of the log it is, from 1 on */
    uint8_t host;          /* 0: the operator */
    uint8_t code;          /* A5h, A6h; 01h import, 02h export */
    uint16_t from, to;     /* addresses; 0: outside */
} loft_step;

typedef struct {
    unsigned volume;
    uint16_t start, now; /* addresses; 0: outside */
    size_t steps, room;
    loft_step *step;
    /* while the log runs */
    const loft_bytes *tables;
    uint32_t first;
    unsigned place;
    char digits[5];
} loft_way;

void loft_way_begin(loft_way *way, const loft_bytes *tables, unsigned volume, uint32_t first);
loft_watch loft_way_watch(loft_way *way);
void loft_way_free(loft_way *way);

#endif
