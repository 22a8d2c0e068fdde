/* The command `loft`, over loft.h. */
#ifndef LOFT_TOOL_H
#define LOFT_TOOL_H

#include "loft.h"

enum { DONE = 0, REFUSED = 1, WRONG = 2 };

typedef enum {
    OPTION_HOST,
    OPTION_ID,
    OPTION_ARM,
    OPTION_TYPE,
    OPTION_PARAMETERS,
    OPTION_WAIT,
    OPTION_WIDTH,
    OPTION_HTML,
    OPTION_CSV,
    OPTION_REEL,
    OPTION_LABELS,
    OPTION_TRANSPORTS,
    OPTION_SHELVES,
    OPTION_MAIL,
    OPTION_DRIVES,
    OPTION_FIRST,
    OPTION_MASKS,
    OPTIONS
} option;

enum { MOST_OPERANDS = 300 };

typedef struct arguments arguments;

typedef struct {
    const char *name, *usage, *about; /* usage: what follows the name */
    unsigned options;                 /* 1 << option for each that it takes */
    int least, most;                  /* operands, the file among them */
    int (*run)(arguments *a);
} word;

struct arguments {
    const word *word;
    const char *value[OPTIONS];
    const char *operand[MOST_OPERANDS];
    int operands;
    int fd;     /* where the answer goes, at once.. */
    FILE *out;  /* ..when this text is whole: loft_told */
    char *text;
    size_t length;
    FILE *err;
};

/* The tool, from its words on. `fd` is where answers are told; what is wrong goes to `err`. The exit code. */
int loft_run(int count, char **words, int fd, FILE *err);

extern const word words[];
/* What the text has come to is written; false, and a message, if that can't be done. */
bool loft_told(arguments *a);
int loft_say(const arguments *a, const loft_fault *fault);
unsigned loft_wait(const arguments *a);
bool loft_choose(const arguments *a, option o, unsigned base, unsigned long least, unsigned long most, unsigned long *value, loft_fault *fault);
/* The reader's copy of a library, with what was found while opening it said on `err`. */
bool loft_enter(arguments *a, loft_store *store, loft_mode mode, loft_fault *fault);
/* A page or a sheet: whole into the file of that name, or `-` for the answer. */
bool loft_deliver(arguments *a, const char *path, const char *text, size_t length, loft_fault *fault);

/* What each word does. */
int run_new(arguments *a), run_check(arguments *a), run_show(arguments *a), run_replay(arguments *a);
int run_send(arguments *a), run_move(arguments *a), run_exchange(arguments *a), run_reserve(arguments *a), run_release(arguments *a);
int run_plain(arguments *a), run_list(arguments *a), run_import(arguments *a), run_export(arguments *a);

/* A call, the answer told, the tables saved (calls.c). */
int loft_call_out(arguments *a, loft_store *store, const loft_call *call);

/* In words (tell.c). */
void tell_call(FILE *out, const loft_bytes *tables, const loft_call *call);
void tell_reply(FILE *out, const loft_bytes *tables, const loft_call *call, const smc_reply *reply);
void tell_answer(FILE *out, const loft_bytes *tables, const loft_call *call, const uint8_t *answer, size_t count);
const char *sense_words(unsigned key, unsigned asc, unsigned ascq);
void tell_bytes(FILE *out, const uint8_t *bytes, size_t length);

/* Pictures (show.c, page.c, way.c). */
void show_text(FILE *out, const loft_store *store, unsigned width);
void show_page(FILE *out, const loft_store *store);
void way_text(FILE *out, const char *log, const loft_way *way, const loft_replayed *end);
void way_sheet(FILE *out, const loft_way *way);
void way_page(FILE *out, const char *log, const loft_way *way, const loft_replayed *end);

#endif
