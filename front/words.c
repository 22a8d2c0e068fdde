/* The words of the tool and their options: read, held to what each word takes, run. */
#define _GNU_SOURCE
#include "tool.h"
#include <errno.h>
#include <stdlib.h>
#include <string.h>
#include <sys/stat.h>

#define TAKES(o) (1u << OPTION_##o)
#define HOST_OPTIONS (TAKES(HOST) | TAKES(WAIT))

static const struct {
    const char *name, *value, *about;
} options[OPTIONS] = {
    [OPTION_HOST] = {"--host", "N", "the host that sends it, 1 to 8"},
    [OPTION_ID] = {"--id", "N", "the reservation's id, 0 to 255"},
    [OPTION_ARM] = {"--arm", "ADDRESS", "the transport that does it; without it the unit chooses"},
    [OPTION_TYPE] = {"--type", "TYPE", "all, transports, shelves, mail or drives"},
    [OPTION_PARAMETERS] = {"--parameters", "HEX", "the parameter bytes, two digits each"},
    [OPTION_WAIT] = {"--wait", "SECONDS", "how long to wait for another process that holds the library; 5"},
    [OPTION_WIDTH] = {"--width", "COLUMNS", "as wide as this; otherwise as the terminal, or 80"},
    [OPTION_HTML] = {"--html", "PAGE", "write one page for a browser or for print; - for the answer"},
    [OPTION_CSV] = {"--csv", "SHEET", "write a sheet for a spreadsheet; - for the answer"},
    [OPTION_REEL] = {"--reel", "LABEL", "tell the way of this reel"},
    [OPTION_LABELS] = {"--labels", "LIST", "a text file, a reel in each line: its label, its address (- for outside) and its generation, 1 to 8; 1 without it"},
    [OPTION_TRANSPORTS] = {"--transports", "RANGE", "the arms' addresses, as 0001 or 0001-0002"},
    [OPTION_SHELVES] = {"--shelves", "RANGE", "the shelves' addresses, as 1000-1003"},
    [OPTION_MAIL] = {"--mail", "RANGE", "the mail slots' addresses"},
    [OPTION_DRIVES] = {"--drives", "RANGE", "the drives' addresses"},
    [OPTION_MASKS] = {"--masks", "HEX", "for each drive, in address order, two digits: bit g-1 is set if it takes generation g; FF for all"},
    [OPTION_FIRST] = {"--first", "NUMBER", "the number of the log's first line; 1"},
};

const word words[] = {
    {"new", "FILE --transports RANGE --shelves RANGE [--mail RANGE] [--drives RANGE] [--labels LIST] [--masks HEX] [--first NUMBER]",
     "Makes a library: FILE, and its log FILE.log, which must not be there yet.",
     TAKES(TRANSPORTS) | TAKES(SHELVES) | TAKES(MAIL) | TAKES(DRIVES) | TAKES(LABELS) | TAKES(MASKS) | TAKES(FIRST), 1, 1, run_new},
    {"check", "FILE [--wait SECONDS]",
     "Says whether the library is sound, its log whole, and whether the log leads from the tables as they were to those in the file. Writes nothing.",
     TAKES(WAIT), 1, 1, run_check},
    {"show", "FILE [--width COLUMNS] [--html PAGE]", "Shows the library: transports, drives, mail slots and shelves, with labels, holders and marks.",
     TAKES(WAIT) | TAKES(WIDTH) | TAKES(HTML), 1, 1, run_show},
    {"replay", "FILE LOG [--reel LABEL] [--html PAGE] [--csv SHEET]",
     "Runs LOG over a copy of the tables as they were when FILE's log began, or as FILE has them if LOG begins with the next number. Says where it "
     "stopped, and why; with --reel, where that reel went. FILE and LOG stay as they are.",
     TAKES(REEL) | TAKES(HTML) | TAKES(CSV) | TAKES(WAIT), 2, 2, run_replay},
    {"send", "FILE --host N HEX.. [--parameters HEX]", "Sends any command block, written in hexadecimal; or one of the words below, as `send FILE --host 1 move 1000 0100`.",
     HOST_OPTIONS | TAKES(PARAMETERS), 2, MOST_OPERANDS, run_send},
    {"move", "FILE --host N FROM TO [--arm ADDRESS]", "MOVE MEDIUM. FROM and TO are addresses, as 1000 or 1000h, or the label of a reel: where it stands.",
     HOST_OPTIONS | TAKES(ARM), 3, 3, run_move},
    {"exchange", "FILE --host N SOURCE FIRST SECOND [--arm ADDRESS]", "EXCHANGE MEDIUM: what is in FIRST goes to SECOND, what is in SOURCE to FIRST.",
     HOST_OPTIONS | TAKES(ARM), 4, 4, run_exchange},
    {"reserve", "FILE --host N [[--id N] ELEMENT..]", "RESERVE: the unit, or elements under an id. ELEMENT is an address, a run as 1000-1003, or a label.",
     HOST_OPTIONS | TAKES(ID), 1, 33, run_reserve},
    {"release", "FILE --host N [--id N]", "RELEASE: the unit and all elements of this host, or its elements of one id.", HOST_OPTIONS | TAKES(ID), 1, 1, run_release},
    {"prevent", "FILE --host N", "PREVENT: no reel is brought in or taken out until this host allows it.", HOST_OPTIONS, 1, 1, run_plain},
    {"allow", "FILE --host N", "ALLOW: this host no longer prevents it.", HOST_OPTIONS, 1, 1, run_plain},
    {"ready", "FILE --host N", "TEST UNIT READY.", HOST_OPTIONS, 1, 1, run_plain},
    {"sense", "FILE --host N", "REQUEST SENSE: why the last command of this host failed, or what happened behind its back.", HOST_OPTIONS, 1, 1, run_plain},
    {"list", "FILE --host N [START] [--type TYPE]", "READ ELEMENT STATUS with labels, from START on.", HOST_OPTIONS | TAKES(TYPE), 1, 2, run_list},
    {"import", "FILE SLOT LABEL", "A person puts a reel into a mail slot.", TAKES(WAIT), 3, 3, run_import},
    {"export", "FILE SLOT", "A person takes the reel out of a mail slot. SLOT is an address or a label.", TAKES(WAIT), 2, 2, run_export},
    {"reset", "FILE", "The unit is reset: no reservation, no prevention and no sense is left, and every host is told.", TAKES(WAIT), 1, 1, run_export},
    {0},
};

static const char exits[] = "Exit: 0 done; 1 refused, or not so (CHECK CONDITION, a conflict, a house number, not sound, a replay that stopped);\n"
                            "2 a wrong word, a bad file or the system: then the call was not made, or the message says so.\n";

static const word *find_word(const char *name)
{
    const word *w = words;
    while (w->name && strcmp(w->name, name) != 0)
        w++;
    return w->name ? w : NULL;
}

static void help_all(FILE *out)
{
    fprintf(out, "loft: a tape library on disk, over the proved command core.\n\n");
    for (const word *w = words; w->name; w++)
        fprintf(out, "  loft %s %s\n", w->name, w->usage);
    fprintf(out, "\n`loft WORD --help` says what a word does. %s", exits);
}

static void help_word(FILE *out, const word *w)
{
    fprintf(out, "loft %s %s\n\n%s\n\n", w->name, w->usage, w->about);
    for (int o = 0; o < OPTIONS; o++)
        if (w->options & 1u << o)
            fprintf(out, "  %s %-*s  %s\n", options[o].name, (int)(21 - strlen(options[o].name)), options[o].value, options[o].about);
    fprintf(out, "  --help\n\n%s", exits);
}

bool loft_told(arguments *a)
{
    const bool whole = fflush(a->out) == 0 && !ferror(a->out);
    const bool good = whole && loft_write_all(a->fd, a->text, a->length);
    if (!good)
        fprintf(a->err, "loft: the answer could not be written: %s\n", strerror(errno));
    rewind(a->out);
    return good;
}

int loft_say(const arguments *a, const loft_fault *fault)
{
    fprintf(a->err, "loft: %s\n", fault->text);
    return fault->code;
}

bool loft_choose(const arguments *a, option o, unsigned base, unsigned long least, unsigned long most, unsigned long *value, loft_fault *fault)
{
    if (loft_number(a->value[o], base, most, value) && *value >= least)
        return true;
    return loft_fail(fault, WRONG, "%s %s: %s, from %lu to %lu", options[o].name, a->value[o], options[o].about, least, most);
}

bool loft_enter(arguments *a, loft_store *store, loft_mode mode, loft_fault *fault)
{
    unsigned long wait = 5;
    if (a->value[OPTION_WAIT] && !loft_choose(a, OPTION_WAIT, 10, 0, 100000, &wait, fault))
        return false;
    if (!loft_open(store, a->operand[0], mode, (unsigned)wait, fault))
        return false;
    if (store->torn[0])
        fprintf(a->err, "loft: %s\n", store->torn);
    if (store->recovered > 0)
        fprintf(a->err, "loft: %s: %u line%s of the log, up to number %u, not yet in its tables: applied now\n", store->path, store->recovered,
                store->recovered == 1 ? "" : "s", store->library.next - 1);
    return true;
}

static bool same_file(const char *path, const struct stat *s)
{
    struct stat other;
    return stat(path, &other) == 0 && other.st_ino == s->st_ino && other.st_dev == s->st_dev;
}

/* A page is no reason to lose a library or a log: neither the files of this command nor any other library file is written over. */
static bool harmless(const arguments *a, const char *path, loft_fault *fault)
{
    struct stat s;
    loft_library library;
    loft_fault none;
    char *log = NULL;
    if (stat(path, &s) != 0)
        return true;
    bool taken = asprintf(&log, "%s.log", a->operand[0]) < 0 || same_file(log, &s);
    free(log);
    for (int i = 0; i < a->operands; i++)
        taken = taken || same_file(a->operand[i], &s);
    if (!taken && loft_library_load(&library, path, &none)) {
        loft_library_free(&library);
        taken = true;
    }
    return !taken || loft_fail(fault, WRONG, "%s: is a library or a log, and was left as it is: write the page to another file", path);
}

bool loft_deliver(arguments *a, const char *path, const char *text, size_t length, loft_fault *fault)
{
    if (strcmp(path, "-") == 0) {
        fwrite(text, 1, length, a->out);
        return true;
    }
    if (!harmless(a, path, fault) || !loft_save_file(path, text, length, fault))
        return false;
    fprintf(a->out, "written: %s\n", path);
    return true;
}

/* ---- reading the words ---- */

static bool take_option(arguments *a, const char *name, const char *value, loft_fault *fault)
{
    int o = 0;
    while (o < OPTIONS && strcmp(options[o].name, name) != 0)
        o++;
    if (o == OPTIONS || !(a->word->options & 1u << o))
        return loft_fail(fault, WRONG, "%s: `loft %s` has no such option; `loft %s --help` lists them", name, a->word->name, a->word->name);
    if (!value)
        return loft_fail(fault, WRONG, "%s %s: its value is missing", name, options[o].value);
    if (a->value[o])
        return loft_fail(fault, WRONG, "%s stands there twice", name);
    a->value[o] = value;
    return true;
}

/* The words behind `loft WORD`. Behind `send FILE` a word for a usual command stands for that word itself. */
static bool take_words(arguments *a, int count, char **given, loft_fault *fault)
{
    for (int i = 0; i < count; i++) {
        const word *inner = a->word->run == run_send && a->operands == 1 ? find_word(given[i]) : NULL;
        if (strncmp(given[i], "--", 2) == 0) {
            if (!take_option(a, given[i], i + 1 < count ? given[i + 1] : NULL, fault))
                return false;
            i++;
        } else if (inner && inner > find_word("send")) {
            a->word = inner;
        } else if (a->operands == MOST_OPERANDS) {
            return loft_fail(fault, WRONG, "more than %d words", MOST_OPERANDS);
        } else {
            a->operand[a->operands++] = given[i];
        }
    }
    if (a->operands < a->word->least || a->operands > a->word->most)
        return loft_fail(fault, WRONG, "%s words: loft %s %s", a->operands < a->word->least ? "too few" : "too many", a->word->name, a->word->usage);
    return true;
}

static bool asks_help(int count, char **given)
{
    for (int i = 0; i < count; i++)
        if (strcmp(given[i], "--help") == 0 || strcmp(given[i], "-h") == 0)
            return true;
    return false;
}

static int run_word(arguments *a, int count, char **given)
{
    loft_fault fault;
    const char *name = count > 0 ? given[0] : "";
    a->word = find_word(name);
    if (a->word && asks_help(count, given))
        return help_word(a->out, a->word), DONE;
    if (asks_help(count < 1 ? count : 1, given) || strcmp(name, "help") == 0)
        return help_all(a->out), DONE;
    if (!a->word) {
        fprintf(a->err, count > 0 ? "loft: %s: no such word; `loft --help` lists them\n" : "loft: which word%s? `loft --help` lists them\n", name);
        return WRONG;
    }
    if (!take_words(a, count - 1, given + 1, &fault))
        return loft_say(a, &fault);
    return a->word->run(a);
}

int loft_run(int count, char **given, int fd, FILE *err)
{
    arguments a = {.fd = fd, .err = err};
    a.out = open_memstream(&a.text, &a.length);
    if (!a.out) {
        fprintf(err, "loft: no memory\n");
        return WRONG;
    }
    int code = run_word(&a, count, given);
    if (code != WRONG && !loft_told(&a))
        code = WRONG;
    fclose(a.out);
    free(a.text);
    return code;
}
