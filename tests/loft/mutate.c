/* The tool on spoilt files, in one process: library files and logs with bytes changed, cut, doubled and put in, some with the check sum made good again, so
 * that the tables behind it are read. Built with the sanitizers of addresses and of undefined behaviour; a hang ends the program by an alarm. Each case must
 * end with exit code 0, 1 or 2, and a message where it is not 0. Last line: "N passed, M failed".
 *
 *     mutate DIRECTORY CASES SEED
 *
 * DIRECTORY has a good library v, its log v.log and nothing else that is needed. */
#define _GNU_SOURCE
#include "tool.h"
#include <fcntl.h>
#include <signal.h>
#include <stdlib.h>
#include <string.h>
#include <unistd.h>

enum { MOST = 1 << 16, SECONDS = 20 };

static uint64_t chance_state;
static unsigned current, exits[3];

static unsigned chance(unsigned below)
{
    chance_state ^= chance_state << 13;
    chance_state ^= chance_state >> 7;
    chance_state ^= chance_state << 17;
    return (unsigned)(chance_state >> 33) % below;
}

static void hung(int signal_number)
{
    char text[60];
    (void)signal_number;
    const int n = snprintf(text, sizeof text, "mutate: case %u hangs\n", current);
    if (write(2, text, (size_t)n) < 0)
        _exit(4);
    _exit(3);
}

/* ---- files ---- */

typedef struct {
    uint8_t bytes[MOST + 4096];
    size_t length;
} text;

static void load(const char *path, text *t)
{
    const int fd = open(path, O_RDONLY);
    const ssize_t n = fd < 0 ? -1 : read(fd, t->bytes, MOST);
    if (n < 0) {
        perror(path);
        exit(2);
    }
    t->length = (size_t)n;
    close(fd);
}

static void store(const char *path, const text *t)
{
    const int fd = open(path, O_WRONLY | O_CREAT | O_TRUNC, 0666);
    if (fd < 0 || !loft_write_all(fd, t->bytes, t->length)) {
        perror(path);
        exit(2);
    }
    close(fd);
}

/* ---- spoiling ---- */

static void put_in(text *t, size_t at, const void *bytes, size_t length)
{
    if (t->length + length > MOST)
        return;
    memmove(t->bytes + at + length, t->bytes + at, t->length - at);
    memcpy(t->bytes + at, bytes, length);
    t->length += length;
}

static void spoil(text *t)
{
    static const char *const likely[] = {"\t", "\n", "0", "a", "\r\n", "A5", "\xFF\xFF", "999999999", "1000000000\t1\tA5\t\n", "\0\0\0\1"};
    const size_t at = t->length ? chance((unsigned)t->length) : 0;
    const char *word = likely[chance(10)];
    uint8_t copy[64];
    size_t length = chance(60) + 1;
    if (length > t->length - at)
        length = t->length - at;
    memcpy(copy, t->bytes + at, length);
    switch (t->length ? chance(7) : 4) {
    case 0: t->bytes[at] ^= (uint8_t)(1u << chance(8)); break;
    case 1: t->bytes[at] = (uint8_t)chance(256); break;
    case 2: t->length = at; break;
    case 3: put_in(t, at, copy, length); break;
    case 4: put_in(t, at, word, strlen(word)); break;
    case 5: memmove(t->bytes + at, t->bytes + at + length, t->length - at - length), t->length -= length; break;
    default: memset(t->bytes + at, chance(3) ? 0 : 0xFF, length < 4 ? length : 4); break;
    }
}

/* The length in the header and the check sum as they must be, so that what stands between them is looked at. */
static void make_good(text *t)
{
    uint32_t sum = 0xFFFFFFFF;
    if (t->length < 40)
        return;
    for (int i = 0; i < 4; i++)
        t->bytes[12 + i] = (uint8_t)(t->length >> (24 - 8 * i));
    for (size_t i = 0; i < t->length - 4; i++) {
        sum ^= t->bytes[i];
        for (int bit = 0; bit < 8; bit++)
            sum = sum >> 1 ^ (sum & 1 ? 0xEDB88320u : 0);
    }
    for (int i = 0; i < 4; i++)
        t->bytes[t->length - 4 + (size_t)i] = (uint8_t)(~sum >> (24 - 8 * i));
}

/* ---- one case ---- */

static bool tried(int fd, FILE *err, char **words)
{
    int count = 0;
    while (words[count])
        count++;
    rewind(err);
    const long before = ftell(err);
    const int code = loft_run(count, words, fd, err);
    if (code < 0 || code > 2 || (code != 0 && ftell(err) == before && strcmp(words[0], "ready") != 0)) {
        fprintf(stderr, "mutate: case %u: %s: exit %d\n", current, words[0], code);
        return false;
    }
    exits[code]++;
    return true;
}

static bool one_case(const char *directory, const text *library, const text *log, int fd, FILE *err)
{
    static text spoilt;
    char file[300], lines[300];
    snprintf(file, sizeof file, "%s/m", directory);
    snprintf(lines, sizeof lines, "%s/m.log", directory);
    const bool of_log = chance(2);
    spoilt = of_log ? *log : *library;
    for (unsigned n = 1 + chance(3); n > 0; n--)
        spoil(&spoilt);
    if (!of_log && chance(8))
        make_good(&spoilt);
    store(file, of_log ? library : &spoilt);
    store(lines, of_log ? &spoilt : log);
    char *check[] = {"check", file, "--wait", "0", NULL}, *show[] = {"show", file, "--html", "-", "--wait", "0", NULL};
    char *plain[] = {"show", file, "--width", "40", NULL}, *ready[] = {"ready", file, "--host", "1", "--wait", "0", NULL};
    char *way[] = {"replay", file, lines, "--reel", "volume:1", NULL}, *page[] = {"replay", file, lines, "--reel", "volume:3", "--html", "-", "--csv", "/dev/null.x/no", NULL};
    char *sheet[] = {"replay", file, lines, "--reel", "volume:2", "--csv", "-", NULL};
    char **all[] = {check, show, plain, way, sheet, page, ready};
    bool good = true;
    for (size_t i = 0; i < sizeof all / sizeof *all; i++)
        if (i == 0 || i == 3 || chance(3) == 0)
            good = tried(fd, err, all[i]) && good;
    return good;
}

int main(int count, char **words)
{
    static text library, log;
    char path[300];
    unsigned passed = 0, failed = 0;
    if (count != 4)
        return 2;
    const unsigned cases = (unsigned)atoi(words[2]);
    chance_state = 88172645463325252ull ^ (uint64_t)atoi(words[3]) << 32;
    snprintf(path, sizeof path, "%s/v", words[1]);
    load(path, &library);
    snprintf(path, sizeof path, "%s/v.log", words[1]);
    load(path, &log);
    const int nothing = open("/dev/null", O_WRONLY);
    FILE *err = tmpfile();
    signal(SIGALRM, hung);
    for (current = 1; current <= cases; current++) {
        alarm(SECONDS);
        const bool good = one_case(words[1], &library, &log, nothing, err);
        passed += good;
        failed += !good;
    }
    alarm(0);
    printf("mutate: exit 0 %u times, 1 %u times, 2 %u times\n", exits[0], exits[1], exits[2]);
    printf("%u passed, %u failed\n", passed, failed);
    return failed != 0 || passed == 0;
}
