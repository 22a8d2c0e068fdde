/* A line of the log: written, shown, and what is wrong with one that the core stopped at. Only the core decides whether a line is good. */
#include "loft.h"
#include <string.h>

static char *put_digits(char *at, const uint8_t *bytes, size_t length)
{
    for (size_t i = 0; i < length; i++)
        at += sprintf(at, "%02X", bytes[i]);
    return at;
}

size_t loft_line_write(uint32_t number, const loft_call *call, char line[SMC_LONGEST_LINE + 2])
{
    char text[32];
    const int front = snprintf(text, sizeof text, "%u\t%u\t", number, call->host);
    const size_t length = (size_t)front + 2 * call->block_length + 1 + 2 * call->parameters_length;
    if (call->host > 9 || number > SMC_MOST_LINE_NUMBER || length > SMC_LONGEST_LINE)
        return 0;
    memcpy(line, text, (size_t)front);
    char *end = put_digits(line + front, call->block, call->block_length);
    *end++ = '\t';
    end = put_digits(end, call->parameters, call->parameters_length);
    *end++ = '\n';
    return (size_t)(end - line);
}

static unsigned two(const uint8_t *at) { return at[0] * 256u + at[1]; }

smc_reply loft_make(const loft_bytes *tables, const loft_call *call, uint8_t answer[SMC_LARGEST_ANSWER])
{
    const smc_tables t = loft_lend(tables);
    const uint8_t *p = call->parameters;
    if (call->host != 0)
        return smc_command(SMC_LEND(&t), call->host, call->block, call->block_length, p, call->parameters_length, answer, SMC_LARGEST_ANSWER);
    if (call->block[0] == 1)
        return smc_import(SMC_LEND(&t), two(p), two(p + 2));
    return call->block[0] == 2 ? smc_export(SMC_LEND(&t), two(p)) : smc_reset(SMC_LEND(&t));
}

void loft_line_text(const uint8_t *line, size_t length, char *text, size_t size)
{
    char *at = text, *last = text + size - 8;
    for (size_t i = 0; i < length && at < last; i++) {
        if (line[i] == '\t')
            at += sprintf(at, "<tab>");
        else
            at += sprintf(at, line[i] > 0x1F && line[i] < 0x7F ? "%c" : "\\x%02X", line[i]);
    }
    strcpy(at, at >= last ? ".." : "");
}

/* ---- what is wrong ---- */

typedef struct {
    const uint8_t *at;
    size_t length;
} field;

static bool judge_number(field f, uint32_t expected, char *why, size_t size)
{
    unsigned long value = 0;
    for (size_t i = 0; i < f.length && i < 10; i++) {
        if (f.at[i] < '0' || f.at[i] > '9')
            return snprintf(why, size, "its number is not written in decimal digits alone (byte %zu)", i + 1), false;
        value = value * 10 + f.at[i] - '0';
    }
    if (f.length == 0 || f.length > 9 || f.at[0] == '0')
        return snprintf(why, size, "its number is %s", f.length == 0 ? "missing" : f.length > 9 ? "above 999,999,999" : "0 or begins with a 0"), false;
    if (value != expected)
        return snprintf(why, size, "its number is %lu", value), false;
    return true;
}

static bool judge_digits(field f, const char *name, size_t column, char *why, size_t size)
{
    for (size_t i = 0; i < f.length; i++)
        if (!strchr("0123456789ABCDEF", f.at[i]) || f.at[i] == 0)
            return snprintf(why, size, "byte %zu, in its %s, is no hexadecimal digit 0-9 or A-F%s", column + i + 1, name,
                            f.at[i] == '\r'                       ? " but a carriage return"
                            : f.at[i] >= 'a' && f.at[i] <= 'f' ? " but a small letter"
                                                                  : ""),
                   false;
    if (f.length % 2)
        return snprintf(why, size, "its %s have an odd number of digits", name), false;
    return true;
}

static bool judge_event(field command, field parameters, char *why, size_t size)
{
    static const size_t digits[4] = {0, 8, 4, 0};
    const bool known = command.length == 2 && command.at[0] == '0' && command.at[1] >= '1' && command.at[1] <= '3';
    if (!known)
        return snprintf(why, size, "its host is 0, and its command is no event: 01 import, 02 export, 03 reset"), false;
    if (parameters.length != digits[command.at[1] - '0'])
        return snprintf(why, size, "the event %.2s has %zu parameter bytes and not %zu", (const char *)command.at, parameters.length / 2,
                        digits[command.at[1] - '0'] / 2),
               false;
    return true;
}

/* Three tabs part four fields. */
static unsigned split(const uint8_t *line, size_t length, field fields[4])
{
    unsigned tabs = 0;
    size_t from = 0;
    for (size_t i = 0; i <= length; i++)
        if (i == length || line[i] == '\t') {
            if (tabs < 4)
                fields[tabs] = (field){line + from, i - from};
            from = i + 1;
            tabs += i < length;
        }
    return tabs;
}

void loft_line_fault(const uint8_t *line, size_t length, bool ended, uint32_t expected, char *why, size_t size)
{
    field f[4];
    if (!ended && length <= SMC_LONGEST_LINE) {
        snprintf(why, size, "it has no line feed: the log is cut off there");
        return;
    }
    if (length > SMC_LONGEST_LINE) {
        snprintf(why, size, "it is longer than %d bytes", SMC_LONGEST_LINE);
        return;
    }
    const unsigned tabs = split(line, length, f);
    if (tabs != 3) {
        snprintf(why, size, "it has %u tabs and not 3", tabs);
        return;
    }
    if (!judge_number(f[0], expected, why, size))
        return;
    if (f[1].length != 1 || f[1].at[0] < '0' || f[1].at[0] > '9') {
        snprintf(why, size, "its host is not one digit");
        return;
    }
    const size_t column = (size_t)(f[2].at - line), behind = (size_t)(f[3].at - line);
    if (judge_digits(f[2], "command bytes", column, why, size) && judge_digits(f[3], "parameter bytes", behind, why, size) &&
        (f[1].at[0] != '0' || judge_event(f[2], f[3], why, size)))
        snprintf(why, size, "it is of another form");
}
