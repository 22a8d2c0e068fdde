/* A reel's way in text, and as a sheet. The log keeps no clock: when something happened is told by the number of its line. */
#include "tool.h"
#include <string.h>

static const char *who(uint8_t host, char text[16])
{
    snprintf(text, 16, host ? "host %u" : "the operator", host);
    return text;
}

static const char *what(uint8_t code)
{
    return code == SMC_MOVE_MEDIUM ? "MOVE" : code == SMC_EXCHANGE_MEDIUM ? "EXCHANGE" : code == 1 ? "IMPORT" : code == 2 ? "EXPORT" : "?";
}

void way_text(FILE *out, const char *log, const loft_way *w, const loft_replayed *end)
{
    char label[LOFT_LABEL], from[40], to[40], host[16];
    loft_label(w->tables, w->volume, label);
    fprintf(out, "%s, volume %u, by %s, numbers %u to %u\n", label, w->volume, log, w->first, end->expected - 1);
    fprintf(out, "%9s  at the start: %s\n", "", loft_place_text(w->tables, w->start, from));
    for (size_t i = 0; i < w->steps; i++) {
        const loft_step *s = w->step + i;
        loft_place_text(w->tables, s->from, from);
        loft_place_text(w->tables, s->to, to);
        if (s->from == 0)
            fprintf(out, "%9u  came in at %s, brought by %s\n", s->number, to, who(s->host, host));
        else if (s->to == 0)
            fprintf(out, "%9u  went out from %s, taken by %s\n", s->number, from, who(s->host, host));
        else
            fprintf(out, "%9u  from %s to %s, %s by %s\n", s->number, from, to, what(s->code), who(s->host, host));
    }
    fprintf(out, "%9s  %s: %s\n", "", end->number ? "when the replay stopped" : "now", loft_place_text(w->tables, w->now, to));
}

static void quoted(FILE *out, const char *text)
{
    fputc('"', out);
    for (; *text; text++)
        fprintf(out, *text == '"' ? "\"\"" : "%c", *text);
    fputc('"', out);
}

/* One row a step; addresses as in the documents, and an empty field for outside. */
void way_sheet(FILE *out, const loft_way *w)
{
    char label[LOFT_LABEL], place[40];
    loft_label(w->tables, w->volume, label);
    fprintf(out, "label,volume,number,line,host,call,from,from_place,to,to_place\n");
    for (size_t i = 0; i < w->steps; i++) {
        const loft_step *s = w->step + i;
        quoted(out, label);
        fprintf(out, ",%u,%u,%u,%u,%s,", w->volume, s->number, s->line, s->host, what(s->code));
        fprintf(out, s->from ? "%04Xh," : ",", s->from);
        fprintf(out, "%s,", loft_place_text(w->tables, s->from, place));
        fprintf(out, s->to ? "%04Xh," : ",", s->to);
        fprintf(out, "%s\n", loft_place_text(w->tables, s->to, place));
    }
}
