/* Calls, replies and answers in words. */
#include "tool.h"
#include <string.h>

static unsigned two(const uint8_t *at) { return at[0] * 256u + at[1]; }

static const char *const numbers[] = {
    "",
    "the tables are not sound",
    "the host is not 1 to 8",
    "the command block is empty or of wrong length",
    "the parameter bytes are not as many as the command says",
    "the answer buffer is too short",
    "the address is no mail slot",
    "removal is prevented",
    "import: the mail slot is full; export: it is empty",
    "the volume number is 0, has no label, or is in the library already",
};

static const struct {
    unsigned key, codes;
    const char *text;
} senses[] = {
    {5, 0x1A00, "the list has a wrong length"},
    {5, 0x2000, "no such command"},
    {5, 0x2101, "no such element there"},
    {5, 0x2400, "a field of the command block has no such value"},
    {5, 0x2600, "a field of the list has no such value"},
    {5, 0x3012, "the drive does not take cartridges of this generation"},
    {5, 0x3B0D, "the destination is full"},
    {5, 0x3B0E, "the source is empty"},
    {5, 0x3B11, "the magazine is out"},
    {6, 0x2800, "reels were found in other places"},
    {6, 0x2801, "a reel was brought in or taken out since the host's last command; the host repeats its command"},
    {6, 0x2900, "the unit was reset since the host's last command; the host repeats its command"},
    {0, 0x0000, "nothing to tell"},
};

const char *sense_words(unsigned key, unsigned asc, unsigned ascq)
{
    for (size_t i = 0; i < sizeof senses / sizeof *senses; i++)
        if (senses[i].key == key && senses[i].codes == asc * 256 + ascq)
            return senses[i].text;
    return "no words are known for it";
}

static void tell_reel(FILE *out, const loft_bytes *tables, unsigned address)
{
    char label[LOFT_LABEL], place[40];
    loft_element e;
    if (loft_element_of(tables, address, &e) && e.volume != 0)
        fprintf(out, "%s ", loft_label(tables, e.volume, label));
    fprintf(out, "from %s", loft_place_text(tables, address, place));
}

static void tell_move(FILE *out, const loft_bytes *tables, const uint8_t *b)
{
    char place[40], second[40];
    fprintf(out, b[0] == SMC_MOVE_MEDIUM ? "MOVE MEDIUM " : "EXCHANGE MEDIUM ");
    tell_reel(out, tables, two(b + 4));
    fprintf(out, " to %s", loft_place_text(tables, two(b + 6), place));
    if (b[0] == SMC_EXCHANGE_MEDIUM)
        fprintf(out, ", what is there to %s", loft_place_text(tables, two(b + 8), second));
    if (two(b + 2) != 0)
        fprintf(out, " by transport %04Xh", two(b + 2));
}

static void tell_hold(FILE *out, const loft_bytes *tables, const loft_call *c)
{
    const bool part = c->block[1] & 1;
    char place[40];
    fprintf(out, c->block[0] == SMC_RESERVE ? "RESERVE" : "RELEASE");
    if (!part)
        fprintf(out, c->block[0] == SMC_RESERVE ? " the unit" : " the unit and all elements");
    else
        fprintf(out, " id %u", c->block[2]);
    for (size_t i = 0; part && i + SMC_LIST_DESCRIPTOR_SIZE <= c->parameters_length; i += SMC_LIST_DESCRIPTOR_SIZE) {
        const unsigned count = two(c->parameters + i + SMC_LIST_NUMBER);
        fprintf(out, "%s%s", i ? ", " : ": ", loft_place_text(tables, two(c->parameters + i + SMC_LIST_ADDRESS), place));
        if (count != 1)
            fprintf(out, count ? " and the %u behind it" : " and all behind it", count - 1);
    }
}

static void tell_event(FILE *out, const loft_bytes *tables, const loft_call *c)
{
    char label[LOFT_LABEL], place[40];
    const uint8_t *p = c->parameters;
    if (c->block[0] == 3) {
        fprintf(out, "the unit is reset");
        return;
    }
    const bool in = c->block[0] == 1;
    fprintf(out, "the operator %s ", in ? "brings in" : "takes out");
    if (in)
        fprintf(out, "%s at %s", loft_label(tables, two(p + 2), label), loft_place_text(tables, two(p), place));
    else
        tell_reel(out, tables, two(p));
}

void tell_call(FILE *out, const loft_bytes *tables, const loft_call *c)
{
    static const struct {
        uint8_t first;
        const char *name;
    } plain[] = {{SMC_TEST_UNIT_READY, "TEST UNIT READY"}, {SMC_REQUEST_SENSE, "REQUEST SENSE"}, {SMC_READ_ELEMENT_STATUS, "READ ELEMENT STATUS"}, {SMC_MODE_SENSE, "MODE SENSE"},
                 {SMC_SEND_VOLUME_TAG, "SEND VOLUME TAG"}, {SMC_REQUEST_VOLUME_ELEMENT_ADDRESS, "REQUEST VOLUME ELEMENT ADDRESS"}};
    const uint8_t *b = c->block;
    if (c->host == 0) {
        tell_event(out, tables, c);
        return;
    }
    fprintf(out, "host %u: ", c->host);
    for (size_t i = 0; i < sizeof plain / sizeof *plain && c->block_length > 0; i++)
        if (plain[i].first == b[0]) {
            fprintf(out, "%s", plain[i].name);
            return;
        }
    if (c->block_length == 12 && (b[0] == SMC_MOVE_MEDIUM || b[0] == SMC_EXCHANGE_MEDIUM))
        tell_move(out, tables, b);
    else if (c->block_length == 6 && (b[0] == SMC_RESERVE || b[0] == SMC_RELEASE))
        tell_hold(out, tables, c);
    else if (c->block_length == 6 && b[0] == SMC_PREVENT_ALLOW)
        fprintf(out, b[4] & 1 ? "PREVENT removal" : "ALLOW removal");
    else if (c->block_length > 0)
        fprintf(out, "command %02Xh", b[0]);
    else
        fprintf(out, "no command");
}

void tell_reply(FILE *out, const loft_bytes *tables, const loft_call *c, const smc_reply *r)
{
    if (r->number == SMC_REMOVAL_PREVENTED)
        fprintf(out, "refused by number 7: %u host%s removal, host %u the lowest", r->preventers, r->preventers == 1 ? " prevents" : "s prevent", r->lowest);
    else if (r->number != 0)
        fprintf(out, "refused by number %u: %s", r->number, r->number < sizeof numbers / sizeof *numbers ? numbers[r->number] : "no words are known for it");
    else if (c->host == 0)
        fprintf(out, "done");
    else if (r->status == SMC_GOOD)
        fprintf(out, "GOOD");
    else if (r->status == SMC_RESERVATION_CONFLICT)
        fprintf(out, "RESERVATION CONFLICT: another host holds it");
    else {
        const uint8_t *s = tables->bytes[LOFT_HEAD] + SMC_HOST_AT(c->host);
        fprintf(out, "CHECK CONDITION %X/%02X/%02X: %s", s[0], s[1], s[2], sense_words(s[0], s[1], s[2]));
    }
    fprintf(out, "\n");
}

void tell_bytes(FILE *out, const uint8_t *bytes, size_t length)
{
    for (size_t i = 0; i < length; i++)
        fprintf(out, "%s%02X", i == 0 ? "    " : i % 32 ? " " : "\n    ", bytes[i]);
    fprintf(out, length ? "\n" : "");
}

/* ---- a listing ---- */

static void tell_descriptor(FILE *out, const uint8_t *d, unsigned type, bool tags)
{
    const unsigned flags = d[SMC_DESCRIPTOR_FLAGS];
    size_t length = 32;
    const uint8_t *label = d + SMC_DESCRIPTOR_LABEL;
    while (length > 0 && (label[length - 1] == ' ' || label[length - 1] == 0))
        length--;
    fprintf(out, "    %04Xh  %-9s  %s", two(d), loft_type_name(type), flags & SMC_FLAG_FULL ? "full " : "empty");
    if (tags && flags & SMC_FLAG_FULL)
        fprintf(out, "  ");
    for (size_t i = 0; tags && flags & SMC_FLAG_FULL && i < length; i++)
        fprintf(out, label[i] > 0x20 && label[i] < 0x7F ? "%c" : "\\x%02X", label[i]);
    if (d[SMC_DESCRIPTOR_SOURCE_STANDS])
        fprintf(out, ", last shelf %04Xh", two(d + SMC_DESCRIPTOR_SOURCE));
    fprintf(out, flags & SMC_FLAG_FULL && type == SMC_IMPORT_EXPORT && flags & SMC_FLAG_MARKED ? ", put there by hand\n" : "\n");
}

static void tell_listing(FILE *out, const uint8_t *a, size_t count)
{
    size_t at = SMC_LISTING_HEADER_SIZE;
    fprintf(out, "    %u elements, %zu bytes\n", two(a + SMC_LISTING_NUMBER), count);
    while (at + SMC_PAGE_HEADER_SIZE <= count) {
        const uint8_t *page = a + at;
        const size_t width = two(page + SMC_PAGE_WIDTH), bytes = two(page + SMC_PAGE_BYTES + 1) + 65536ul * page[SMC_PAGE_BYTES];
        at += SMC_PAGE_HEADER_SIZE;
        if (width < SMC_PLAIN_DESCRIPTOR_SIZE)
            return;
        for (const size_t end = at + bytes; at < end && at + width <= count; at += width)
            tell_descriptor(out, a + at, page[SMC_PAGE_TYPE], width >= SMC_TAGGED_DESCRIPTOR_SIZE);
    }
}

void tell_answer(FILE *out, const loft_bytes *tables, const loft_call *c, const uint8_t *a, size_t count)
{
    (void)tables;
    if (c->host == 0 || c->block_length == 0 || count == 0)
        return;
    const bool lists = c->block[0] == SMC_READ_ELEMENT_STATUS || c->block[0] == SMC_REQUEST_VOLUME_ELEMENT_ADDRESS;
    if (lists && count >= SMC_LISTING_HEADER_SIZE)
        tell_listing(out, a, count);
    else if (c->block[0] == SMC_REQUEST_SENSE && count == SMC_SENSE_SIZE)
        fprintf(out, "    is told %X/%02X/%02X: %s\n", a[SMC_SENSE_KEY], a[SMC_SENSE_ASC], a[SMC_SENSE_ASCQ],
                sense_words(a[SMC_SENSE_KEY], a[SMC_SENSE_ASC], a[SMC_SENSE_ASCQ]));
    else
        tell_bytes(out, a, count);
}
