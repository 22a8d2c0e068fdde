/* Elements by place and by address, and reels by their labels, in sound tables. */
#include "loft.h"
#include <stdlib.h>
#include <string.h>

static unsigned get16(const uint8_t *at) { return at[0] * 256u + at[1]; }

unsigned loft_elements(const loft_bytes *tables) { return (unsigned)(tables->length[LOFT_ELEMENTS] / SMC_ELEMENT_SIZE); }
unsigned loft_volumes(const loft_bytes *tables) { return (unsigned)(tables->length[LOFT_TAGS] / SMC_TAG_SIZE); }

const char *loft_type_name(unsigned type)
{
    static const char *const names[] = {"element", "transport", "shelf", "mail slot", "drive"};
    return names[type <= SMC_RANGES ? type : 0];
}

/* How many elements have a lower address: the records lie in address order. */
static unsigned before(const loft_shape *s, unsigned address)
{
    unsigned n = 0;
    for (int type = 1; type <= SMC_RANGES; type++)
        if (s->count[type] != 0 && s->first[type] < address)
            n += address - s->first[type] < s->count[type] ? address - s->first[type] : s->count[type];
    return n;
}

static loft_element read_element(const loft_bytes *tables, unsigned place, unsigned address, unsigned type)
{
    const uint8_t *e = tables->bytes[LOFT_ELEMENTS] + (size_t)SMC_ELEMENT_SIZE * place;
    return (loft_element){.place = place,
                          .address = address,
                          .type = type,
                          .volume = get16(e + SMC_ELEMENT_VOLUME),
                          .source = get16(e + SMC_ELEMENT_SOURCE),
                          .holder = e[SMC_ELEMENT_HOLDER],
                          .id = e[SMC_ELEMENT_ID],
                          .mark = e[SMC_ELEMENT_MARK]};
}

bool loft_element_of(const loft_bytes *tables, unsigned address, loft_element *found)
{
    const loft_shape s = loft_shape_of(tables);
    for (int type = 1; type <= SMC_RANGES; type++)
        if (address >= s.first[type] && address - s.first[type] < s.count[type]) {
            *found = read_element(tables, before(&s, address), address, (unsigned)type);
            return true;
        }
    return false;
}

loft_element loft_element_at(const loft_bytes *tables, unsigned place)
{
    const loft_shape s = loft_shape_of(tables);
    for (int type = 1; type <= SMC_RANGES; type++) {
        const unsigned begin = before(&s, s.first[type]);
        if (s.count[type] != 0 && place >= begin && place - begin < s.count[type])
            return read_element(tables, place, s.first[type] + place - begin, (unsigned)type);
    }
    return (loft_element){0};
}

bool loft_element_with(const loft_bytes *tables, unsigned volume, loft_element *found)
{
    const uint8_t *e = tables->bytes[LOFT_ELEMENTS];
    const unsigned count = loft_elements(tables);
    for (unsigned place = 0; volume != 0 && place < count; place++, e += SMC_ELEMENT_SIZE)
        if (get16(e + SMC_ELEMENT_VOLUME) == volume) {
            *found = loft_element_at(tables, place);
            return true;
        }
    return false;
}

const char *loft_place_text(const loft_bytes *tables, unsigned address, char text[40])
{
    loft_element e;
    if (address == 0)
        snprintf(text, 40, "outside");
    else if (loft_element_of(tables, address, &e))
        snprintf(text, 40, "%s %04Xh", loft_type_name(e.type), address);
    else
        snprintf(text, 40, "no element %04Xh", address);
    return text;
}

/* ---- labels ---- */

/* The 32 bytes of the label without blanks and zeros behind them. */
static size_t trimmed(const uint8_t *label)
{
    size_t length = 32;
    while (length > 0 && (label[length - 1] == ' ' || label[length - 1] == 0))
        length--;
    return length;
}

const char *loft_label(const loft_bytes *tables, unsigned volume, char text[LOFT_LABEL])
{
    char *end = text;
    *end = 0;
    if (volume == 0 || volume > loft_volumes(tables))
        return text;
    const uint8_t *label = tables->bytes[LOFT_TAGS] + (size_t)SMC_TAG_SIZE * (volume - 1);
    const size_t length = trimmed(label);
    for (size_t i = 0; i < length; i++)
        end += sprintf(end, label[i] > 0x20 && label[i] < 0x7F && label[i] != '\\' ? "%c" : "\\x%02X", label[i]);
    if (length == 0)
        sprintf(text, "volume:%u", volume);
    return text;
}

bool loft_number(const char *text, unsigned base, unsigned long most, unsigned long *value)
{
    unsigned long sum = 0;
    if (*text == 0)
        return false;
    for (; *text; text++) {
        const char *digits = "0123456789abcdef", *found = strchr(digits, *text >= 'A' && *text <= 'F' ? *text + 32 : *text);
        if (!found || found - digits >= (long)base || sum > most)
            return false;
        sum = sum * base + (unsigned long)(found - digits);
    }
    *value = sum;
    return sum <= most;
}

/* How many volumes have this label, and the first of them. */
static unsigned labelled(const loft_bytes *tables, const char *name, unsigned *volume)
{
    char text[LOFT_LABEL];
    unsigned found = 0;
    for (unsigned v = loft_volumes(tables); v > 0; v--)
        if (strcmp(loft_label(tables, v, text), name) == 0) {
            *volume = v;
            found++;
        }
    return found;
}

bool loft_volume_of(const loft_bytes *tables, const char *name, unsigned *volume, loft_fault *fault)
{
    unsigned long number;
    const unsigned found = labelled(tables, name, volume);
    if (found == 1)
        return true;
    if (found > 1)
        return loft_fail(fault, 2, "%s: %u volumes have this label, volume:%u the first of them; name one as volume:N", name, found, *volume);
    if (strncmp(name, "volume:", 7) != 0)
        return loft_fail(fault, 2, "%s: no reel has this label", name);
    if (loft_volumes(tables) == 0)
        return loft_fail(fault, 2, "%s: the library knows no reel", name);
    if (!loft_number(name + 7, 10, loft_volumes(tables), &number) || number == 0)
        return loft_fail(fault, 2, "%s: volumes go from volume:1 to volume:%u", name, loft_volumes(tables));
    *volume = (unsigned)number;
    return true;
}

static bool is_address(const char *name, unsigned *address)
{
    char digits[8];
    unsigned long value;
    const char *from = strncmp(name, "0x", 2) == 0 ? name + 2 : name;
    size_t length = strlen(from);
    if (length > 1 && (from[length - 1] == 'h' || from[length - 1] == 'H'))
        length--;
    if (length == 0 || length > 4)
        return false;
    memcpy(digits, from, length);
    digits[length] = 0;
    if (!loft_number(digits, 16, SMC_MOST_ADDRESS, &value))
        return false;
    *address = (unsigned)value;
    return true;
}

bool loft_address_of(const loft_bytes *tables, const char *name, unsigned *address, loft_fault *fault)
{
    unsigned volume = 0;
    loft_element e;
    const bool label = labelled(tables, name, &volume) > 0 || strncmp(name, "volume:", 7) == 0;
    const bool number = is_address(name, address);
    if (label && number)
        return loft_fail(fault, 2, "%s is an address and a label too: write %04Xh for the address, volume:%u for the reel", name, *address, volume);
    if (number)
        return true;
    if (!label)
        return loft_fail(fault, 2, "%s: neither an address (1 to 4 hexadecimal digits, as 1000 or 1000h) nor a reel's label", name);
    if (!loft_volume_of(tables, name, &volume, fault))
        return false;
    if (!loft_element_with(tables, volume, &e))
        return loft_fail(fault, 1, "%s is not in the library", name);
    *address = e.address;
    return true;
}
