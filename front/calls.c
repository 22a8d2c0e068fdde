/* The words that send a call: each builds a command block or an event, and all go the same way from there. */
#include "tool.h"
#include <string.h>

static void put16(uint8_t *at, unsigned value)
{
    at[0] = (uint8_t)(value >> 8);
    at[1] = (uint8_t)value;
}

/* The line is on the disk, the call is made, its answer is told; then the tables are saved. If they can't be, nothing is lost: the log has the line. */
int loft_call_out(arguments *a, loft_store *store, const loft_call *call)
{
    static uint8_t answer[SMC_LARGEST_ANSWER];
    loft_fault fault;
    smc_reply reply;
    const uint32_t number = store->library.next;
    fprintf(a->out, "%u: ", number);
    tell_call(a->out, &store->library.now, call);
    if (!loft_send(store, call, &reply, answer, &fault))
        return loft_say(a, &fault);
    fprintf(a->out, ": ");
    tell_reply(a->out, &store->library.now, call, &reply);
    tell_answer(a->out, &store->library.now, call, answer, reply.count);
    int code = reply.number == 0 && reply.status == SMC_GOOD ? DONE : REFUSED;
    if (!loft_told(a)) {
        fprintf(a->err, "loft: the call was made: it is number %u in %s\n", number, store->log.path);
        code = WRONG;
    }
    if (!loft_save(store, &fault))
        fprintf(a->err, "loft: %s\nloft: the call was made and is kept: %s has it as number %u, and the next call saves the tables\n", fault.text,
                store->log.path, number);
    return code;
}

static bool host_of(const arguments *a, loft_call *call, loft_fault *fault)
{
    unsigned long host;
    if (!a->value[OPTION_HOST])
        return loft_fail(fault, WRONG, "--host N is missing: which host sends it, 1 to 8");
    if (!loft_choose(a, OPTION_HOST, 10, 1, SMC_HOSTS, &host, fault))
        return false;
    call->host = (uint32_t)host;
    return true;
}

/* Opens the library, lets `build` make the call from the words, and sends it. */
static int sent(arguments *a, bool (*build)(const arguments *, const loft_bytes *, loft_call *, loft_fault *))
{
    loft_store store;
    loft_fault fault;
    loft_call call = {0};
    if (!loft_enter(a, &store, LOFT_WRITE, &fault))
        return loft_say(a, &fault);
    const int code = build(a, &store.library.now, &call, &fault) ? loft_call_out(a, &store, &call) : loft_say(a, &fault);
    loft_close(&store);
    return code;
}

/* ---- any block ---- */

static int value_of(char c)
{
    const char *digits = "0123456789ABCDEF", *at = c ? strchr(digits, c >= 'a' && c <= 'f' ? c - 32 : c) : NULL;
    return at ? (int)(at - digits) : -1;
}

/* Two digits a byte, in as many words as one likes. */
static bool take_bytes(const char *text, uint8_t bytes[256], size_t *length, loft_fault *fault)
{
    for (const char *at = text; *at; at += 2) {
        const int high = value_of(at[0]), low = high < 0 ? -1 : value_of(at[1]);
        if (low < 0)
            return loft_fail(fault, WRONG, "%s: bytes are written as two hexadecimal digits each", text);
        if (*length == 256)
            return loft_fail(fault, WRONG, "more than 256 bytes: no line of the log has room for them");
        bytes[(*length)++] = (uint8_t)(high * 16 + low);
    }
    return true;
}

static bool build_any(const arguments *a, const loft_bytes *tables, loft_call *call, loft_fault *fault)
{
    (void)tables;
    const char *parameters = a->value[OPTION_PARAMETERS];
    if (!host_of(a, call, fault))
        return false;
    for (int i = 1; i < a->operands; i++)
        if (!take_bytes(a->operand[i], call->block, &call->block_length, fault))
            return false;
    return !parameters || take_bytes(parameters, call->parameters, &call->parameters_length, fault);
}

int run_send(arguments *a) { return sent(a, build_any); }

/* ---- moves ---- */

static bool build_move(const arguments *a, const loft_bytes *tables, loft_call *call, loft_fault *fault)
{
    const bool exchange = strcmp(a->word->name, "exchange") == 0;
    unsigned address = 0;
    if (!host_of(a, call, fault))
        return false;
    call->block_length = 12;
    call->block[0] = exchange ? SMC_EXCHANGE_MEDIUM : SMC_MOVE_MEDIUM;
    if (a->value[OPTION_ARM] && !loft_address_of(tables, a->value[OPTION_ARM], &address, fault))
        return false;
    put16(call->block + 2, address);
    for (int i = 1; i < a->operands; i++) {
        if (!loft_address_of(tables, a->operand[i], &address, fault))
            return false;
        put16(call->block + 2 + 2 * i, address);
    }
    return true;
}

int run_move(arguments *a) { return sent(a, build_move); }
int run_exchange(arguments *a) { return sent(a, build_move); }

/* ---- reservations ---- */

/* 1000 for one element, 1000-1003 for a run of them, or a label. */
static bool add_descriptor(const loft_bytes *tables, const char *name, loft_call *call, loft_fault *fault)
{
    char first[40];
    unsigned from, to;
    const char *dash = strchr(name, '-');
    if (!dash || (size_t)(dash - name) >= sizeof first || loft_volume_of(tables, name, &from, fault)) {
        if (!loft_address_of(tables, name, &from, fault))
            return false;
        to = from;
    } else {
        snprintf(first, sizeof first, "%.*s", (int)(dash - name), name);
        if (!loft_address_of(tables, first, &from, fault) || !loft_address_of(tables, dash + 1, &to, fault))
            return false;
    }
    if (to < from)
        return loft_fail(fault, WRONG, "%s: its last address comes before its first", name);
    if (call->parameters_length + SMC_LIST_DESCRIPTOR_SIZE > SMC_MOST_LIST_DESCRIPTORS * SMC_LIST_DESCRIPTOR_SIZE)
        return loft_fail(fault, WRONG, "more than %d elements or runs in one RESERVE", SMC_MOST_LIST_DESCRIPTORS);
    uint8_t *d = call->parameters + call->parameters_length;
    put16(d + SMC_LIST_NUMBER, to - from + 1);
    put16(d + SMC_LIST_ADDRESS, from);
    call->parameters_length += SMC_LIST_DESCRIPTOR_SIZE;
    return true;
}

static bool build_hold(const arguments *a, const loft_bytes *tables, loft_call *call, loft_fault *fault)
{
    const bool reserve = strcmp(a->word->name, "reserve") == 0;
    unsigned long id = 0;
    if (!host_of(a, call, fault))
        return false;
    if (a->value[OPTION_ID] && !loft_choose(a, OPTION_ID, 10, 0, 255, &id, fault))
        return false;
    const bool part = reserve ? a->operands > 1 : a->value[OPTION_ID] != NULL;
    if (reserve && !part && a->value[OPTION_ID])
        return loft_fail(fault, WRONG, "--id %s: an id is for elements, and none is named", a->value[OPTION_ID]);
    for (int i = 1; i < a->operands; i++)
        if (!add_descriptor(tables, a->operand[i], call, fault))
            return false;
    call->block_length = 6;
    call->block[0] = reserve ? SMC_RESERVE : SMC_RELEASE;
    call->block[1] = part;
    call->block[2] = (uint8_t)(part ? id : 0);
    put16(call->block + 3, (unsigned)call->parameters_length);
    return true;
}

int run_reserve(arguments *a) { return sent(a, build_hold); }
int run_release(arguments *a) { return sent(a, build_hold); }

/* ---- the others ---- */

static bool build_plain(const arguments *a, const loft_bytes *tables, loft_call *call, loft_fault *fault)
{
    (void)tables;
    const char *name = a->word->name;
    if (!host_of(a, call, fault))
        return false;
    call->block_length = 6;
    if (strcmp(name, "sense") == 0) {
        call->block[0] = SMC_REQUEST_SENSE;
        call->block[4] = SMC_SENSE_SIZE;
    } else if (strcmp(name, "ready") != 0) {
        call->block[0] = SMC_PREVENT_ALLOW;
        call->block[4] = strcmp(name, "prevent") == 0;
    }
    return true;
}

int run_plain(arguments *a) { return sent(a, build_plain); }

static bool build_list(const arguments *a, const loft_bytes *tables, loft_call *call, loft_fault *fault)
{
    static const char *const types[] = {"all", "transports", "shelves", "mail", "drives"};
    const char *type = a->value[OPTION_TYPE] ? a->value[OPTION_TYPE] : "all";
    unsigned start = 0, code = 0;
    while (code < sizeof types / sizeof *types && strcmp(type, types[code]) != 0)
        code++;
    if (code == sizeof types / sizeof *types)
        return loft_fail(fault, WRONG, "--type %s: all, transports, shelves, mail or drives", type);
    if (!host_of(a, call, fault) || (a->operands > 1 && !loft_address_of(tables, a->operand[1], &start, fault)))
        return false;
    call->block_length = 12;
    call->block[0] = SMC_READ_ELEMENT_STATUS;
    call->block[1] = (uint8_t)(0x10 | code);
    put16(call->block + 2, start);
    put16(call->block + 4, 0xFFFF);
    memset(call->block + 7, 0xFF, 3);
    return true;
}

int run_list(arguments *a) { return sent(a, build_list); }

static bool build_import(const arguments *a, const loft_bytes *tables, loft_call *call, loft_fault *fault)
{
    unsigned address, volume;
    if (!loft_address_of(tables, a->operand[1], &address, fault) || !loft_volume_of(tables, a->operand[2], &volume, fault))
        return false;
    call->block_length = 1;
    call->block[0] = 1;
    call->parameters_length = 4;
    put16(call->parameters, address);
    put16(call->parameters + 2, volume);
    return true;
}

int run_import(arguments *a) { return sent(a, build_import); }

static bool build_export(const arguments *a, const loft_bytes *tables, loft_call *call, loft_fault *fault)
{
    unsigned address;
    call->block_length = 1;
    call->block[0] = 3;
    if (strcmp(a->word->name, "reset") == 0)
        return true;
    if (!loft_address_of(tables, a->operand[1], &address, fault))
        return false;
    call->block[0] = 2;
    call->parameters_length = 2;
    put16(call->parameters, address);
    return true;
}

int run_export(arguments *a) { return sent(a, build_export); }
