#include "chains.h"

#include "zagvulem.h"

#include <string.h>

static uint64_t refused(unsigned number, size_t place)
{
    return (uint64_t)number << 56 | place;
}

static uint64_t accepted(size_t first, size_t second)
{
    return (uint64_t)first << 28 | second;
}

/* What has been read of a book: the closed rules and the open one, with the place and number of its cells. */
typedef struct reading {
    size_t rules, edges, count, row, cells;
    int inside, started, erring, overlap;
    uint16_t tag, start, error;
    uint8_t kind;
} reading;

/* The cell of a state of the open rule. */
static uint16_t *cell_of(reading *b, chains *t, size_t state)
{
    uint16_t *cells = t->states + b->row;
    if (b->cells <= state) {
        memset(cells + CHAIN_NARROW, 0, (CHAIN_STATES - CHAIN_NARROW) * sizeof *cells);
        b->cells = CHAIN_STATES;
    }
    return cells + state;
}

static unsigned open_rule(reading *b, chains *t, const uint8_t *o)
{
    uint16_t tag = (uint16_t)(o[0] << 8 | o[1]);
    size_t k;
    if (b->rules >= ZGV_BOOK_RULES)
        return ZGV_TOO_MANY;
    if (tag == 0 || o[2] > 1)
        return ZGV_OUT_OF_RANGE;
    for (k = 0; k < b->rules; k++)
        if (t->headers[k] >> 40 == tag)
            return ZGV_TAG_TAKEN;
    b->inside = 1;
    b->started = b->erring = b->overlap = 0;
    b->count = 0;
    b->tag = tag;
    b->kind = o[2];
    b->row += b->cells;
    b->cells = CHAIN_NARROW;
    memset(t->states + b->row, 0, CHAIN_NARROW * sizeof t->states[0]);
    return 0;
}

/* START and ERROR. */
static unsigned set_once(int *known, uint16_t *state, unsigned s)
{
    if (s >= CHAIN_STATES)
        return ZGV_OUT_OF_RANGE;
    if (*known)
        return ZGV_TWICE_OR_MISSING;
    *known = 1;
    *state = (uint16_t)s;
    return 0;
}

static unsigned add_final(reading *b, chains *t, unsigned s)
{
    if (s >= CHAIN_STATES)
        return ZGV_OUT_OF_RANGE;
    *cell_of(b, t, s) |= 1;
    return 0;
}

static unsigned add_transition(reading *b, chains *t, unsigned from, uint8_t low, uint8_t high, unsigned to)
{
    uint16_t *cell;
    size_t h;
    if (b->count >= ZGV_RULE_TRANSITIONS)
        return ZGV_TOO_MANY;
    if (high < low || from >= CHAIN_STATES || to >= CHAIN_STATES)
        return ZGV_OUT_OF_RANGE;
    cell_of(b, t, to); /* a walk asks for it */
    cell = cell_of(b, t, from);
    for (h = *cell / 2; h != 0 && !b->overlap; h = t->edges[h - 1] >> 32)
        if (low <= (t->edges[h - 1] >> 8 & 255) && (t->edges[h - 1] & 255) <= high)
            b->overlap = 1;
    t->edges[b->edges] = (uint64_t)(*cell / 2) << 32 | (uint64_t)to << 16 | (uint64_t)high << 8 | low;
    *cell = (uint16_t)((b->edges + 1) * 2 + *cell % 2);
    b->edges++;
    b->count++;
    return 0;
}

static unsigned close_rule(reading *b, chains *t)
{
    if (!b->started || !b->erring)
        return ZGV_TWICE_OR_MISSING;
    if (b->overlap)
        return ZGV_OVERLAP;
    if (*cell_of(b, t, b->error) / 2 != 0)
        return ZGV_LEAVES_ERROR;
    if (*cell_of(b, t, b->error) % 2 == 1)
        return ZGV_ERROR_FINAL;
    if (*cell_of(b, t, b->start) % 2 == 1)
        return ZGV_START_FINAL;
    t->rows[b->rules] = (uint32_t)b->row;
    t->headers[b->rules++] = (uint64_t)b->tag << 40 | (uint64_t)b->kind << 32 | (uint64_t)b->start << 16 | b->error;
    b->inside = 0;
    return 0;
}

static unsigned two_bytes(const uint8_t *o) { return (unsigned)o[0] << 8 | o[1]; }

/* Applies the command `code` with its operands; 0 or the number of a refusal at the command. */
static unsigned apply(reading *b, chains *t, uint8_t code, const uint8_t *o)
{
    switch (code) {
    case 1:
        return open_rule(b, t, o);
    case 2:
        return set_once(&b->started, &b->start, o[0]);
    case 3:
        return set_once(&b->erring, &b->error, o[0]);
    case 4:
        return add_final(b, t, o[0]);
    case 5:
        return add_transition(b, t, o[0], o[1], o[1], o[2]);
    case 6:
        return add_transition(b, t, o[0], o[1], o[2], o[3]);
    case 7:
        return close_rule(b, t);
    case 9:
        return set_once(&b->started, &b->start, two_bytes(o));
    case 10:
        return set_once(&b->erring, &b->error, two_bytes(o));
    case 11:
        return add_final(b, t, two_bytes(o));
    case 12:
        return add_transition(b, t, two_bytes(o), o[2], o[3], two_bytes(o + 4));
    default:
        return b->rules == 0 ? ZGV_NO_RULE : 0;
    }
}

uint64_t chains_load(chains *t, const uint8_t *book, size_t len)
{
    static const uint8_t operands[13] = {0, 3, 1, 1, 1, 3, 4, 0, 0, 2, 2, 2, 6};
    reading b;
    size_t at = 0;
    memset(&b, 0, sizeof b);
    if (len > ZGV_BOOK_BYTES)
        return refused(ZGV_BOOK_TOO_LONG, 0);
    while (at < len) {
        uint8_t code = book[at];
        int outside = code == 1 || code == 8;
        size_t next;
        unsigned number;
        if (code < 1 || code > 12 || outside == b.inside)
            return refused(ZGV_MISPLACED, at);
        next = at + 1 + operands[code];
        if (next > len)
            return refused(ZGV_CUT_OFF, at);
        number = apply(&b, t, code, book + at + 1);
        if (number != 0)
            return refused(number, at);
        if (code == 8)
            return next < len ? refused(ZGV_BYTES_AFTER_END, next) : accepted(b.rules, 0);
        at = next;
    }
    return refused(ZGV_CUT_OFF, len);
}

static size_t longest_prefix(const chains *t, size_t rule, const uint8_t *text, size_t len)
{
    const uint16_t *cells = t->states + t->rows[rule];
    size_t error = t->headers[rule] & 65535;
    size_t s = t->headers[rule] >> 16 & 65535;
    size_t best = 0, i;
    for (i = 0; i < len;) {
        uint64_t byte = text[i];
        size_t to = error;
        size_t h = cells[s] / 2;
        while (h != 0) {
            uint64_t e = t->edges[h - 1];
            if ((e & 255) <= byte && byte <= (e >> 8 & 255)) {
                to = e >> 16 & 65535;
                break;
            }
            h = e >> 32;
        }
        s = to;
        if (s == error)
            break;
        i++;
        if (cells[s] % 2 == 1)
            best = i;
    }
    return best;
}

choice chains_choose(const chains *t, size_t rules, const uint8_t *text, size_t len)
{
    choice c = {0, 0};
    size_t k;
    for (k = 0; k < rules; k++) {
        size_t n = longest_prefix(t, k, text, len);
        if (c.len < n) {
            c.rule = k;
            c.len = n;
        }
    }
    return c;
}

/* Cuts a text; where `records` is given each token's record is stored. */
static uint64_t cut(const chains *t, size_t rules, const uint8_t *text, size_t len, uint8_t *records)
{
    size_t tokens = 0, at = 0;
    while (at < len) {
        choice c = chains_choose(t, rules, text + at, len - at);
        if (c.len == 0)
            break;
        if (records) {
            zgv_token token;
            token.tag = (uint16_t)(t->headers[c.rule] >> 40);
            token.place = (uint32_t)at;
            token.length = (uint32_t)c.len;
            zgv_put_record(records, tokens, token);
        }
        tokens++;
        at += c.len;
    }
    return accepted(tokens, at);
}

uint64_t chains_lex(const uint8_t *book, size_t book_len, const uint8_t *text, size_t text_len,
                    uint8_t *records, size_t records_len)
{
    chains t;
    uint64_t read;
    size_t room = records_len / ZGV_RECORD_BYTES, tokens;
    read = chains_load(&t, book, book_len);
    if (zgv_number(read) != 0)
        return read;
    if (text_len > ZGV_TEXT_BYTES)
        return refused(ZGV_TEXT_TOO_LONG, 0);
    if (room < text_len) {
        tokens = zgv_first(cut(&t, zgv_first(read), text, text_len, NULL));
        if (room < tokens)
            return refused(ZGV_TOO_FEW_RECORDS, tokens);
    }
    return cut(&t, zgv_first(read), text, text_len, records);
}
