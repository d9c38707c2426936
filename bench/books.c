#include "books.h"

#include <stdio.h>
#include <stdlib.h>
#include <string.h>

static void put(made *b, const uint8_t *bytes, size_t count)
{
    if (count > sizeof b->bytes - b->len) {
        fputs("bench: a book is too long\n", stderr);
        exit(EXIT_FAILURE);
    }
    memcpy(b->bytes + b->len, bytes, count);
    b->len += count;
}

/* START, ERROR or FINAL, by the code that it has with a state of one byte; that with two is 7 more. */
static void put_state(made *b, uint8_t code, unsigned state)
{
    const uint8_t narrow[] = {code, (uint8_t)state}, wide[] = {(uint8_t)(code + 7), (uint8_t)(state >> 8), (uint8_t)state};
    put(b, b->wide ? wide : narrow, b->wide ? sizeof wide : sizeof narrow);
}

void make_book(made *b, int wide)
{
    b->len = b->moves = 0;
    b->wide = wide;
}

void make_rule(made *b, unsigned tag, unsigned kind, unsigned start, unsigned error)
{
    const uint8_t rule[] = {1, (uint8_t)(tag >> 8), (uint8_t)tag, (uint8_t)kind};
    put(b, rule, sizeof rule);
    put_state(b, 2, start);
    put_state(b, 3, error);
}

void make_final(made *b, unsigned state) { put_state(b, 4, state); }

void make_move(made *b, unsigned from, unsigned low, unsigned high, unsigned to)
{
    const uint8_t l = (uint8_t)low, h = (uint8_t)high;
    const uint8_t step[] = {5, (uint8_t)from, l, (uint8_t)to}, span[] = {6, (uint8_t)from, l, h, (uint8_t)to},
                  wide[] = {12, (uint8_t)(from >> 8), (uint8_t)from, l, h, (uint8_t)(to >> 8), (uint8_t)to};
    if (b->wide)
        put(b, wide, sizeof wide);
    else if (low == high)
        put(b, step, sizeof step);
    else
        put(b, span, sizeof span);
    b->moves++;
}

void make_close(made *b) { put(b, (const uint8_t *)"\x07", 1); }
void make_end(made *b) { put(b, (const uint8_t *)"\x08", 1); }

void make_longer(made *b, const uint8_t *bytes, size_t len, int wide)
{
    make_book(b, wide);
    put(b, bytes, len - 1);
}

/* The bytes of a rule's RULE, START, ERROR and CLOSE, and so many FINALs; those of a move of one byte. */
static size_t rule_bytes(int wide, unsigned finals) { return wide ? 11 + 3 * finals : 9 + 2 * finals; }
static size_t step_bytes(int wide) { return wide ? 7 : 4; }

void make_full(made *b, size_t bytes, unsigned moves, int wide)
{
    const unsigned base = wide ? 256 : 0;
    unsigned tag;
    make_book(b, wide);
    for (tag = 1; b->len + rule_bytes(wide, 1) + step_bytes(wide) < bytes; tag++) {
        const size_t room = (bytes - 1 - b->len - rule_bytes(wide, 1)) / step_bytes(wide);
        unsigned k;
        make_rule(b, tag, ZGV_KIND_PLAIN, base, base + 255);
        make_final(b, base + 1);
        for (k = 0; k < moves && k < room; k++)
            make_move(b, base + k / 256, k % 256, k % 256, base + k / 256 + 1);
        make_close(b);
    }
    make_end(b);
}

void make_overlapping(made *b, unsigned moves)
{
    unsigned k;
    make_book(b, 0);
    make_rule(b, 1, ZGV_KIND_PLAIN, 0, 255);
    make_final(b, 1);
    for (k = 0; k < moves; k++)
        make_move(b, 0, 'a', 'a', 1);
    make_close(b);
    make_end(b);
}

/* The error state, above all states of a chain. */
static unsigned chain_error(const shape *s) { return s->wide ? ZGV_RULE_STATES - 1 : 255; }

/* The number of the state `i` of a chain of so many links: those of a short chain are spread over all that there are. */
static unsigned chain_state(const shape *s, size_t order, unsigned links, unsigned i)
{
    const unsigned error = chain_error(s), apart = error / (links + 1);
    return order == 0 ? apart * i : order == 1 ? error - 1 - apart * i : ((s->wide ? 1601 : 101) * i + 7) % error;
}

/* The moves of the chain's link `i`, of which there are `links`; the last two are the dead branch. The kinds have no byte in common but
   on dead branches that are met. */
static void put_link(made *b, const shape *s, size_t order, unsigned kind, unsigned links, unsigned i)
{
    static const unsigned steps[2][2] = {{'a', 'c'}, {' ', '"'}}, lows[2][2] = {{64, 254}, {0, 62}}, highs[2][2] = {{253, 255}, {61, 63}};
    const unsigned end = links - 2, dead = i >= end, met = kind == 1 && s->met, of = dead && met ? 0 : kind, on = dead && !met;
    const unsigned from = chain_state(s, order, links, i == end ? end / 2 : i);
    const unsigned to = chain_state(s, order, links, s->ring && i + 1 == end ? 1 : i + 1);
    unsigned n;
    for (n = 0; n < s->moves; n++)
        if (s->spans)
            make_move(b, from, lows[of][on], highs[of][on], to);
        else
            make_move(b, from, steps[of][on] + n, steps[of][on] + n, to);
}

static void put_chain(made *b, const shape *s, size_t order, unsigned rule, unsigned links)
{
    const unsigned kind = rule % 2, apart = links % 89 == 0 ? 97 : 89;
    unsigned k;
    make_rule(b, rule + 1, kind, chain_state(s, order, links, 0), chain_error(s));
    make_final(b, chain_state(s, order, links, 1));
    make_final(b, chain_state(s, order, links, s->ring ? 1 : links - 2));
    /* primes that do not divide the number of links: each comes once */
    for (k = 0; k < links; k++)
        put_link(b, s, order, kind, links, order == 2 ? apart * k % links : k);
    make_close(b);
}

void make_chains(made *b, const shape *s, size_t order, size_t size)
{
    const size_t taken = size != 0 ? size : s->wide ? 7 : s->spans ? 5 : 4;
    const unsigned most = chain_error(s) - 1;
    unsigned rule, left = (unsigned)((s->bytes - 1 - s->rules * rule_bytes(s->wide, 2)) / (taken * s->moves));
    make_book(b, s->wide);
    for (rule = 0; rule < s->rules; rule++) {
        const unsigned links = left / (s->rules - rule);
        put_chain(b, s, order, rule, links < most ? links : most);
        left -= links;
    }
    make_end(b);
}
