#include "dense.h"

#include "chains.h"
#include "zagvulem.h"

#include <stdlib.h>
#include <string.h>

/* Where rule `k` goes from a state at a byte. */
static uint16_t target(const chains *t, size_t k, uint16_t s, unsigned byte)
{
    size_t h = t->states[t->rows[k] + s] / 2;
    while (h != 0) {
        uint64_t e = t->edges[h - 1];
        if ((e & 255) <= byte && byte <= (e >> 8 & 255))
            return (uint16_t)(e >> 16);
        h = e >> 32;
    }
    return (uint16_t)t->headers[k];
}

/* The states of the combined automaton: for each one state of every rule. */
typedef struct tuples {
    uint16_t states[DENSE_STATES][CHAIN_RULES];
    size_t count, rules;
} tuples;

static size_t number_of(tuples *all, const uint16_t *tuple)
{
    size_t i;
    for (i = 0; i < all->count; i++)
        if (memcmp(all->states[i], tuple, all->rules * sizeof *tuple) == 0)
            return i;
    if (all->count < DENSE_STATES)
        memcpy(all->states[all->count], tuple, all->rules * sizeof *tuple);
    return all->count++;
}

int dense_build(dense *d, const uint8_t *book, size_t book_len)
{
    chains *t = calloc(1, sizeof *t);
    tuples *all = calloc(1, sizeof *all);
    uint16_t tuple[CHAIN_RULES];
    uint64_t read;
    size_t i, k;
    unsigned byte;
    int fits = 0;
    if (t == NULL || all == NULL)
        goto out;
    read = chains_load(t, book, book_len);
    all->rules = zgv_first(read);
    if (zgv_number(read) != ZGV_ACCEPTED)
        goto out;
    for (k = 0; k < all->rules; k++)
        tuple[k] = (uint16_t)t->headers[k];
    number_of(all, tuple);
    for (k = 0; k < all->rules; k++)
        tuple[k] = (uint16_t)(t->headers[k] >> 16);
    number_of(all, tuple);
    for (i = 0; i < all->count && all->count <= DENSE_STATES; i++) {
        d->accepts[i] = 0;
        for (k = all->rules; k-- > 0;)
            if (t->states[t->rows[k] + all->states[i][k]] % 2 == 1)
                d->accepts[i] = (uint16_t)(t->headers[k] >> 40);
        for (byte = 0; byte < 256; byte++) {
            for (k = 0; k < all->rules; k++)
                tuple[k] = target(t, k, all->states[i][k], byte);
            d->next[i][byte] = (uint16_t)number_of(all, tuple);
        }
    }
    d->count = all->count;
    fits = all->count <= DENSE_STATES;
out:
    free(all);
    free(t);
    return fits;
}

uint64_t dense_lex(const dense *d, const uint8_t *text, size_t text_len, uint8_t *records)
{
    size_t tokens = 0, at = 0;
    while (at < text_len) {
        size_t i = at, end = at;
        unsigned s = DENSE_START;
        zgv_token token;
        token.tag = 0;
        while (i < text_len) {
            s = d->next[s][text[i]];
            if (s == DENSE_DEAD)
                break;
            i++;
            if (d->accepts[s] != 0) {
                token.tag = d->accepts[s];
                end = i;
            }
        }
        if (end == at)
            break;
        token.place = (uint32_t)at;
        token.length = (uint32_t)(end - at);
        zgv_put_record(records, tokens++, token);
        at = end;
    }
    return (uint64_t)tokens << 28 | at;
}
