/* The library's algorithm in C: the reader that checks a book and chains its transitions, and the lexer over the chains. */
#ifndef CHAINS_H
#define CHAINS_H

#include <stddef.h>
#include <stdint.h>

enum { CHAIN_RULES = 32, CHAIN_NARROW = 256, CHAIN_STATES = 4096, CHAIN_CELLS = CHAIN_RULES * CHAIN_STATES, CHAIN_EDGES = 16384 };

/* A rule has cells for CHAIN_NARROW states, or for CHAIN_STATES where one of its states is not among those. */
typedef struct chains {
    uint64_t headers[CHAIN_RULES]; /* tag, kind, start, error */
    uint32_t rows[CHAIN_RULES];    /* where the cells of its states begin */
    uint16_t states[CHAIN_CELLS];  /* twice the chain's head, plus 1 where final */
    uint64_t edges[CHAIN_EDGES];   /* next, target, high, low */
} chains;

/* Reads a book into tables, whatever they hold before; an answer as that of zgv_read_book(). */
uint64_t chains_load(chains *t, const uint8_t *book, size_t len);

/* The longest match at the start of a text: its rule and length, both 0 for none. */
typedef struct choice {
    size_t rule, len;
} choice;
choice chains_choose(const chains *t, size_t rules, const uint8_t *text, size_t len);

/* As zgv_lex(), without masks. */
uint64_t chains_lex(const uint8_t *book, size_t book_len, const uint8_t *text, size_t text_len,
                    uint8_t *records, size_t records_len);

#endif
