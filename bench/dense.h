/* A lexer over one table for all rules of a book: a row of 256 targets for each state of the combined automaton. */
#ifndef DENSE_H
#define DENSE_H

#include <stddef.h>
#include <stdint.h>

enum { DENSE_STATES = 4096, DENSE_DEAD = 0, DENSE_START = 1 };

typedef struct dense {
    size_t count;                        /* states in use; 0 is dead, 1 the start */
    uint16_t accepts[DENSE_STATES];      /* tag of the earliest rule that is final, 0 for none */
    uint16_t next[DENSE_STATES][256];
} dense;

/* Makes the table of an accepted book; 0 where it has too many states. */
int dense_build(dense *d, const uint8_t *book, size_t book_len);

/* Cuts a text; `records` has room for every token. Answers as zgv_lex(), without masks. */
uint64_t dense_lex(const dense *d, const uint8_t *text, size_t text_len, uint8_t *records);

#endif
