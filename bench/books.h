/* Books for the benchmark, made command by command: full ones, and the largest ones of chains of states. */
#ifndef BOOKS_H
#define BOOKS_H

#include "zagvulem.h"

/* The limits of an earlier library, for books that both take. */
enum { OLD_BOOK_BYTES = 32768, OLD_RULE_TRANSITIONS = 512 };

typedef struct made {
    uint8_t bytes[ZGV_BOOK_BYTES];
    size_t len, moves;
    int wide; /* whether states have two bytes */
} made;

/* Begins a book, then a rule with its START and ERROR, and so on to END. A move of one byte is a STEP, where states have one byte. */
void make_book(made *b, int wide);
void make_rule(made *b, unsigned tag, unsigned kind, unsigned start, unsigned error);
void make_final(made *b, unsigned state);
void make_move(made *b, unsigned from, unsigned low, unsigned high, unsigned to);
void make_close(made *b);
void make_end(made *b);

/* Takes the END off a copy of another book, so that rules can be added. */
void make_longer(made *b, const uint8_t *bytes, size_t len, int wide);

/* As many rules of so many moves as `bytes` have room for, 256 moves from a state; the least state is 256 where they have two bytes. */
void make_full(made *b, size_t bytes, unsigned moves, int wide);

/* One rule of so many moves, which all leave one state at one byte. */
void make_overlapping(made *b, unsigned moves);

/* A book whose rules are chains of states, each with a dead branch at its middle. */
typedef struct shape {
    const char *name;
    size_t bytes;          /* the most that it may have */
    unsigned rules, moves; /* moves from a state of the chain to the next */
    int wide;              /* states up to 4,094, in two bytes */
    int spans;             /* moves of 62 and 190 bytes, not of one */
    int met;               /* the dead branches of separators have bytes of plain tokens */
    int ring;              /* the chain's last state is its first final one */
} shape;

/* How the states of a chain are numbered: along it, against it, without order. */
enum { ORDERS = 3 };

/* As many links as there is room for where a move takes `size` bytes; 0 stands for the bytes that it takes. */
void make_chains(made *b, const shape *s, size_t order, size_t size);

#endif
