/* Lexers that flex and re2c generate. `text` has two zero bytes behind it, which flex asks for; `records` has room for every
   token. Each answers as zgv_lex(), without masks. */
#ifndef GENERATED_H
#define GENERATED_H

#include <stddef.h>
#include <stdint.h>

/* By the built-in book. */
uint64_t flex_lex(char *text, size_t text_len, uint8_t *records);
uint64_t re2c_lex(char *text, size_t text_len, uint8_t *records);

/* By one rule that matches "a", and any number of a's with a "b" behind them. */
uint64_t flex_hostile(char *text, size_t text_len, uint8_t *records);
uint64_t re2c_hostile(char *text, size_t text_len, uint8_t *records);

#endif
