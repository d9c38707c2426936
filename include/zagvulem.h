/*
 * zagvulem.h - a lexer by rule book, and two printers that undo it
 *
 * A rule book is data: a run of bytes that describes up to 32 rules, each a
 * finite automaton with a tag; FORMAT.md says how one is written. zgv_compile()
 * makes a rule of an extended regular expression. zgv_lex() cuts a text by a book
 * into tokens, always the longest match, the earliest rule on a tie, and says of
 * each token every rule that agreed. zgv_lex_within() gives the same tokens in
 * turns, each of which looks at no more bytes than it is allowed. zgv_print() joins
 * tokens to a text again, and refuses a list that would not be cut back as it is.
 * zgv_print_separated() joins tokens with separators between them, so that cutting
 * what it wrote and dropping the separators gives the same list back.
 *
 * A rule's moves are SPANs. STEP, a shorter form of a move at one byte, is retired:
 * books that have it are read as ever, zgv_rewrite_book() puts SPANs in the place
 * of their STEPs, and zgv_read_book_strict() refuses a book that has one.
 *
 * A rule has states 0 to 4,095. Commands 02 to 06 name one in a byte, so up to
 * 255; 09 to 0C are START, ERROR, FINAL and SPAN with states of two bytes, the
 * high byte first. Both forms may stand in one rule and mean the same states.
 *
 * The library is for x86-64 Linux. FORMAT.md and PERFORMANCE.md, which this
 * header names, come with it: in share/doc/zagvulem where it is installed, in
 * docs/ of a tarball.
 *
 * WHAT HOLDS FOR EVERY CALL
 *
 *  - Every book, text, list, expression and buffer has an answer, however damaged:
 *    nothing that stands in a buffer needs to be checked before a call.
 *  - It keeps no state between calls, allocates nothing and reads no file, clock
 *    or locale.
 *  - It answers either "accepted" with two values, or "refused" with a number and
 *    a place. After a refusal every buffer holds what it held before the call,
 *    and so does every number that was lent by its pointer. An accepted call
 *    changes nothing in a buffer past the count that it reports.
 *
 * WHAT THE CALLER SEES TO
 *
 *  - Each buffer is a pointer and its length in bytes, and so many bytes are
 *    there. The pointer may be NULL where the length is 0. It needs no alignment.
 *  - A buffer that the call may write (`records` and `masks` of the three lexing
 *    calls, `out` of the two printing calls, of zgv_rewrite_book() and of
 *    zgv_compile()) shares no byte with any other buffer of the same call. Buffers
 *    that are only read may overlap freely.
 *  - `next` and `examined` of zgv_lex_within() are numbers, lent like a buffer
 *    that may be written: neither pointer is NULL, and neither number shares a
 *    byte with the other one or with a buffer of the same call.
 *  - Calls may run in several threads at once, but no thread writes a buffer or
 *    a number that another one's running call was given.
 *  - The thread has stack enough (STACK below).
 *
 * ANSWERS
 *
 * Every call answers in one uint64_t:
 *
 *    bits 56-63   the refusal's number, ZGV_ACCEPTED (0) where accepted
 *    refused:     bits 0-55 the place
 *    accepted:    bits 28-55 the first value, bits 0-27 the second
 *
 * Take it apart with zgv_number(), zgv_place(), zgv_first() and zgv_second().
 * zgv_refusal_text() says a number in words.
 *
 * TOKENS
 *
 * A token has a tag and bytes. The bytes stand in a pool, and a record of ten
 * bytes says where: the tag in two bytes, the place in the pool in four, the
 * length in four, each with the high byte first. A buffer of n bytes holds n / 10
 * records; leftover bytes are neither read nor written. After zgv_lex() the
 * pool is the text. Read and write records with zgv_get_record() and
 * zgv_put_record().
 *
 * MASKS
 *
 * A cut also gives a mask of each token: every rule that agreed on its bytes. Bit
 * k of the mask, worth 2^k, is set exactly where the book's rule number k, from 0
 * in the book's order, matches exactly the bytes of the token. The lowest bit that
 * is set is the rule that took the token, the one whose tag is in the record. Any
 * other is a later rule, which this one hides there.
 *
 * Masks stand in a buffer of their own, mask number i for record number i. Each
 * has four bytes, the high byte first. A buffer of n bytes holds n / 4 masks;
 * leftover bytes are neither read nor written. Read masks with zgv_get_mask(). No
 * call takes them: a list for a printer is records alone.
 *
 * TURNS
 *
 * A task that has little time at once cuts a text in turns, by zgv_lex_within().
 * What a turn may look at is its budget, a number of bytes.
 *
 * The reach at a place is how far the cut has to look there: the fewest bytes from
 * that place on, 0 or more, after which all rules stand in their error states, or
 * all bytes to the text's end where that never happens. It is 0 at the text's end,
 * and everywhere where all rules start in their error states. At a token that ends
 * the text it is the token's length, at any other token more than that.
 *
 * A turn begins at a place. While the reach where it stands is at most what is left
 * of its budget, it pays the reach, takes the token there, the one that zgv_lex()
 * takes, and goes on behind it. It stops in one of two ways:
 *
 *    finished    The reach is paid, and no token begins there: the cut is at its
 *                end. At the text's end a turn is finished whatever its budget.
 *    spent       The reach is larger than what is left. Nothing is paid for this
 *                place, and no byte past what is left is looked at. The next turn
 *                begins here.
 *
 * A turn that is spent without a token has got nowhere, and with the same budget
 * the next one will not either: give it a larger one. What it would need is not
 * reported, since that takes looking further. Twice as much, and so on, gets there
 * soon; as many bytes as the text has from that place on are always enough.
 *
 * What turns from place 0 have given can be saved at any time, finished or not.
 * Lend each turn the part of one buffer that lies behind the records of the turns
 * before it. zgv_print() accepts the records in front of it, with the text as the
 * pool, and writes exactly the text's bytes before the next place. It needs room
 * for these alone, and refuses nothing but less room, by 22. Its time goes by all
 * that was cut so far, and not by a budget. As many records as the text has bytes,
 * and as many masks, are enough for all turns together.
 *
 * EXPRESSIONS
 *
 * zgv_compile() reads a part of the notation that POSIX.1 (IEEE Std 1003.1) has for
 * extended regular expressions. An expression is a run of bytes and matches byte
 * strings; no locale plays a part. A piece of it is one of these:
 *
 *    a byte       itself; any but 00 and these twelve: \ ^ . [ $ ( ) | * + ? {
 *    \ and one    of these twelve, which then is that byte itself
 *    .            every byte but 00 and 0A
 *    [...]        one byte of a list. It has one or more bytes and ranges; a range
 *                 is two bytes with - between them, the first not above the last,
 *                 and all bytes from the one to the other. 00 and ] [ - \ ^ are
 *                 neither bytes of a list nor ends of a range; a range may run over
 *                 these five
 *    (...)        what stands in it, alternatives again
 *
 * One of * + ? may stand behind a piece, and no second one: none or more of it, one
 * or more, none or one. Pieces in a row are a sequence; sequences with | between
 * them are alternatives, of which one has to match. None of these is empty.
 * Anchors, intervals, negated lists and named classes are left out. A ] or } that
 * stands outside a list is a byte as any other.
 *
 * A position is a byte, a \ with its byte, a period or a list, each where it stands
 * in the expression. The states of its rule are the start and the sets of positions
 * that can have matched the last byte. Most expressions have about as many sets as
 * positions. One that asks for a byte at a fixed distance from the end has many:
 * .*a...... has 128, and with each period more twice as many.
 *
 * STACK
 *
 * The table of a book and the scratch of a printer are local to the call. Bytes
 * of stack to leave free for one, with a book of up to 8,192 bytes and with any:
 *
 *    zgv_lex_builtin()               8,192
 *    zgv_compile()                 307,200
 *    zgv_lex()                      45,056     176,128
 *    zgv_lex_within()               45,056     176,128
 *    zgv_read_book()                61,440     192,512
 *    zgv_read_book_strict()         61,440     192,512
 *    zgv_rule()                     61,440     192,512
 *    zgv_rewrite_book()             61,440     192,512
 *    zgv_print()                   126,976     258,048
 *    zgv_print_separated()         245,760     376,832
 *
 * Each is at least 4,096 more than bench/stack.c of the sources measures, for the
 * first call of a program that binds memset() and memcpy() only then. With the
 * built-in book zgv_print_separated() is content with 135,168. ZGV_STACK_BYTES is
 * enough for every call.
 *
 * COST
 *
 * Cutting and printing a usual text is linear in its length (PERFORMANCE.md). A
 * book can be made so that it is not. At worst, for a book of r rules:
 *
 *    a cut of n bytes           r * n * n / 2 steps, since at each token every
 *                               rule walks on as far as it can go; twice that
 *                               where there is room for fewer than n records or
 *                               for fewer than n masks
 *    a turn of b bytes          reading the book, and 2 * r * b steps, however
 *                               long the text; twice those where there is room for
 *                               fewer tokens than b and than the text has bytes
 *                               from the place on
 *    printing n bytes           the same r * n * n / 2, and r steps more for each
 *                               byte of each token, also where 20 is answered
 *                               in the end: tokens may overlap in the pool, so
 *                               that the sum of their lengths has no other limit
 *                               than 65,536 times the pool's
 *    reading a book             its length, and for each move the moves that left
 *                               the same state before it: under 10 ms
 *    rewriting a book           reading it, and its length twice more
 *    an expression              for each set and each byte, of 256, the positions
 *                               that may come next and, where they change from
 *                               one byte to the next, a look for their set among
 *                               those found before: under 20 ms
 *
 * A step looks through the moves that leave a state one by one, at most 256. On
 * the machine of PERFORMANCE.md one rule that matches "a", and also any number of
 * a's with a "b" behind them, takes 8 s to cut 65,536 a's. Who takes books or
 * lists from others sets limits of its own to the length of a text and to the sum
 * of the lengths of a list, or cuts in turns, whose limit is their budget.
 */
#ifndef ZAGVULEM_H
#define ZAGVULEM_H

#include <stddef.h>
#include <stdint.h>

#ifdef __cplusplus
extern "C" {
#endif

/* A definition that a program need not use. */
#if defined(__GNUC__)
#define ZGV_UNUSED __attribute__((unused))
#else
#define ZGV_UNUSED
#endif

/* ---- Version ------------------------------------------------------------ */

#define ZGV_VERSION       "0.8.0"
#define ZGV_VERSION_MAJOR 0
#define ZGV_VERSION_MINOR 8
#define ZGV_VERSION_PATCH 0

/* ---- Limits ------------------------------------------------------------- */

#define ZGV_BOOK_BYTES       65536  /* bytes of a book */
#define ZGV_BOOK_RULES       32     /* rules of a book */
#define ZGV_RULE_TRANSITIONS 4096   /* transitions (STEP and SPAN) of one rule */
#define ZGV_RULE_STATES      4096   /* states of one rule, numbered from 0 */
#define ZGV_TEXT_BYTES       65536  /* bytes of a text, to be cut or written */
#define ZGV_LIST_TOKENS      65536  /* tokens of a list */
#define ZGV_RECORD_BYTES     10     /* bytes of a token's record */
#define ZGV_MASK_BYTES       4      /* bytes of a token's mask */
#define ZGV_REGEX_BYTES      512    /* bytes of an expression */
#define ZGV_REGEX_POSITIONS  64     /* positions of an expression */
#define ZGV_REGEX_DEPTH      16     /* parentheses of an expression inside others */
#define ZGV_REGEX_SETS       254    /* sets of positions, the empty one aside */
#define ZGV_REGEX_OUTPUT     326919 /* the most bytes of an expression's rule */
#define ZGV_STACK_BYTES      376832 /* stack that is enough for every call */

/* Kinds of a rule, as in its RULE command. */
#define ZGV_KIND_PLAIN     0
#define ZGV_KIND_SEPARATOR 1

/* How a turn stopped: the second value of zgv_lex_within(). */
#define ZGV_SPENT    0
#define ZGV_FINISHED 1

/* Modes of zgv_print_separated(). */
#define ZGV_MODE_DEFAULT 0  /* the same as ZGV_MODE_SPARE */
#define ZGV_MODE_ALL     1  /* a separator between all neighbours */
#define ZGV_MODE_SPARE   2  /* a separator only where one is needed */

/* ---- Refusals ----------------------------------------------------------- */

/*
 * The number of an answer. Where several cases apply, the one that comes first
 * in the order of the call is answered. The text behind each says what the place
 * counts.
 */
enum {
    ZGV_ACCEPTED = 0,

    /*
     * The book, in every call that takes one. Commands are checked from the
     * front; within one command the order is 3, 2, 5, 6, 7, 8, at a CLOSE 8, 9,
     * 10, 11, 12, at END 13, 4. In zgv_read_book_strict() 33 stands directly after
     * 3. The place is a byte of the book, from 0: the first one of the command,
     * unless said otherwise.
     */
    ZGV_BOOK_TOO_LONG     = 1,   /* over 65,536 bytes; place 0. Of
                                    zgv_rewrite_book() also where the rewritten
                                    book would be that long */
    ZGV_CUT_OFF           = 2,   /* operands cut off; or the book stops before
                                    END, then the place is its length */
    ZGV_MISPLACED         = 3,   /* no command, or one not allowed here */
    ZGV_BYTES_AFTER_END   = 4,   /* bytes follow END; place of the first */
    ZGV_TOO_MANY          = 5,   /* a 33rd rule, or a rule's 4,097th move */
    ZGV_OUT_OF_RANGE      = 6,   /* tag 0, kind above 1, low above high, or a
                                    state above 4,095; of zgv_compile() tag 0 or
                                    kind above 1, and place 0 */
    ZGV_TAG_TAKEN         = 7,   /* an earlier rule has this tag */
    ZGV_TWICE_OR_MISSING  = 8,   /* a second START or ERROR, or at CLOSE none */
    ZGV_OVERLAP           = 9,   /* two moves of a state share a byte */
    ZGV_LEAVES_ERROR      = 10,  /* a move from the error state */
    ZGV_ERROR_FINAL       = 11,  /* the error state is final */
    ZGV_START_FINAL       = 12,  /* the start is final */
    ZGV_NO_RULE           = 13,  /* END before any rule */

    /* Lexing. */
    ZGV_TEXT_TOO_LONG     = 14,  /* text over 65,536 bytes; place 0 */
    ZGV_TOO_FEW_RECORDS   = 15,  /* fewer records or fewer masks than tokens, of
                                    zgv_lex_within() than tokens of the turn; the
                                    place is the number of tokens */

    /*
     * Printing. For 17 to 19, 21 and 26 the place is the token's number in the
     * list, from 0; for 17 to 19 and 25 of the separator token it is the number
     * of tokens in the list.
     */
    ZGV_TOO_MANY_TOKENS   = 16,  /* over 65,536 tokens; place 0 */
    ZGV_PAST_THE_POOL     = 17,  /* the token passes the pool's end */
    ZGV_UNKNOWN_TAG       = 18,  /* no rule of the book has the tag; of
                                    zgv_rule(): the book has no such rule, and
                                    the place is the number of its rules */
    ZGV_NOT_ALONE         = 19,  /* its rule does not match the token's bytes, or
                                    an earlier rule does too */
    ZGV_OUTPUT_TOO_LONG   = 20,  /* over 65,536 bytes to be written; place 0 */
    ZGV_READ_ON           = 21,  /* some rule matches the token's bytes and a
                                    non-empty beginning of what follows */
    ZGV_OUTPUT_TOO_SHORT  = 22,  /* the place is the number of bytes needed; of
                                    zgv_rewrite_book() and zgv_compile() too */

    /* Printing with separators. */
    ZGV_SHARED_BYTE       = 23,  /* a byte stands in a string that a plain rule
                                    matches and in one that a separator rule
                                    matches; the place is the lowest such byte */
    ZGV_UNKNOWN_MODE      = 24,  /* mode above 2; place 0 */
    ZGV_NO_SEPARATOR      = 25,  /* the separator token is of plain kind */
    ZGV_SEPARATOR_IN_LIST = 26,  /* a token of the list is of separator kind */

    /* Lexing in turns: it stands after 14 and before 15. */
    ZGV_PAST_THE_TEXT     = 27,  /* the turn would begin past the text's end;
                                    place 0 */

    /* An expression, in zgv_compile() alone. */
    ZGV_NO_EXPRESSION     = 30,  /* outside the part that is read; the place is
                                    that of the first byte which no expression
                                    has after what stands before it, or the
                                    length where all of it may be gone on with */
    ZGV_LARGE_EXPRESSION  = 31,  /* over 512 bytes; or over 64 positions, or
                                    parentheses deeper than 16; place 0 */
    ZGV_TOO_MANY_SETS     = 32,  /* over 254 sets of positions; place 0 */

    /* The book, in zgv_read_book_strict() alone. */
    ZGV_RETIRED           = 33   /* a STEP where one may stand: inside a rule */
};

/* What a number says, in a few English words; for numbers that no call answers
   too. */
static inline const char *zgv_refusal_text(unsigned number)
{
    switch (number) {
    case ZGV_ACCEPTED:          return "accepted";
    case ZGV_BOOK_TOO_LONG:     return "the book has more than 65,536 bytes";
    case ZGV_CUT_OFF:           return "the book stops before its END, or inside a command";
    case ZGV_MISPLACED:         return "no command of a book, or one that may not stand here";
    case ZGV_BYTES_AFTER_END:   return "bytes follow the book's END";
    case ZGV_TOO_MANY:          return "the book has a 33rd rule, or a rule a 4,097th move";
    case ZGV_OUT_OF_RANGE:      return "a tag is 0, a kind above 1, a move's low above its high, or a state above 4,095";
    case ZGV_TAG_TAKEN:         return "an earlier rule of the book has the same tag";
    case ZGV_TWICE_OR_MISSING:  return "a rule has START or ERROR twice, or not at all";
    case ZGV_OVERLAP:           return "two moves of a rule leave one state at the same byte";
    case ZGV_LEAVES_ERROR:      return "a move leaves a rule's error state";
    case ZGV_ERROR_FINAL:       return "a rule's error state is final";
    case ZGV_START_FINAL:       return "a rule's start is final";
    case ZGV_NO_RULE:           return "the book has no rule";
    case ZGV_TEXT_TOO_LONG:     return "the text has more than 65,536 bytes";
    case ZGV_TOO_FEW_RECORDS:   return "there is room for fewer records or masks than there are tokens";
    case ZGV_TOO_MANY_TOKENS:   return "the list has more than 65,536 tokens";
    case ZGV_PAST_THE_POOL:     return "a token passes the end of the pool";
    case ZGV_UNKNOWN_TAG:       return "the book has no such rule";
    case ZGV_NOT_ALONE:         return "a token alone is not cut as itself";
    case ZGV_OUTPUT_TOO_LONG:   return "more than 65,536 bytes would be written";
    case ZGV_READ_ON:           return "a token would be read on into what follows it";
    case ZGV_OUTPUT_TOO_SHORT:  return "the output has too little room";
    case ZGV_SHARED_BYTE:       return "a plain and a separator rule of the book use the same byte";
    case ZGV_UNKNOWN_MODE:      return "there is no such mode";
    case ZGV_NO_SEPARATOR:      return "the separator token is of a plain rule";
    case ZGV_SEPARATOR_IN_LIST: return "a token of the list is of a separator rule";
    case ZGV_PAST_THE_TEXT:     return "the place lies past the end of the text";
    case ZGV_NO_EXPRESSION:     return "not an expression of the part of POSIX.1 that is read";
    case ZGV_LARGE_EXPRESSION:  return "the expression has more than 512 bytes or 64 positions, or parentheses deeper than 16";
    case ZGV_TOO_MANY_SETS:     return "the expression has more than 254 sets of positions";
    case ZGV_RETIRED:           return "the book has a STEP, which is retired";
    default:                    return "no number that a call answers";
    }
}

/* ---- Reading an answer -------------------------------------------------- */

/* The refusal's number, ZGV_ACCEPTED (0) where the call was accepted. */
static inline unsigned zgv_number(uint64_t answer)
{
    return (unsigned)(answer >> 56);
}

/* Of a refusal: the place. */
static inline uint64_t zgv_place(uint64_t answer)
{
    return answer & (((uint64_t)1 << 56) - 1);
}

/* Of an accepted call: the first value (rules, tokens, bytes or a tag). */
static inline uint32_t zgv_first(uint64_t answer)
{
    return (uint32_t)(answer >> 28) & 0x0FFFFFFFu;
}

/* Of an accepted call: the second value (the place of the rest, a kind, or how a
   turn stopped). */
static inline uint32_t zgv_second(uint64_t answer)
{
    return (uint32_t)answer & 0x0FFFFFFFu;
}

/* ---- Records ------------------------------------------------------------ */

typedef struct zgv_token {
    uint16_t tag;
    uint32_t place;   /* where its bytes begin in the pool */
    uint32_t length;  /* how many they are */
} zgv_token;

/* Record number `index`, from 0; the buffer must hold it whole. */
static inline zgv_token zgv_get_record(const uint8_t *records, size_t index)
{
    const uint8_t *r = records + index * ZGV_RECORD_BYTES;
    zgv_token token;
    token.tag = (uint16_t)(((unsigned)r[0] << 8) | r[1]);
    token.place = ((uint32_t)r[2] << 24) | ((uint32_t)r[3] << 16)
                | ((uint32_t)r[4] << 8) | r[5];
    token.length = ((uint32_t)r[6] << 24) | ((uint32_t)r[7] << 16)
                 | ((uint32_t)r[8] << 8) | r[9];
    return token;
}

/* Stores record number `index`, from 0; the buffer must have room for it. */
static inline void zgv_put_record(uint8_t *records, size_t index, zgv_token token)
{
    uint8_t *r = records + index * ZGV_RECORD_BYTES;
    r[0] = (uint8_t)(token.tag >> 8);
    r[1] = (uint8_t)token.tag;
    r[2] = (uint8_t)(token.place >> 24);
    r[3] = (uint8_t)(token.place >> 16);
    r[4] = (uint8_t)(token.place >> 8);
    r[5] = (uint8_t)token.place;
    r[6] = (uint8_t)(token.length >> 24);
    r[7] = (uint8_t)(token.length >> 16);
    r[8] = (uint8_t)(token.length >> 8);
    r[9] = (uint8_t)token.length;
}

/* ---- Masks -------------------------------------------------------------- */

/*
 * Mask number `index`, from 0; the buffer must hold it whole. Rule number k agreed
 * where (zgv_get_mask(masks, index) >> k & 1) is 1.
 */
static inline uint32_t zgv_get_mask(const uint8_t *masks, size_t index)
{
    const uint8_t *m = masks + index * ZGV_MASK_BYTES;
    return ((uint32_t)m[0] << 24) | ((uint32_t)m[1] << 16)
         | ((uint32_t)m[2] << 8) | m[3];
}

/* ---- The calls ---------------------------------------------------------- */

/*
 * Checks a book. This is the ordinary reading, by which every call but
 * zgv_read_book_strict() takes its book. It accepts SPAN and STEP: a STEP from s
 * at b to t means a SPAN from s to t whose low and high are b.
 *
 * Accepted: first value the number of its rules, second 0. Refused: 1 to 13.
 */
uint64_t zgv_read_book(const uint8_t *book, size_t book_len);

/*
 * Checks a book by the stricter reading, which takes no STEP; for a book before it
 * is given to others. Of a book without STEP it answers as zgv_read_book().
 *
 * Accepted: first value the number of its rules, second 0.
 * Refused: 1 to 13, and 33 at the first byte of the STEP that is met first. At one
 * command 33 stands after 3 and before all others: outside a rule a STEP is
 * refused by 3; inside one by 33, also where its operands are cut off or it is the
 * rule's 4,097th move.
 */
uint64_t zgv_read_book_strict(const uint8_t *book, size_t book_len);

/*
 * Writes `book` from the start of `out` with a SPAN in the place of each STEP,
 * `06 from byte byte to` for `05 from byte to`, and every other command byte for
 * byte. `out` shares no byte with `book`.
 *
 * What it writes has the same rules. Both readings accept it, and all other calls
 * answer and write the same by it as by `book`. A book without STEP is written as
 * it is.
 *
 * Each STEP makes the book one byte longer: the first value less book_len is the
 * number of STEPs. A book never has more than ZGV_BOOK_BYTES, so that an `out` of
 * so many bytes is always long enough.
 *
 * Accepted: first value the number of bytes written, second 0. The bytes of `out`
 * past them stay as they were.
 * Refused: 1 to 13 for the book; then 1 at place 0 where the rewritten book would
 * have more than ZGV_BOOK_BYTES (with a book_len up to that, 1 always says this);
 * then 22 where `out` is shorter than the rewritten book. The place of 22 is the
 * number of bytes needed, so that a call with no output says how many they are.
 * All of `out` stays as it was.
 */
uint64_t zgv_rewrite_book(const uint8_t *book, size_t book_len,
                          uint8_t *out, size_t out_len);

/*
 * Reads `regex`, an expression (EXPRESSIONS above), and writes a rule for `tag` and
 * `kind`, ZGV_KIND_PLAIN or ZGV_KIND_SEPARATOR, from the start of `out`. The rule
 * matches the byte strings that the expression matches, and no others.
 *
 * It is written as commands of a book: RULE, START 0, ERROR 255, FINALs by their
 * states, SPANs by state and byte, CLOSE. State 0 is the start; the sets of
 * positions have numbers from 1, by the shortest string that leads to each, among
 * equally long ones by the lowest. Each SPAN is as long as can be, and none leads
 * to 255. So the same call writes the same bytes, always.
 *
 * A book is such rules one behind the other, with an END, 08, behind the last.
 * Read it: a rule may be one that no book may have. Alone with an END it is refused
 * by 1 where both have more than ZGV_BOOK_BYTES; else by 5 where it has more than
 * ZGV_RULE_TRANSITIONS moves; else by 12 where the expression matches the empty
 * string, as a* does.
 *
 * Accepted: first value the number of bytes written, second 0. The bytes of `out`
 * past them stay as they were. An `out` of ZGV_REGEX_OUTPUT bytes is always long
 * enough, and one of ZGV_BOOK_BYTES for every rule that a book may have.
 * Refused, in this order: 6; 31 where regex_len is above ZGV_REGEX_BYTES; 30; 31
 * where it has more than ZGV_REGEX_POSITIONS positions, or parentheses deeper than
 * ZGV_REGEX_DEPTH; 32 where more than ZGV_REGEX_SETS sets of positions, none of
 * them empty, are reached; 22, whose place is the number of bytes needed. All of
 * `out` stays as it was.
 *
 * A place of 30 is a byte of `regex`, from 0. In "a**" it is 2, in "[b-a]" 3, in
 * "()" 1, in "a|" and in "(a" 2, the length; of the empty text it is 0.
 *
 * A book of one rule for words, of at least two letters:
 *
 *    uint8_t book[ZGV_BOOK_BYTES];
 *    size_t length = 0;
 *    uint64_t answer = zgv_compile(2, ZGV_KIND_PLAIN,
 *                                  (const uint8_t *)"[a-z][a-z]+", 11,
 *                                  book, sizeof book - 1);
 *    if (zgv_number(answer) == ZGV_ACCEPTED) {
 *        length = zgv_first(answer);
 *        book[length++] = 0x08;
 *        answer = zgv_read_book(book, length);
 *    }
 */
uint64_t zgv_compile(uint16_t tag, uint32_t kind,
                     const uint8_t *regex, size_t regex_len,
                     uint8_t *out, size_t out_len);

/*
 * Says the tag and the kind of rule number `index` of a book, from 0 in the
 * book's order. zgv_read_book() says how many rules there are.
 *
 * Accepted: first value the tag, second the kind, ZGV_KIND_PLAIN or
 * ZGV_KIND_SEPARATOR. Refused: 1 to 13 for the book; 18 where `index` is past the
 * last rule, its place the number of rules.
 */
uint64_t zgv_rule(const uint8_t *book, size_t book_len, uint32_t index);

/*
 * Cuts `text` by `book` and stores a record of each token, in order, from the
 * start of `records`, and a mask of each from the start of `masks`. Cutting ends at
 * the text's end, or at the first place where no rule matches; what is left there
 * is the rest. Look at it: a text whose second value is below text_len was not cut
 * to its end.
 *
 * Accepted: first value the number of tokens, second the place of the rest in
 * `text`, which is text_len where nothing is left. A token's place counts in
 * `text` too. What `records` and `masks` hold past that number stays as it was.
 * Refused: 1 to 13 for the book; 14; 15 where `records` or `masks` has room for
 * fewer tokens than the cut has. The place of 15 is the number of tokens, so that
 * a call with no records and no masks says how many of each are needed. A token
 * has at least one byte, so text_len records and text_len masks are always enough;
 * with so many the text is walked once, with fewer of either twice.
 *
 * A program that does not read masks lends them all the same, as many as records:
 *
 *    static uint8_t records[ZGV_TEXT_BYTES * ZGV_RECORD_BYTES];
 *    static uint8_t masks[ZGV_TEXT_BYTES * ZGV_MASK_BYTES];
 *
 * One that asks for the number of tokens first passes `NULL, 0, NULL, 0` and sizes
 * both by it.
 */
uint64_t zgv_lex(const uint8_t *book, size_t book_len,
                 const uint8_t *text, size_t text_len,
                 uint8_t *records, size_t records_len,
                 uint8_t *masks, size_t masks_len);

/*
 * Cuts `text` by `book` in a turn of `budget` bytes that begins at `place` (TURNS
 * above). A record of each token of this turn is stored from the start of
 * `records`, and a mask of each from the start of `masks`. The places in records
 * count from the start of `text`, as those of zgv_lex().
 *
 * Accepted: first value the number of tokens of this turn, second how it stopped,
 * ZGV_FINISHED (1) or ZGV_SPENT (0). *next is the place where it stopped, from the
 * start of `text`: where the next turn begins, or where the rest does. *examined
 * is the sum of the reaches that were paid, also where no token began in the end,
 * and is at most `budget`. What `records` and `masks` hold past the turn's tokens
 * stays as it was.
 * Refused: 1 to 13 for the book; 14; 27 where `place` is above text_len; 15 where
 * `records` or `masks` has room for fewer tokens than this turn has. The place of
 * 15 is the number of this turn's tokens. Both buffers, *next and *examined stay as
 * they were.
 *
 * Turns from place 0 on, each from *next of the one before, until one is finished,
 * give the records and masks that zgv_lex() gives, in parts, and the last *next is
 * the place of its rest. The budgets play no part in that: with room enough a turn
 * of a larger budget gives the same tokens, and further ones behind them.
 *
 * A token's reach is at least 1, so `budget` records and as many masks are always
 * enough, and so are text_len - place of each.
 *
 * Turns of 64 bytes, where one without a token is followed by one of twice as many;
 * play() is the program's own:
 *
 *    uint64_t answer, next = 0, examined, budget = 64;
 *    do {
 *        answer = zgv_lex_within(book, book_len, text, text_len, next, budget,
 *                                records, sizeof records, masks, sizeof masks,
 *                                &next, &examined);
 *        if (zgv_number(answer) != ZGV_ACCEPTED)
 *            break;
 *        play(records, masks, zgv_first(answer));
 *        budget = zgv_first(answer) > 0 ? 64 : 2 * budget;
 *    } while (zgv_second(answer) == ZGV_SPENT);
 */
uint64_t zgv_lex_within(const uint8_t *book, size_t book_len,
                        const uint8_t *text, size_t text_len,
                        size_t place, uint64_t budget,
                        uint8_t *records, size_t records_len,
                        uint8_t *masks, size_t masks_len,
                        uint64_t *next, uint64_t *examined);

/*
 * The cut of zgv_lex() by the built-in book of timed lyric sheets, which needs no
 * reading:
 *
 *    tag 1, plain        [dd:dd.dd], d a digit: a time stamp
 *    tag 2, plain        a word: bytes 21 to 7E but [ and ], and 80 to FF
 *    tag 3, separator    one or more blanks and tabs
 *    tag 4, separator    one line feed
 *    tag 5, plain        one [ or one ]
 *
 * No rule matches a byte of 00 to 08, 0B to 1F or 7F: cutting ends at the first
 * one, and the rest begins there. Carriage return, 0D, is such a byte: of a sheet
 * with CR LF line ends no more than the first line is cut. Take the CRs out of it
 * before, or cut it by a book that has a rule for them (FORMAT.md has one).
 *
 * No two of these rules match the same bytes, so a mask has one bit, that of the
 * rule that took the token: it is 2^(tag - 1).
 *
 * Accepted: as zgv_lex(). Refused: 14, 15.
 */
uint64_t zgv_lex_builtin(const uint8_t *text, size_t text_len,
                         uint8_t *records, size_t records_len,
                         uint8_t *masks, size_t masks_len);

/*
 * The built-in book as bytes, for calls that take a book: zgv_lex() by it answers
 * and writes as zgv_lex_builtin(), and the printers print what either has cut. It
 * has STEPs, so that zgv_read_book_strict() refuses it.
 */
static const uint8_t zgv_builtin_book[168] ZGV_UNUSED = {
    0x01, 0x00, 0x01, 0x00, 0x02, 0x00, 0x03, 0x0B, 0x04, 0x0A, 0x05, 0x00,
    0x5B, 0x01, 0x06, 0x01, 0x30, 0x39, 0x02, 0x06, 0x02, 0x30, 0x39, 0x03,
    0x05, 0x03, 0x3A, 0x04, 0x06, 0x04, 0x30, 0x39, 0x05, 0x06, 0x05, 0x30,
    0x39, 0x06, 0x05, 0x06, 0x2E, 0x07, 0x06, 0x07, 0x30, 0x39, 0x08, 0x06,
    0x08, 0x30, 0x39, 0x09, 0x05, 0x09, 0x5D, 0x0A, 0x07, 0x01, 0x00, 0x02,
    0x00, 0x02, 0x00, 0x03, 0x02, 0x04, 0x01, 0x06, 0x00, 0x21, 0x5A, 0x01,
    0x05, 0x00, 0x5C, 0x01, 0x06, 0x00, 0x5E, 0x7E, 0x01, 0x06, 0x00, 0x80,
    0xFF, 0x01, 0x06, 0x01, 0x21, 0x5A, 0x01, 0x05, 0x01, 0x5C, 0x01, 0x06,
    0x01, 0x5E, 0x7E, 0x01, 0x06, 0x01, 0x80, 0xFF, 0x01, 0x07, 0x01, 0x00,
    0x03, 0x01, 0x02, 0x00, 0x03, 0x02, 0x04, 0x01, 0x05, 0x00, 0x20, 0x01,
    0x05, 0x00, 0x09, 0x01, 0x05, 0x01, 0x20, 0x01, 0x05, 0x01, 0x09, 0x01,
    0x07, 0x01, 0x00, 0x04, 0x01, 0x02, 0x00, 0x03, 0x02, 0x04, 0x01, 0x05,
    0x00, 0x0A, 0x01, 0x07, 0x01, 0x00, 0x05, 0x00, 0x02, 0x00, 0x03, 0x02,
    0x04, 0x01, 0x05, 0x00, 0x5B, 0x01, 0x05, 0x00, 0x5D, 0x01, 0x07, 0x08
};

/*
 * Writes the bytes of the tokens of `records`, joined, from the start of `out`.
 * The tokens' bytes stand anywhere in `pool`; they may overlap and be used twice.
 *
 * The list is every record that `records` has room for: records_len is 10 times
 * the number of tokens, not the length of a larger buffer.
 *
 * Accepted: first value the number of bytes written, second 0. Cutting them by
 * the same book gives the same tags and bytes, and no rest. The output of an
 * empty list is empty.
 * Refused: 1 to 13 for the book; 16; for each token 17, 18, 19; then 20, 21, 22.
 */
uint64_t zgv_print(const uint8_t *book, size_t book_len,
                   const uint8_t *records, size_t records_len,
                   const uint8_t *pool, size_t pool_len,
                   uint8_t *out, size_t out_len);

/*
 * The same with a separator token between neighbours, never after the last. Its
 * bytes stand in `pool` too, separator_length of them at separator_place, and its
 * tag is that of a separator rule. The tokens of the list are of plain rules;
 * zgv_rule() says which tags those are.
 *
 * `mode` says where a separator goes: ZGV_MODE_ALL between all neighbours,
 * ZGV_MODE_SPARE only after a token that some rule would read on into what is
 * written after it, ZGV_MODE_DEFAULT as ZGV_MODE_SPARE. The same list has the
 * same bytes within one mode, and may have others in another.
 *
 * Before 0.2.0 ZGV_MODE_DEFAULT, 0, was as ZGV_MODE_ALL. A program that compares
 * bytes with sheets that were stored under 0 passes ZGV_MODE_ALL, 1, from now on.
 * A program that cuts such sheets changes nothing: they are cut as they were.
 *
 * No byte that a token of a plain rule can have is one that a token of a separator
 * rule can have; else 23 is answered, for every list (FORMAT.md says what to do
 * about it). A byte counts for a rule where it stands in some byte string that the
 * rule matches. Moves that no such string takes do not count: those from states
 * that are never reached, and those from which no final state is reached.
 *
 * Accepted: first value the number of bytes written, second 0. Cutting them by
 * the same book, and leaving out each token of a separator rule, gives the same
 * tags and bytes, and no rest. By ZGV_MODE_SPARE and ZGV_MODE_DEFAULT they are as
 * few as can be: other copies of the separator between the tokens, if they are
 * fewer, do not give the list back.
 * Refused: 1 to 13 for the book; 23; 24; for the separator token 17, 18, 19, 25;
 * then 16; for each token 17, 18, 19, 26; then 20, 22. The book, the mode and the
 * separator are checked for an empty list too.
 */
uint64_t zgv_print_separated(const uint8_t *book, size_t book_len,
                             uint16_t separator_tag, uint32_t separator_place,
                             uint32_t separator_length, uint32_t mode,
                             const uint8_t *records, size_t records_len,
                             const uint8_t *pool, size_t pool_len,
                             uint8_t *out, size_t out_len);

#ifdef __cplusplus
}
#endif

#endif /* ZAGVULEM_H */
