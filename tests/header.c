/* Holds what include/zagvulem.h says to the library: the argument is examples/builtin.bin, standard input a sheet. C99 and C++. */
#include "zagvulem.h"
#include "zagvulem.h"

#include <stdio.h>
#include <stdlib.h>
#include <string.h>

#define HOLDS(fact)                                                    \
    do {                                                               \
        if (!(fact)) {                                                 \
            fprintf(stderr, "header.c:%d: not so: %s\n", __LINE__, #fact); \
            exit(1);                                                   \
        }                                                              \
    } while (0)

#define BOOK zgv_builtin_book, sizeof zgv_builtin_book

static uint8_t sheet[ZGV_TEXT_BYTES], first[ZGV_TEXT_BYTES * ZGV_RECORD_BYTES], second[ZGV_TEXT_BYTES * ZGV_RECORD_BYTES];
static uint8_t first_masks[ZGV_TEXT_BYTES * ZGV_MASK_BYTES], second_masks[ZGV_TEXT_BYTES * ZGV_MASK_BYTES];
static uint8_t out[ZGV_TEXT_BYTES];

#define FIRST first, sizeof first, first_masks, sizeof first_masks
#define SECOND second, sizeof second, second_masks, sizeof second_masks

/* Both pairs of records and masks with the same bytes in them, which show what a cut writes. */
static void paint(void)
{
    memset(first, 1, sizeof first);
    memset(second, 1, sizeof second);
    memset(first_masks, 1, sizeof first_masks);
    memset(second_masks, 1, sizeof second_masks);
}

static int are_alike(void)
{
    return memcmp(first, second, sizeof first) == 0 && memcmp(first_masks, second_masks, sizeof first_masks) == 0;
}

static void versions(void)
{
    char numbers[64];
    sprintf(numbers, "%d.%d.%d", ZGV_VERSION_MAJOR, ZGV_VERSION_MINOR, ZGV_VERSION_PATCH);
    HOLDS(strcmp(numbers, ZGV_VERSION) == 0);
}

static int is_answered(unsigned number)
{
    return number <= ZGV_PAST_THE_TEXT || (number >= ZGV_NO_EXPRESSION && number <= ZGV_RETIRED);
}

/* Each number has a text of its own, all others one that is none of them. */
static void texts(void)
{
    unsigned i, k;
    HOLDS(ZGV_SEPARATOR_IN_LIST == 26 && ZGV_PAST_THE_TEXT == 27 && ZGV_RETIRED == 33);
    HOLDS(ZGV_NO_EXPRESSION == 30 && ZGV_LARGE_EXPRESSION == 31 && ZGV_TOO_MANY_SETS == 32);
    for (i = 0; i < 1000; i++) {
        HOLDS(strlen(zgv_refusal_text(i)) > 5);
        for (k = 0; k < i; k++)
            HOLDS((strcmp(zgv_refusal_text(i), zgv_refusal_text(k)) == 0) == (!is_answered(i) && !is_answered(k)));
    }
    HOLDS(strcmp(zgv_refusal_text((unsigned)-1), zgv_refusal_text(28)) == 0);
}

static void book(const char *name)
{
    uint8_t bytes[ZGV_BOOK_BYTES];
    FILE *file = fopen(name, "rb");
    size_t length;
    uint32_t i;
    HOLDS(file != NULL);
    length = fread(bytes, 1, sizeof bytes, file);
    fclose(file);
    HOLDS(length == sizeof zgv_builtin_book && memcmp(bytes, zgv_builtin_book, length) == 0);
    HOLDS(zgv_first(zgv_read_book(BOOK)) == 5);
    for (i = 0; i < 5; i++) {
        uint64_t answer = zgv_rule(BOOK, i);
        HOLDS(zgv_number(answer) == ZGV_ACCEPTED && zgv_first(answer) == i + 1);
        HOLDS(zgv_second(answer) == (uint32_t)(i == 2 || i == 3 ? ZGV_KIND_SEPARATOR : ZGV_KIND_PLAIN));
    }
    for (i = 5; i != 0; i *= 2) {
        uint64_t answer = zgv_rule(BOOK, i);
        HOLDS(zgv_number(answer) == ZGV_UNKNOWN_TAG && zgv_place(answer) == 5);
    }
    HOLDS(zgv_number(zgv_rule(NULL, 0, 0)) == ZGV_CUT_OFF);
}

/* A text is cut alike by the built-in book as bytes and without, each mask that of one rule; what is cut before a rest is printed as
   it was. */
static uint64_t cut_alike(const uint8_t *text, size_t length)
{
    uint64_t by_book, built_in, printed;
    uint32_t i;
    paint();
    by_book = zgv_lex(BOOK, text, length, FIRST);
    built_in = zgv_lex_builtin(text, length, SECOND);
    HOLDS(zgv_number(by_book) == ZGV_ACCEPTED && by_book == built_in && are_alike());
    for (i = 0; i < zgv_first(by_book); i++)
        HOLDS(zgv_get_mask(first_masks, i) == (uint32_t)1 << (zgv_get_record(first, i).tag - 1));
    HOLDS(zgv_get_mask(first_masks, i) == 0x01010101);
    printed = zgv_print(BOOK, first, (size_t)zgv_first(by_book) * ZGV_RECORD_BYTES, text, length, out, sizeof out);
    HOLDS(zgv_number(printed) == ZGV_ACCEPTED && zgv_first(printed) == zgv_second(by_book));
    HOLDS(memcmp(out, text, zgv_first(printed)) == 0);
    return by_book;
}

static void cuts(void)
{
    size_t length = fread(sheet, 1, sizeof sheet, stdin), n;
    unsigned byte;
    HOLDS(length > 100 && length < sizeof sheet);
    for (n = 0; n < length; n += 7)
        cut_alike(sheet, n);
    HOLDS(zgv_second(cut_alike(sheet, length)) == length);
    for (byte = 0; byte < 256; byte++) {
        uint8_t text[4] = {'o', 'h', 0, 'o'};
        int ends = byte <= 0x08 || (byte >= 0x0B && byte <= 0x1F) || byte == 0x7F;
        text[2] = (uint8_t)byte;
        HOLDS(zgv_second(cut_alike(text, 4)) == (uint32_t)(ends ? 2 : 4));
    }
}

static void records(void)
{
    zgv_token token = {0xABCD, 0x01234567, 0x89ABCDEF}, same;
    uint8_t bytes[2 * ZGV_RECORD_BYTES] = {0};
    zgv_put_record(bytes, 1, token);
    same = zgv_get_record(bytes, 1);
    HOLDS(same.tag == token.tag && same.place == token.place && same.length == token.length);
    HOLDS(memcmp(bytes + 10, "\xAB\xCD\x01\x23\x45\x67\x89\xAB\xCD\xEF", 10) == 0 && bytes[9] == 0);
}

/* A book under construction, of rules that read one byte of a range, and any number of them where `runs`. */
static uint8_t made[ZGV_BOOK_BYTES];
static size_t made_len;

static void add_rule(unsigned tag, unsigned low, unsigned high, int runs)
{
    const uint8_t rule[] = {1, (uint8_t)(tag >> 8), (uint8_t)tag, 0, 2, 0, 3, 2, 4, 1, 6, 0, (uint8_t)low, (uint8_t)high, 1};
    const uint8_t run[] = {6, 1, (uint8_t)low, (uint8_t)high, 1};
    memcpy(made + made_len, rule, sizeof rule);
    made_len += sizeof rule;
    if (runs) {
        memcpy(made + made_len, run, sizeof run);
        made_len += sizeof run;
    }
    made[made_len++] = 7;
}

static void end_book(void)
{
    made[made_len++] = 8;
}

/* All 32 bits, in their order: rule k takes the bytes from 40 + k on, or those up to 40 + k. */
static void mask_bits(void)
{
    uint8_t text[ZGV_BOOK_RULES];
    unsigned k, from;
    HOLDS(ZGV_MASK_BYTES == 4 && zgv_get_mask((const uint8_t *)"\xFF\xFF\xFF\xFF\x89\xAB\xCD\xEF", 1) == 0x89ABCDEF);
    for (k = 0; k < sizeof text; k++)
        text[k] = (uint8_t)(0x40 + k);
    for (from = 0; from < 2; from++) {
        made_len = 0;
        for (k = 0; k < ZGV_BOOK_RULES; k++)
            add_rule(1000 + k, from ? 0x40 + k : 0x40, from ? 0x5F : 0x40 + k, 0);
        end_book();
        paint();
        HOLDS(zgv_lex(made, made_len, text, sizeof text, FIRST) == ((uint64_t)32 << 28 | 32));
        for (k = 0; k < 32; k++) {
            const uint32_t mask = from ? 0xFFFFFFFF >> (31 - k) : 0xFFFFFFFF << k;
            const uint8_t bytes[] = {(uint8_t)(mask >> 24), (uint8_t)(mask >> 16), (uint8_t)(mask >> 8), (uint8_t)mask};
            HOLDS(zgv_get_record(first, k).tag == (from ? 1000 : 1000 + k));
            HOLDS(zgv_get_mask(first_masks, k) == mask && memcmp(first_masks + 4 * k, bytes, 4) == 0);
        }
        HOLDS(memcmp(first_masks + 4 * 32, second_masks + 4 * 32, sizeof first_masks - 4 * 32) == 0);
    }
}

/* A rule counts where it matches all of the token, not where it matches a beginning of it or goes on without an end: by 0, one letter of a
   to c, 1, letters of a to c, 2, "ab" and "abcd", 3, letters of b to z. */
static void mask_ends(void)
{
    static const uint8_t pair[] = {1, 0, 3, 0, 2, 0, 3, 9, 4, 2, 4, 4, 6, 0, 'a', 'a', 1, 6, 1, 'b', 'b', 2, 6, 2, 'c', 'c', 3,
                                   6, 3, 'd', 'd', 4, 7};
    static const struct {
        const char *text;
        uint16_t tag;
        uint32_t mask;
    } tries[] = {{"a", 1, 3}, {"b", 1, 0xB}, {"d", 4, 8}, {"ab", 2, 6}, {"abc", 2, 2}, {"abcd", 3, 4}, {"cb", 2, 0xA}, {"cd", 4, 8}};
    size_t i;
    made_len = 0;
    add_rule(1, 'a', 'c', 0);
    add_rule(2, 'a', 'c', 1);
    memcpy(made + made_len, pair, sizeof pair);
    made_len += sizeof pair;
    add_rule(4, 'b', 'z', 1);
    end_book();
    for (i = 0; i < sizeof tries / sizeof tries[0]; i++) {
        const size_t length = strlen(tries[i].text);
        HOLDS(zgv_lex(made, made_len, (const uint8_t *)tries[i].text, length, FIRST) == ((uint64_t)1 << 28 | length));
        HOLDS(zgv_get_record(first, 0).tag == tries[i].tag && zgv_get_mask(first_masks, 0) == tries[i].mask);
    }
}

static int is_painted(const uint8_t *bytes, size_t from, size_t to)
{
    for (; from < to && bytes[from] == 1; from++)
        ;
    return from >= to;
}

/* Every room for records and for masks up to more than the text has bytes, leftover bytes too: 15 where either is too small, and then
   nothing is written; else what is written is the same, and nothing behind it. */
static void mask_rooms(void)
{
    static const uint8_t text[] = "oh no [yes\n]";
    const size_t length = sizeof text - 1, tokens = 8;
    size_t r, m;
    paint();
    HOLDS(zgv_lex_builtin(text, length, SECOND) == ((uint64_t)tokens << 28 | length));
    for (r = 0; r <= (length + 1) * ZGV_RECORD_BYTES; r += 3)
        for (m = 0; m <= (length + 1) * ZGV_MASK_BYTES; m++) {
            const int enough = r / ZGV_RECORD_BYTES >= tokens && m / ZGV_MASK_BYTES >= tokens;
            const uint64_t answer = enough ? (uint64_t)tokens << 28 | length : (uint64_t)ZGV_TOO_FEW_RECORDS << 56 | tokens;
            const size_t written = enough ? tokens : 0;
            int by_book;
            for (by_book = 0; by_book < 2; by_book++) {
                memset(first, 1, 1000);
                memset(first_masks, 1, 1000);
                HOLDS(answer == (by_book ? zgv_lex(BOOK, text, length, first, r, first_masks, m)
                                         : zgv_lex_builtin(text, length, first, r, first_masks, m)));
                HOLDS(memcmp(first, second, written * ZGV_RECORD_BYTES) == 0 && is_painted(first, written * ZGV_RECORD_BYTES, 1000));
                HOLDS(memcmp(first_masks, second_masks, written * ZGV_MASK_BYTES) == 0);
                HOLDS(is_painted(first_masks, written * ZGV_MASK_BYTES, 1000));
            }
        }
}

/* Masks are written by none of the other refusals, and not asked for where there is no token. */
static void mask_refusals(void)
{
    static const uint8_t too_long[ZGV_TEXT_BYTES + 1] = {0};
    const uint8_t *stray = (const uint8_t *)"\roh";
    uint64_t answer;
    paint();
    answer = zgv_lex(BOOK, too_long, sizeof too_long, FIRST);
    HOLDS(answer == (uint64_t)ZGV_TEXT_TOO_LONG << 56 && zgv_lex_builtin(too_long, sizeof too_long, FIRST) == answer);
    HOLDS(zgv_lex(stray, 3, stray, 3, FIRST) == (uint64_t)ZGV_MISPLACED << 56);
    HOLDS(are_alike());
    HOLDS(zgv_lex(BOOK, stray, 3, NULL, 0, NULL, 0) == 0 && zgv_lex_builtin(stray, 3, NULL, 0, NULL, 0) == 0);
    HOLDS(zgv_lex(BOOK, stray, 3, FIRST) == 0 && zgv_lex_builtin(stray, 3, FIRST) == 0 && are_alike());
    HOLDS(zgv_lex_builtin(stray + 1, 2, first, sizeof first, NULL, 0) == ((uint64_t)ZGV_TOO_FEW_RECORDS << 56 | 1));
    HOLDS(zgv_lex_builtin(stray + 1, 2, NULL, 0, first_masks, sizeof first_masks) == ((uint64_t)ZGV_TOO_FEW_RECORDS << 56 | 1));
    HOLDS(are_alike());
}

/* What a turn answers and lends back. */
typedef struct turn {
    uint64_t answer, next, examined;
} turn;

/* The numbers that are lent before a turn: no turn of these texts gives them. */
enum { NEXT_BEFORE = 1000001, EXAMINED_BEFORE = 1000002 };

static turn turn_by(const uint8_t *book, size_t book_len, const uint8_t *text, size_t length, size_t place, uint64_t budget)
{
    turn t = {0, NEXT_BEFORE, EXAMINED_BEFORE};
    t.answer = zgv_lex_within(book, book_len, text, length, place, budget, FIRST, &t.next, &t.examined);
    return t;
}

static int is_turn(turn t, size_t tokens, unsigned stopped, size_t next, size_t examined)
{
    return t.answer == ((uint64_t)tokens << 28 | stopped) && t.next == next && t.examined == examined;
}

/* A refusal, at this place; nothing of what is lent is changed. */
static int is_refused(turn t, unsigned number, size_t place)
{
    return t.answer == ((uint64_t)number << 56 | place) && t.next == NEXT_BEFORE && t.examined == EXAMINED_BEFORE && are_alike();
}

/* Turns of every budget up to the one that finishes, over texts of which the reaches are known. By the built-in book: a word is known to
   end at the byte behind it, and at the text's end; a time stamp that breaks off is walked to where it does, and its bracket is a token. */
static void turn_budgets(void)
{
    static const struct {
        const char *text;
        size_t tokens, rest, lengths[8], reaches[8]; /* the last reach is that of the rest */
    } tries[] = {{"oh no", 3, 5, {2, 1, 2}, {3, 2, 2, 0}},
                 {"[00:1x", 2, 6, {1, 5}, {6, 5, 0}},
                 {"[00:12.50][", 2, 11, {10, 1}, {11, 1, 0}},
                 {"[]\n\n", 4, 4, {1, 1, 1, 1}, {2, 2, 2, 1, 0}},
                 {"oh\rno", 1, 2, {2}, {3, 1}},
                 {"\r", 0, 0, {0}, {1}},
                 {"", 0, 0, {0}, {0}}};
    size_t i, from, budget;
    for (i = 0; i < sizeof tries / sizeof tries[0]; i++)
        for (from = 0; from <= tries[i].tokens; from++) {
            const uint8_t *text = (const uint8_t *)tries[i].text;
            unsigned stopped = ZGV_SPENT;
            size_t place = 0, k;
            for (k = 0; k < from; k++)
                place += tries[i].lengths[k];
            for (budget = 0; stopped == ZGV_SPENT; budget++) {
                size_t paid = 0, next = place;
                for (k = from; k < tries[i].tokens && paid + tries[i].reaches[k] <= budget; k++) {
                    paid += tries[i].reaches[k];
                    next += tries[i].lengths[k];
                }
                if (k == tries[i].tokens && paid + tries[i].reaches[k] <= budget) {
                    stopped = ZGV_FINISHED;
                    paid += tries[i].reaches[k];
                    HOLDS(next == tries[i].rest);
                }
                HOLDS(is_turn(turn_by(BOOK, text, strlen(tries[i].text), place, budget), k - from, stopped, next, paid));
            }
        }
}

/* Reaches by books that are made for it, without a token at the end: of 0 where all rules start in error, over a state that is not the
   error state though nothing leaves it, into the error state by a move, and to the text's end where a rule never errs. */
static void turn_reaches(void)
{
    static const uint8_t in_error[] = {1, 0, 1, 0, 2, 7, 3, 7, 7, 1, 0, 2, 0, 2, 0, 3, 0, 4, 1, 6, 1, 'a', 'a', 1, 7, 8},
                         one_not[] = {1, 0, 1, 0, 2, 7, 3, 7, 7, 1, 0, 2, 0, 2, 0, 3, 9, 7, 8},
                         stuck[] = {1, 0, 1, 0, 2, 0, 3, 9, 6, 0, 'a', 'a', 5, 7, 8},
                         to_error[] = {1, 0, 1, 0, 2, 0, 3, 9, 6, 0, 'a', 'a', 9, 7, 8},
                         never[] = {1, 0, 1, 0, 2, 0, 3, 9, 6, 0, 0, 255, 0, 7, 8},
                         far[] = {1, 0, 1, 0, 2, 0, 3, 9, 4, 1, 4, 3, 6, 0, 'a', 'a', 1, 6, 1, 'a', 'a', 2, 6, 1, 'b', 'b', 3,
                                  6, 2, 'a', 'a', 2, 6, 2, 'b', 'b', 3, 7, 8};
    const uint8_t *text = (const uint8_t *)"aaaa";
    size_t place, budget;
    for (place = 0; place <= 4; place++)
        for (budget = 0; budget < 12; budget++) {
            const size_t left = 4 - place, stuck_reach = left < 2 ? left : 2, one = left < 1 ? left : 1;
            size_t tokens = 0, paid = 0;
            HOLDS(is_turn(turn_by(in_error, sizeof in_error, text, 4, place, budget), 0, 1, place, 0));
            HOLDS(is_turn(turn_by(one_not, sizeof one_not, text, 4, place, budget), 0, budget >= one, place, budget >= one ? one : 0));
            HOLDS(is_turn(turn_by(stuck, sizeof stuck, text, 4, place, budget), 0, budget >= stuck_reach, place,
                          budget >= stuck_reach ? stuck_reach : 0));
            HOLDS(is_turn(turn_by(to_error, sizeof to_error, text, 4, place, budget), 0, budget >= one, place, budget >= one ? one : 0));
            HOLDS(is_turn(turn_by(never, sizeof never, text, 4, place, budget), 0, budget >= left, place, budget >= left ? left : 0));
            while (tokens < left && paid + left - tokens <= budget)
                paid += left - tokens++;
            HOLDS(is_turn(turn_by(far, sizeof far, text, 4, place, budget), tokens, tokens == left, place + tokens, paid));
        }
}

/* Turns over the sheet that cuts() has read, from its tokens: the reach of each is its length and a byte behind it, but of the last. No
   byte past the budget plays a part, and none before the place. */
static void turn_looks(void)
{
    static uint8_t other[ZGV_TEXT_BYTES];
    const size_t length = strlen((const char *)sheet), tokens = zgv_first(zgv_lex(BOOK, sheet, length, SECOND));
    size_t i, k, budget;
    for (i = 0; i < tokens; i += 3) {
        const size_t place = zgv_get_record(second, i).place;
        for (budget = 0; budget < 100; budget++) {
            size_t paid = 0, next = place;
            turn t, altered;
            for (k = i; k < tokens; k++) {
                const size_t end = next + zgv_get_record(second, k).length, reach = end - next + (end < length);
                if (budget - paid < reach)
                    break;
                paid += reach;
                next = end;
            }
            t = turn_by(BOOK, sheet, length, place, budget);
            HOLDS(is_turn(t, k - i, k == tokens ? ZGV_FINISHED : ZGV_SPENT, next, paid));
            HOLDS(memcmp(first, second + i * ZGV_RECORD_BYTES, (k - i) * ZGV_RECORD_BYTES) == 0);
            HOLDS(memcmp(first_masks, second_masks + i * ZGV_MASK_BYTES, (k - i) * ZGV_MASK_BYTES) == 0);
            memcpy(other, sheet, length);
            if (place + budget < length)
                memset(other + place + budget, i % 2 ? '\r' : 'x', length - place - budget);
            memset(other, '[', place);
            altered = turn_by(BOOK, other, length, place, budget);
            HOLDS(memcmp(&t, &altered, sizeof t) == 0);
            HOLDS(memcmp(first, second + i * ZGV_RECORD_BYTES, (k - i) * ZGV_RECORD_BYTES) == 0);
        }
    }
}

/* Turns of a budget from place 0 to the finish, the next of twice as much where one has no token, store in parts what one cut stores. */
static void turn_by_turn(const uint8_t *book, size_t book_len, const uint8_t *text, size_t length, uint64_t budget)
{
    uint64_t answer, next = 0, examined = 0, allowed = budget;
    size_t tokens = 0;
    paint();
    do {
        answer = zgv_lex_within(book, book_len, text, length, (size_t)next, allowed, first + tokens * ZGV_RECORD_BYTES,
                                sizeof first - tokens * ZGV_RECORD_BYTES, first_masks + tokens * ZGV_MASK_BYTES,
                                sizeof first_masks - tokens * ZGV_MASK_BYTES, &next, &examined);
        HOLDS(zgv_number(answer) == ZGV_ACCEPTED && zgv_first(answer) <= examined && examined <= allowed);
        allowed = zgv_first(answer) > 0 ? budget : 2 * allowed;
        tokens += zgv_first(answer);
    } while (zgv_second(answer) == ZGV_SPENT);
    HOLDS(zgv_second(answer) == ZGV_FINISHED);
    HOLDS(zgv_lex(book, book_len, text, length, SECOND) == ((uint64_t)tokens << 28 | next) && are_alike());
}

static void turns_together(void)
{
    static const uint64_t budgets[] = {1, 2, 7, 64, 1000, 65536, (uint64_t)1 << 63};
    const size_t length = strlen((const char *)sheet);
    size_t i;
    made_len = 0;
    add_rule(1, 'a', 'c', 0);
    add_rule(2, 'a', 'c', 1);
    add_rule(3, 'b', 'z', 1);
    add_rule(4, '-', '-', 0);
    end_book();
    for (i = 0; i < sizeof budgets / sizeof budgets[0]; i++) {
        turn_by_turn(BOOK, sheet, length, budgets[i]);
        turn_by_turn(BOOK, (const uint8_t *)"oh\rno", 5, budgets[i]);
        turn_by_turn(BOOK, NULL, 0, budgets[i]);
        turn_by_turn(made, made_len, (const uint8_t *)"cb-a-b-d-abc-bcd", 16, budgets[i]);
        HOLDS(zgv_get_mask(first_masks, 0) == 6 && zgv_get_mask(first_masks, 2) == 3 && zgv_get_mask(first_masks, 4) == 7);
    }
}

/* Every room for records and for masks, of a turn of three tokens: 15, and nothing is written, or just these three. */
static void turn_rooms(void)
{
    static const uint8_t text[] = "oh no [yes\n]";
    size_t r, m;
    paint();
    HOLDS(zgv_lex(BOOK, text + 3, sizeof text - 4, SECOND) != 0);
    for (r = 0; r <= 5 * ZGV_RECORD_BYTES; r++)
        for (m = 0; m <= 5 * ZGV_MASK_BYTES; m++) {
            const size_t written = r >= 3 * ZGV_RECORD_BYTES && m >= 3 * ZGV_MASK_BYTES ? 3 : 0;
            turn t = {0, NEXT_BEFORE, EXAMINED_BEFORE};
            size_t i;
            memset(first, 1, 1000);
            memset(first_masks, 1, 1000);
            t.answer = zgv_lex_within(BOOK, text, sizeof text - 1, 3, 8, first, r, first_masks, m, &t.next, &t.examined);
            HOLDS(is_painted(first, written * ZGV_RECORD_BYTES, 1000) && is_painted(first_masks, written * ZGV_MASK_BYTES, 1000));
            if (written == 0) {
                HOLDS(t.answer == ((uint64_t)ZGV_TOO_FEW_RECORDS << 56 | 3) && t.next == NEXT_BEFORE && t.examined == EXAMINED_BEFORE);
                continue;
            }
            HOLDS(is_turn(t, 3, ZGV_SPENT, 7, 7) && memcmp(first_masks, second_masks, 3 * ZGV_MASK_BYTES) == 0);
            for (i = 0; i < 3; i++) {
                const zgv_token a = zgv_get_record(first, i), b = zgv_get_record(second, i);
                HOLDS(a.tag == b.tag && a.place == b.place + 3 && a.length == b.length);
            }
        }
}

/* The book's numbers stand before 14, 14 before 27 and 27 before 15. */
static void turn_refusals(void)
{
    static const uint8_t too_long[ZGV_TEXT_BYTES + 1] = {0}, no_book[] = {7};
    static const size_t past[] = {4, 5, 65536, 65537, (size_t)1 << 32, (size_t)-1};
    const uint8_t *text = (const uint8_t *)"ohx";
    turn t = {0, NEXT_BEFORE, EXAMINED_BEFORE};
    size_t i;
    paint();
    HOLDS(is_refused(turn_by(no_book, 1, too_long, sizeof too_long, (size_t)-1, 0), ZGV_MISPLACED, 0));
    HOLDS(is_refused(turn_by(zgv_builtin_book, 167, text, 3, 4, 9), ZGV_CUT_OFF, 167));
    HOLDS(is_refused(turn_by(BOOK, too_long, sizeof too_long, 0, 9), ZGV_TEXT_TOO_LONG, 0));
    HOLDS(is_refused(turn_by(BOOK, too_long, sizeof too_long, (size_t)-1, 9), ZGV_TEXT_TOO_LONG, 0));
    for (i = 0; i < sizeof past / sizeof past[0]; i++) {
        HOLDS(is_refused(turn_by(BOOK, text, 3, past[i], i), ZGV_PAST_THE_TEXT, 0));
        t.answer = zgv_lex_within(BOOK, text, 3, past[i], 9, NULL, 0, NULL, 0, &t.next, &t.examined);
        HOLDS(is_refused(t, ZGV_PAST_THE_TEXT, 0));
    }
    t.answer = zgv_lex_within(BOOK, text, 3, 0, 9, NULL, 0, NULL, 0, &t.next, &t.examined);
    HOLDS(is_refused(t, ZGV_TOO_FEW_RECORDS, 1));
    t.answer = zgv_lex_within(BOOK, text, 3, 0, 2, NULL, 0, NULL, 0, &t.next, &t.examined);
    HOLDS(is_turn(t, 0, ZGV_SPENT, 0, 0) && are_alike());
    HOLDS(is_turn(turn_by(BOOK, text, 3, 3, 0), 0, ZGV_FINISHED, 3, 0) && are_alike());
    HOLDS(is_turn(turn_by(BOOK, NULL, 0, 0, 0), 0, ZGV_FINISHED, 0, 0) && are_alike());
    HOLDS(is_turn(turn_by(BOOK, too_long, ZGV_TEXT_BYTES, ZGV_TEXT_BYTES - 1, 1), 0, ZGV_FINISHED, ZGV_TEXT_BYTES - 1, 1));
}

/* The built-in book has STEPs; rewritten it has none, and cuts the sheet that cuts() has read as before. */
static void rewriting(void)
{
    static uint8_t spans[ZGV_BOOK_BYTES], again[ZGV_BOOK_BYTES];
    size_t length = strlen((const char *)sheet), needed, i;
    uint64_t answer = zgv_read_book_strict(BOOK);
    HOLDS(zgv_number(answer) == ZGV_RETIRED && zgv_place(answer) == 10 && zgv_builtin_book[10] == 5);
    answer = zgv_rewrite_book(BOOK, NULL, 0);
    needed = (size_t)zgv_place(answer);
    HOLDS(zgv_number(answer) == ZGV_OUTPUT_TOO_SHORT && needed > sizeof zgv_builtin_book);
    memset(spans, 0xC7, sizeof spans);
    HOLDS(zgv_rewrite_book(BOOK, spans, needed - 1) == answer);
    for (i = 0; i < sizeof spans; i++)
        HOLDS(spans[i] == 0xC7);
    HOLDS(zgv_rewrite_book(BOOK, spans, sizeof spans) == (uint64_t)needed << 28);
    for (i = needed; i < sizeof spans; i++)
        HOLDS(spans[i] == 0xC7);
    HOLDS(zgv_read_book_strict(spans, needed) == zgv_read_book(BOOK) && zgv_read_book(spans, needed) == zgv_read_book(BOOK));
    HOLDS(zgv_rewrite_book(spans, needed, again, needed) == (uint64_t)needed << 28 && memcmp(spans, again, needed) == 0);
    for (i = 0; i <= 5; i++)
        HOLDS(zgv_rule(spans, needed, (uint32_t)i) == zgv_rule(BOOK, (uint32_t)i));
    paint();
    answer = zgv_lex(BOOK, sheet, length, FIRST);
    HOLDS(zgv_first(answer) > 100 && zgv_lex(spans, needed, sheet, length, SECOND) == answer && are_alike());
}

/* At a STEP 33 stands after 3 and before the others; of a book without one both readings answer alike. */
static void strictly(void)
{
    static const uint8_t outside[] = {5, 0, 'a', 1}, cut_off[] = {1, 0, 1, 0, 5, 0}, spare[] = {1, 0, 1, 0, 2, 0, 2, 0, 5, 0, 'a', 1};
    HOLDS(zgv_read_book_strict(outside, sizeof outside) == (uint64_t)ZGV_MISPLACED << 56);
    HOLDS(zgv_read_book_strict(cut_off, sizeof cut_off) == ((uint64_t)ZGV_RETIRED << 56 | 4));
    HOLDS(zgv_read_book(cut_off, sizeof cut_off) == ((uint64_t)ZGV_CUT_OFF << 56 | 4));
    HOLDS(zgv_read_book_strict(spare, sizeof spare) == ((uint64_t)ZGV_TWICE_OR_MISSING << 56 | 6));
    HOLDS(zgv_read_book_strict(NULL, 0) == zgv_read_book(NULL, 0) && zgv_rewrite_book(NULL, 0, NULL, 0) == zgv_read_book(NULL, 0));
}

/* Where rules of expressions are written; a call that should write nothing must leave it painted. */
static uint8_t compiled[ZGV_REGEX_OUTPUT];

static uint64_t compile(const char *expression)
{
    memset(compiled, 1, sizeof compiled);
    return zgv_compile(1, ZGV_KIND_PLAIN, (const uint8_t *)expression, strlen(expression), compiled, sizeof compiled);
}

static int compiles_not(const char *expression, unsigned number, size_t place)
{
    return compile(expression) == ((uint64_t)number << 56 | place) && is_painted(compiled, 0, sizeof compiled);
}

/* What is answered of a book of the expression's rule alone. */
static unsigned read_alone(const char *expression, uint64_t *place)
{
    const uint64_t answer = compile(expression);
    uint64_t read;
    HOLDS(zgv_number(answer) == ZGV_ACCEPTED && zgv_second(answer) == 0 && compiled[zgv_first(answer) - 1] == 7);
    compiled[zgv_first(answer)] = 8;
    read = zgv_read_book(compiled, (size_t)zgv_first(answer) + 1);
    HOLDS(zgv_number(read) != ZGV_ACCEPTED || zgv_read_book_strict(compiled, (size_t)zgv_first(answer) + 1) == read);
    *place = zgv_place(read);
    return zgv_number(read);
}

/* Rules byte for byte, for every room up to more than they need: 22 and nothing written, or the rule and nothing behind it. */
static void compiling(void)
{
    static const struct {
        const char *expression;
        uint16_t tag;
        uint32_t kind;
        size_t length;
        const char *rule;
    } tries[] = {
        {"a", 1, 0, 16, "\1\0\1\0\2\0\3\377\4\1\6\0aa\1\7"},
        {"[ \t]+", 0x8034, 1, 31, "\1\200\64\1\2\0\3\377\4\1\6\0\t\t\1\6\0  \1\6\1\t\t\1\6\1  \1\7"},
        {"(b|a)c", 2, 0, 31,
         "\1\0\2\0\2\0\3\377\4\3\6\0aa\1\6\0bb\2\6\1cc\3\6\2cc\3\7"},
        {"ab|c", 2, 0, 28, "\1\0\2\0\2\0\3\377\4\2\4\3\6\0aa\1\6\0cc\2\6\1bb\3\7"},
        {"a*", 9, 0, 23, "\1\0\11\0\2\0\3\377\4\0\4\1\6\0aa\1\6\1aa\1\7"},
        {"\\..?", 7, 0, 28,
         "\1\0\7\0\2\0\3\377\4\1\4\2\6\0..\1\6\1\1\11\2\6\1\13\377\2\7"},
    };
    size_t i, room;
    for (i = 0; i < sizeof tries / sizeof tries[0]; i++) {
        const uint8_t *expression = (const uint8_t *)tries[i].expression;
        const size_t length = strlen(tries[i].expression);
        const size_t needed = tries[i].length;
        HOLDS(zgv_compile(tries[i].tag, tries[i].kind, expression, length, NULL, 0) == ((uint64_t)ZGV_OUTPUT_TOO_SHORT << 56 | needed));
        for (room = 0; room < needed + 20; room++) {
            uint64_t answer;
            memset(compiled, 1, 1000);
            answer = zgv_compile(tries[i].tag, tries[i].kind, expression, length, compiled, room);
            if (room < needed) {
                HOLDS(answer == ((uint64_t)ZGV_OUTPUT_TOO_SHORT << 56 | needed) && is_painted(compiled, 0, 1000));
                continue;
            }
            HOLDS(answer == (uint64_t)needed << 28 && is_painted(compiled, needed, 1000));
            HOLDS(memcmp(compiled, tries[i].rule, needed) == 0);
        }
    }
}

/* Each place of 30 that the header names, and at each kind of byte that may not stand. */
static void no_expressions(void)
{
    static const struct {
        const char *expression;
        size_t place;
    } tries[] = {{"", 0},       {"a**", 2},   {"[b-a]", 3}, {"()", 1},   {"a|", 2},     {"(a", 2},    {"[a-]", 3}, {"[a-c-d]", 4},
                 {"|a", 0},     {"a||b", 2},  {")", 0},     {"a)", 1},   {"^a", 0},     {"a$", 1},    {"a{2}", 1}, {"*a", 0},
                 {"(*a)", 1},   {"a+?", 2},   {"[]", 1},    {"[^a]", 1}, {"[a\\]", 2},  {"[[:alpha:]]", 1},       {"[-a]", 1},
                 {"[a", 2},     {"[a-", 3},   {"[", 1},     {"\\", 1},   {"\\n", 1},    {"a\\]", 2},  {"(a|)", 3}, {"((a)", 4}};
    static const char ordinary[] = "]}-,#/ \t\n\r\177\377ab\"'&%!<>=~_:;@`";
    size_t i;
    for (i = 0; i < sizeof tries / sizeof tries[0]; i++)
        HOLDS(compiles_not(tries[i].expression, ZGV_NO_EXPRESSION, tries[i].place));
    HOLDS(zgv_compile(1, 0, (const uint8_t *)"a\0b", 3, compiled, sizeof compiled) == ((uint64_t)ZGV_NO_EXPRESSION << 56 | 1));
    for (i = 0; ordinary[i] != '\0'; i++) {
        const char one[] = {ordinary[i], '\0'};
        HOLDS(zgv_first(compile(one)) == 16 && compiled[12] == (uint8_t)ordinary[i] && compiled[13] == (uint8_t)ordinary[i]);
    }
}

/* `count` copies of a text between two others. */
static const char *copies(const char *before, const char *text, size_t count, const char *after)
{
    static char made_text[2000];
    HOLDS(strlen(before) + count * strlen(text) + strlen(after) < sizeof made_text);
    strcpy(made_text, before);
    while (count-- > 0)
        strcat(made_text, text);
    return strcat(made_text, after);
}

/* The edges of 31 and 32, and which number comes first. */
static void large_expressions(void)
{
    char nested[2 * ZGV_REGEX_DEPTH + 4];
    const char *doubling = ".*[ac]"; /* with n periods behind it, 2^(n + 1) sets */
    const char *sets_224 = "[ab]*a[ab][ab][ab][ab][ab][ab]|[cd]*c[cd][cd][cd][cd][cd]|[ef]*e[ef][ef][ef][ef]|";
    HOLDS(zgv_number(compile(copies("", "a", ZGV_REGEX_POSITIONS, ""))) == ZGV_ACCEPTED);
    HOLDS(compiles_not(copies("", "a", ZGV_REGEX_POSITIONS + 1, ""), ZGV_LARGE_EXPRESSION, 0));
    HOLDS(compiles_not(copies("", "a", ZGV_REGEX_BYTES, ""), ZGV_LARGE_EXPRESSION, 0));
    HOLDS(compiles_not(copies("", "a", ZGV_REGEX_BYTES - 1, "("), ZGV_NO_EXPRESSION, ZGV_REGEX_BYTES));
    HOLDS(compiles_not(copies("", "a", ZGV_REGEX_BYTES, "("), ZGV_LARGE_EXPRESSION, 0));
    HOLDS(zgv_number(compile(copies("[", "a-c", (ZGV_REGEX_BYTES - 2) / 3, "]"))) == ZGV_ACCEPTED);
    memset(nested, '(', sizeof nested);
    strcpy(nested + ZGV_REGEX_DEPTH, "a))))))))))))))))");
    HOLDS(zgv_number(compile(nested)) == ZGV_ACCEPTED);
    memset(nested, '(', sizeof nested);
    strcpy(nested + ZGV_REGEX_DEPTH + 1, "a)))))))))))))))))");
    HOLDS(strlen(nested) == 2 * ZGV_REGEX_DEPTH + 3 && compiles_not(nested, ZGV_LARGE_EXPRESSION, 0));
    HOLDS(compiles_not(copies("", "(", 300, "*"), ZGV_NO_EXPRESSION, 300));
    HOLDS(zgv_number(compile(copies(doubling, ".", 6, ""))) == ZGV_ACCEPTED);
    HOLDS(compiles_not(copies(doubling, ".", 7, ""), ZGV_TOO_MANY_SETS, 0));
    HOLDS(compiles_not(copies(doubling, ".", 63, ""), ZGV_LARGE_EXPRESSION, 0));
    HOLDS(zgv_number(compile(copies(sets_224, "x", ZGV_REGEX_SETS - 224, ""))) == ZGV_ACCEPTED);
    HOLDS(compiles_not(copies(sets_224, "x", ZGV_REGEX_SETS - 223, ""), ZGV_TOO_MANY_SETS, 0));
    HOLDS(zgv_number(zgv_compile(1, 0, (const uint8_t *)".*a.......", 10, NULL, 0)) == ZGV_TOO_MANY_SETS);
}

/* 6 before all others; what a book with the rule alone answers: accepted, 12 and 5. */
static void compiled_alone(void)
{
    static char odd[ZGV_REGEX_BYTES];
    uint64_t place;
    size_t length = 0;
    unsigned byte;
    HOLDS(zgv_compile(0, 0, NULL, 0, NULL, 0) == (uint64_t)ZGV_OUT_OF_RANGE << 56);
    HOLDS(zgv_compile(1, 2, sheet, ZGV_REGEX_BYTES + 1, NULL, 0) == (uint64_t)ZGV_OUT_OF_RANGE << 56);
    HOLDS(zgv_compile(1, 0xFFFFFFFF, (const uint8_t *)"a", 1, NULL, 0) == (uint64_t)ZGV_OUT_OF_RANGE << 56);
    HOLDS(zgv_compile(1, 1, NULL, 0, NULL, 0) == (uint64_t)ZGV_NO_EXPRESSION << 56);
    HOLDS(read_alone("(a|bc)*d", &place) == ZGV_ACCEPTED);
    HOLDS(read_alone("(a|bc)*", &place) == ZGV_START_FINAL && compiled[place] == 7);
    HOLDS(read_alone("a?b?", &place) == ZGV_START_FINAL && compiled[place] == 7);
    /* moves at nearly every byte, from each of 17 states, and from each of 129 */
    strcpy(odd, ".*[");
    for (byte = 1; byte < 256; byte += 2)
        if (strchr("][-", (int)byte) == NULL)
            odd[length++ + 3] = (char)byte;
    strcpy(odd + 3 + length, "]...");
    HOLDS(read_alone(odd, &place) == ZGV_TOO_MANY && compiled[place] == 6);
    strcat(odd, "...");
    HOLDS(read_alone(odd, &place) == ZGV_BOOK_TOO_LONG && place == 0);
}

/* Empty buffers may be NULL; 15 says how many records and masks are needed, 22 how many bytes. */
static void empty(void)
{
    const uint8_t *text = (const uint8_t *)"oh no";
    uint64_t answer;
    HOLDS(zgv_number(zgv_read_book(NULL, 0)) == ZGV_CUT_OFF);
    HOLDS(zgv_lex(BOOK, NULL, 0, NULL, 0, NULL, 0) == 0 && zgv_lex_builtin(NULL, 0, NULL, 0, NULL, 0) == 0);
    HOLDS(zgv_print(BOOK, NULL, 0, NULL, 0, NULL, 0) == 0);
    answer = zgv_lex_builtin(text, 5, NULL, 0, NULL, 0);
    HOLDS(zgv_number(answer) == ZGV_TOO_FEW_RECORDS && zgv_place(answer) == 3);
    HOLDS(zgv_lex_builtin(text, 5, first, 3 * ZGV_RECORD_BYTES, first_masks, 3 * ZGV_MASK_BYTES) == ((uint64_t)3 << 28 | 5));
    answer = zgv_print(BOOK, first, 3 * ZGV_RECORD_BYTES, text, 5, NULL, 0);
    HOLDS(zgv_number(answer) == ZGV_OUTPUT_TOO_SHORT && zgv_place(answer) == 5);
    answer = zgv_print_separated(BOOK, 3, 2, 1, ZGV_MODE_ALL, NULL, 0, text, 5, NULL, 0);
    HOLDS(answer == 0);
}

/* Whether "oh", "[" and "no", with blanks to separate by, are written in a mode as this text. */
static int is_written(uint32_t mode, const char *text)
{
    static const zgv_token list[3] = {{2, 0, 2}, {5, 2, 1}, {2, 3, 2}};
    uint64_t answer;
    size_t i;
    for (i = 0; i < 3; i++)
        zgv_put_record(first, i, list[i]);
    answer = zgv_print_separated(BOOK, 3, 5, 1, mode, first, 3 * ZGV_RECORD_BYTES, (const uint8_t *)"oh[no ", 6, out, sizeof out);
    return answer == (uint64_t)strlen(text) << 28 && memcmp(out, text, strlen(text)) == 0;
}

static void modes(void)
{
    HOLDS(is_written(ZGV_MODE_ALL, "oh [ no"));
    HOLDS(is_written(ZGV_MODE_SPARE, "oh[no"));
    HOLDS(is_written(ZGV_MODE_DEFAULT, "oh[no"));
}

int main(int argc, char **argv)
{
    HOLDS(argc == 2);
    versions();
    texts();
    book(argv[1]);
    cuts();
    rewriting();
    strictly();
    compiling();
    no_expressions();
    large_expressions();
    compiled_alone();
    records();
    mask_bits();
    mask_ends();
    mask_rooms();
    mask_refusals();
    turn_budgets();
    turn_reaches();
    turn_looks();
    turns_together();
    turn_rooms();
    turn_refusals();
    empty();
    modes();
    return 0;
}
