/*
 * bench.c - times of the library beside other lexers, in one run
 *
 * Contenders of a table are measured in turns, several rounds; the best round of each counts. Ratios are times divided by
 * that of the table's first line. The output is a page of tables.
 *
 * The library stores a record and a mask of each token, the other lexers records alone.
 */
#define _XOPEN_SOURCE 600

#include "books.h"
#include "chains.h"
#include "dense.h"
#include "zagvulem.h"
#include "generated.h"

#include <stdio.h>
#include <stdlib.h>
#include <string.h>
#include <sys/resource.h>
#include <time.h>

enum { ROUNDS = 80, SHEET = 65536, LINE = 30, LINES = 512, MAX_CONTENDERS = 128 };

static uint8_t *sheet;      /* a timed lyric sheet, with two zero bytes behind it */
static size_t sheet_len;
static uint8_t *records;    /* room for a record of every byte */
static uint8_t *masks;      /* and for a mask */
static uint8_t *out;
static uint8_t book[ZGV_BOOK_BYTES];
static size_t book_len;
static dense *table;
static volatile uint64_t sink;

/* Processor time of this program, so that what else the machine does counts less. */
static double now(void)
{
    struct timespec t;
    clock_gettime(CLOCK_PROCESS_CPUTIME_ID, &t);
    return (double)t.tv_sec + 1e-9 * (double)t.tv_nsec;
}

static void fail(const char *why)
{
    fprintf(stderr, "bench: %s\n", why);
    exit(EXIT_FAILURE);
}

/* One contender: what is run, how many bytes that handles, its best time so far. */
typedef struct contender {
    const char *name;
    void (*run)(void);
    double bytes, best;
} contender;

/* The best times of `count` runs, in turns. A turn runs long enough for the clock. */
static void measure_each(void (*run)(size_t), size_t count, double *best)
{
    size_t repeat[MAX_CONTENDERS], i;
    int round;
    if (count > MAX_CONTENDERS)
        fail("too many contenders");
    for (i = 0; i < count; i++) {
        double begin = now(), spent;
        run(i);
        spent = now() - begin;
        repeat[i] = spent > 0.002 ? 1 : (size_t)(0.002 / (spent + 1e-8)) + 1;
        best[i] = 1e9;
    }
    for (round = 0; round < ROUNDS; round++)
        for (i = 0; i < count; i++) {
            size_t n;
            double begin = now(), spent;
            for (n = 0; n < repeat[i]; n++)
                run(i);
            spent = (now() - begin) / (double)repeat[i];
            if (spent < best[i])
                best[i] = spent;
        }
}

static const contender *measured;
static void run_measured(size_t i) { measured[i].run(); }

/* Times of the contenders. */
static void measure(contender *all, size_t count)
{
    double best[MAX_CONTENDERS];
    size_t i;
    measured = all;
    measure_each(run_measured, count, best);
    for (i = 0; i < count; i++)
        all[i].best = best[i];
}

static void print_table(const char *title, contender *all, size_t count, double calls)
{
    size_t i;
    measure(all, count);
    printf("\n%s\n\n| | µs a call | MB/s | time, first line = 1 |\n|---|---:|---:|---:|\n", title);
    for (i = 0; i < count; i++)
        printf("| %s | %.2f | %.0f | %.2f |\n", all[i].name, all[i].best * 1e6 / calls, all[i].bytes / all[i].best / 1e6,
               all[i].best / all[0].best);
}

/* ---- Inputs */

static uint32_t seed = 1;

static uint32_t draw(uint32_t below)
{
    seed = seed * 1664525u + 1013904223u;
    return (seed >> 8) % below;
}

static void make_sheet(void)
{
    static const char *const words[] = {"lamps", "along", "the", "harbour", "wall", "count", "boats", "that", "come", "and",
                                        "go", "one", "for", "every", "evening", "bell", "rain", "has", "drawn", "a",
                                        "silver", "line", "caf\xC3\xA9", "quay", "hey,", "slow", "(again)", "oh"};
    char line[256];
    unsigned time = 400;
    for (;;) {
        int n = sprintf(line, "[%02u:%02u.%02u]", time / 6000 % 100, time / 100 % 60, time % 100);
        uint32_t i, count = 4 + draw(5);
        for (i = 0; i < count; i++)
            n += sprintf(line + n, i == 0 ? "%s" : " %s", words[draw(sizeof words / sizeof words[0])]);
        n += sprintf(line + n, "\n");
        if (sheet_len + (size_t)n > SHEET)
            return;
        memcpy(sheet + sheet_len, line, (size_t)n);
        sheet_len += (size_t)n;
        time += 250 + draw(300);
    }
}

/* Lines of 30 bytes, each with two zero bytes behind it. */
static uint8_t lines[LINES][LINE + 2];

static void make_lines(void)
{
    static const char *const ends[] = {"one for every bells", "the boats of papers", "count them slow hey", "all the water falls"};
    size_t i;
    for (i = 0; i < LINES; i++) {
        char line[64];
        int n = sprintf(line, "[%02u:%02u.%02u]%s\n", (unsigned)draw(60), (unsigned)draw(60), (unsigned)draw(100), ends[draw(4)]);
        if (n != LINE)
            fail("a line is not 30 bytes long");
        memcpy(lines[i], line, LINE);
    }
}

static void read_builtin(const char *name)
{
    FILE *file = fopen(name, "rb");
    if (file == NULL)
        fail("the book cannot be opened");
    book_len = fread(book, 1, sizeof book, file);
    fclose(file);
}

/* ---- Lexing the sheet and the lines */

#define ROOM (SHEET * ZGV_RECORD_BYTES)
#define MASK_ROOM (SHEET * ZGV_MASK_BYTES)

static void sheet_zgv(void) { sink = zgv_lex(book, book_len, sheet, sheet_len, records, ROOM, masks, MASK_ROOM); }
static void sheet_builtin(void) { sink = zgv_lex_builtin(sheet, sheet_len, records, ROOM, masks, MASK_ROOM); }
static void sheet_chains(void) { sink = chains_lex(book, book_len, sheet, sheet_len, records, ROOM); }
static void sheet_dense(void) { sink = dense_lex(table, sheet, sheet_len, records); }

/* Fewer records than bytes, though enough: the library counts before it stores. */
#define FEWER (SHEET / 2 * ZGV_RECORD_BYTES)
static void sheet_counted(void) { sink = zgv_lex(book, book_len, sheet, sheet_len, records, FEWER, masks, MASK_ROOM); }
static void sheet_builtin_counted(void) { sink = zgv_lex_builtin(sheet, sheet_len, records, FEWER, masks, MASK_ROOM); }

/* The sheet in turns of a budget, by `turns` calls; the answer is that of one cut. */
static size_t turns;

static void sheet_in_turns(uint64_t budget)
{
    uint64_t answer, next = 0, examined;
    size_t tokens = 0;
    turns = 0;
    do {
        answer = zgv_lex_within(book, book_len, sheet, sheet_len, (size_t)next, budget, records + tokens * ZGV_RECORD_BYTES,
                                ROOM - tokens * ZGV_RECORD_BYTES, masks + tokens * ZGV_MASK_BYTES,
                                MASK_ROOM - tokens * ZGV_MASK_BYTES, &next, &examined);
        if (zgv_number(answer) != ZGV_ACCEPTED || (zgv_first(answer) == 0 && zgv_second(answer) == ZGV_SPENT))
            fail("a turn gets nowhere");
        tokens += zgv_first(answer);
        turns++;
    } while (zgv_second(answer) == ZGV_SPENT);
    sink = (uint64_t)tokens << 28 | next;
}
static void sheet_one_turn(void) { sheet_in_turns(UINT64_MAX); }
static void sheet_turns_1024(void) { sheet_in_turns(1024); }
static void sheet_turns_256(void) { sheet_in_turns(256); }
static void sheet_turns_64(void) { sheet_in_turns(64); }

#define EACH_LINE(call)                   \
    do {                                  \
        size_t i;                         \
        for (i = 0; i < LINES; i++) {     \
            uint8_t *line = lines[i];     \
            sink = call;                  \
        }                                 \
    } while (0)

static void lines_zgv(void) { EACH_LINE(zgv_lex(book, book_len, line, LINE, records, ROOM, masks, MASK_ROOM)); }
static void lines_builtin(void) { EACH_LINE(zgv_lex_builtin(line, LINE, records, ROOM, masks, MASK_ROOM)); }
static void lines_chains(void) { EACH_LINE(chains_lex(book, book_len, line, LINE, records, ROOM)); }
static void lines_dense(void) { EACH_LINE(dense_lex(table, line, LINE, records)); }

#ifdef HAVE_FLEX
static void sheet_flex(void) { sink = flex_lex((char *)sheet, sheet_len, records); }
static void lines_flex(void) { EACH_LINE(flex_lex((char *)line, LINE, records)); }
#endif
#ifdef HAVE_RE2C
static void sheet_re2c(void) { sink = re2c_lex((char *)sheet, sheet_len, records); }
static void lines_re2c(void) { EACH_LINE(re2c_lex((char *)line, LINE, records)); }
#endif

/* Every mask of so many tokens of the sheet has the one rule that took the token: of the built-in book rule k has tag k + 1. */
static int are_single(size_t tokens)
{
    size_t i;
    for (i = 0; i < tokens && zgv_get_mask(masks, i) == (uint32_t)1 << (zgv_get_record(records, i).tag - 1); i++)
        ;
    return i == tokens;
}

/* All contenders must give the same records before any is timed, and those of the library the masks that they should. */
static void check_same(void)
{
    uint8_t *first = malloc(ROOM);
    uint64_t answer;
    size_t used;
    enum { WITH_MASKS = 8 }; /* the first ones */
    void (*all[])(void) = {sheet_zgv, sheet_builtin, sheet_counted, sheet_builtin_counted, sheet_one_turn, sheet_turns_1024,
                           sheet_turns_256, sheet_turns_64, sheet_chains, sheet_dense,
#ifdef HAVE_FLEX
                           sheet_flex,
#endif
#ifdef HAVE_RE2C
                           sheet_re2c,
#endif
    };
    size_t i;
    if (first == NULL)
        fail("out of memory");
    sheet_zgv();
    answer = sink;
    used = (size_t)zgv_first(answer) * ZGV_RECORD_BYTES;
    if (zgv_number(answer) != ZGV_ACCEPTED || zgv_second(answer) != sheet_len)
        fail("the sheet is not cut whole");
    memcpy(first, records, used);
    for (i = 0; i < sizeof all / sizeof all[0]; i++) {
        memset(records, 0, ROOM);
        memset(masks, 0, MASK_ROOM);
        all[i]();
        if (sink != answer || memcmp(first, records, used) != 0)
            fail("two lexers give different records");
        if (i < WITH_MASKS && !are_single(zgv_first(answer)))
            fail("a mask of the sheet is not that of its rule");
    }
    printf("The sheet: %lu bytes, %lu tokens. A line: %d bytes.\n", (unsigned long)sheet_len,
           (unsigned long)zgv_first(answer), LINE);
    free(first);
}

/* Said wherever other lexers are compared. */
#define NO_MASKS "The library stores a mask of each token beside its record; all others store records alone."

static void bench_lexers(void)
{
    contender on_sheet[] = {
        {"`zgv_lex`, built-in book as bytes", sheet_zgv, 0, 0},
        {"`zgv_lex_builtin`", sheet_builtin, 0, 0},
        {"chains in C", sheet_chains, 0, 0},
        {"one dense table in C, built before", sheet_dense, 0, 0},
#ifdef HAVE_FLEX
        {"flex, full tables", sheet_flex, 0, 0},
#endif
#ifdef HAVE_RE2C
        {"re2c", sheet_re2c, 0, 0},
#endif
        {"`zgv_lex`, fewer records than bytes", sheet_counted, 0, 0},
        {"`zgv_lex_builtin`, fewer records than bytes", sheet_builtin_counted, 0, 0},
    };
    contender on_lines[] = {
        {"`zgv_lex`, built-in book as bytes", lines_zgv, 0, 0},
        {"`zgv_lex_builtin`", lines_builtin, 0, 0},
        {"chains in C", lines_chains, 0, 0},
        {"one dense table in C, built before", lines_dense, 0, 0},
#ifdef HAVE_FLEX
        {"flex, full tables", lines_flex, 0, 0},
#endif
#ifdef HAVE_RE2C
        {"re2c", lines_re2c, 0, 0},
#endif
    };
    size_t i;
    for (i = 0; i < sizeof on_sheet / sizeof on_sheet[0]; i++)
        on_sheet[i].bytes = (double)sheet_len;
    for (i = 0; i < sizeof on_lines / sizeof on_lines[0]; i++)
        on_lines[i].bytes = (double)LINES * LINE;
    print_table("### Lexing a sheet of 64 KB\n\n" NO_MASKS, on_sheet, sizeof on_sheet / sizeof on_sheet[0], 1);
    print_table("### Lexing lines of 30 bytes, a call for each\n\n" NO_MASKS, on_lines, sizeof on_lines / sizeof on_lines[0], LINES);
}

static void bench_turns(void)
{
    contender all[] = {{"`zgv_lex`", sheet_zgv, 0, 0},
                       {"`zgv_lex_within`, one turn", sheet_one_turn, 0, 0},
                       {"`zgv_lex_within`, turns of 1,024 bytes", sheet_turns_1024, 0, 0},
                       {"`zgv_lex_within`, turns of 256 bytes", sheet_turns_256, 0, 0},
                       {"`zgv_lex_within`, turns of 64 bytes", sheet_turns_64, 0, 0}};
    const size_t count = sizeof all / sizeof all[0];
    size_t i;
    measure(all, count);
    printf("\n### Lexing the sheet in turns\n\nEach call reads the book, the built-in one as bytes.\n\n"
           "| | calls | µs a sheet | µs a call | speed, `zgv_lex` = 1 |\n|---|---:|---:|---:|---:|\n");
    for (i = 0; i < count; i++) {
        turns = 1;
        all[i].run();
        printf("| %s | %lu | %.2f | %.2f | %.2f |\n", all[i].name, (unsigned long)turns, all[i].best * 1e6,
               all[i].best * 1e6 / (double)turns, all[0].best / all[i].best);
    }
}

/* ---- Printing */

static uint8_t *list;       /* the tokens of the sheet */
static size_t list_len;
static uint8_t *plain;      /* those of plain rules in the sheet's first 60,000 bytes, which fit with separators too */
static size_t plain_len;
static zgv_token blank;
static size_t written[3];

static void print_memcpy(void)
{
    memcpy(out, sheet, sheet_len);
    sink = out[sheet_len / 2];
}
static void print_plain(void) { sink = zgv_print(book, book_len, list, list_len, sheet, sheet_len, out, SHEET); }
static void print_mode(uint32_t mode)
{
    sink = zgv_print_separated(book, book_len, blank.tag, blank.place, blank.length, mode, plain, plain_len, sheet, sheet_len,
                               out, SHEET);
}
static void print_mode_1(void) { print_mode(ZGV_MODE_ALL); }
static void print_mode_2(void) { print_mode(ZGV_MODE_SPARE); }

static void bench_printers(void)
{
    contender all[] = {
        {"memcpy of as many bytes", print_memcpy, 0, 0},
        {"`zgv_print`", print_plain, 0, 0},
        {"`zgv_print_separated`, mode 1", print_mode_1, 0, 0},
        {"`zgv_print_separated`, mode 2", print_mode_2, 0, 0},
    };
    size_t tokens, i, kept = 0;
    list = malloc(ROOM);
    plain = malloc(ROOM);
    if (list == NULL || plain == NULL)
        fail("out of memory");
    sheet_zgv();
    tokens = zgv_first(sink);
    list_len = tokens * ZGV_RECORD_BYTES;
    memcpy(list, records, list_len);
    for (i = 0; i < tokens; i++) {
        zgv_token t = zgv_get_record(list, i);
        if (t.tag == 3 || t.tag == 4) {
            if (t.tag == 3 && t.length == 1)
                blank = t;
        } else if (t.place < 60000) {
            zgv_put_record(plain, kept++, t);
        }
    }
    plain_len = kept * ZGV_RECORD_BYTES;
    all[0].bytes = (double)sheet_len;
    for (i = 1; i < 4; i++) {
        all[i].run();
        if (zgv_number(sink) != ZGV_ACCEPTED)
            fail("a printer refuses the sheet");
        written[i - 1] = zgv_first(sink);
        all[i].bytes = (double)written[i - 1];
    }
    if (written[0] != sheet_len)
        fail("the plain printer does not write the sheet");
    print_table("### Printing the sheet's tokens", all, 4, 1);
    printf("\nMode 1 writes %lu bytes, mode 2 %lu.\n", (unsigned long)written[1], (unsigned long)written[2]);
}

/* The tokens of each line, and those of plain rules; a blank of the line is the separator. */
static uint8_t line_list[LINES][LINE * ZGV_RECORD_BYTES], line_plain[LINES][LINE * ZGV_RECORD_BYTES];
static size_t line_list_len[LINES], line_plain_len[LINES];
static zgv_token line_blank[LINES];

static void make_line_lists(void)
{
    size_t i, k;
    for (i = 0; i < LINES; i++) {
        size_t tokens, kept = 0;
        tokens = zgv_first(zgv_lex(book, book_len, lines[i], LINE, line_list[i], sizeof line_list[i], masks, MASK_ROOM));
        line_list_len[i] = tokens * ZGV_RECORD_BYTES;
        for (k = 0; k < tokens; k++) {
            zgv_token t = zgv_get_record(line_list[i], k);
            if (t.tag == 3 && t.length == 1)
                line_blank[i] = t;
            else if (t.tag != 3 && t.tag != 4)
                zgv_put_record(line_plain[i], kept++, t);
        }
        line_plain_len[i] = kept * ZGV_RECORD_BYTES;
    }
}

static void lines_print(void) { EACH_LINE(zgv_print(book, book_len, line_list[i], line_list_len[i], line, LINE, out, SHEET)); }
static void lines_mode(uint32_t mode)
{
    EACH_LINE(zgv_print_separated(book, book_len, line_blank[i].tag, line_blank[i].place, line_blank[i].length, mode,
                                  line_plain[i], line_plain_len[i], line, LINE, out, SHEET));
}
static void lines_mode_1(void) { lines_mode(ZGV_MODE_ALL); }
static void lines_mode_2(void) { lines_mode(ZGV_MODE_SPARE); }

/* The bytes that a printer writes for a line: the lines are alike in length, though not in where separators go. */
static void bench_line_printers(void)
{
    contender all[] = {{"`zgv_print`", lines_print, 0, 0},
                       {"`zgv_print_separated`, mode 1", lines_mode_1, 0, 0},
                       {"`zgv_print_separated`, mode 2", lines_mode_2, 0, 0}};
    size_t i;
    make_line_lists();
    for (i = 0; i < 3; i++) {
        all[i].run();
        if (zgv_number(sink) != ZGV_ACCEPTED)
            fail("a printer refuses a line");
        all[i].bytes = (double)LINES * (double)zgv_first(sink);
    }
    print_table("### Printing the tokens of a line of 30 bytes, a call for each line", all, 3, LINES);
}

/* ---- The largest books */

enum { SHAPES = 16, LARGEST = SHAPES * ORDERS };

/* The shapes that an earlier library takes too. */
enum { CHAINS, CHAINS_OF_SPANS, CHAINS_OF_TWO, MET, MET_SPANS, MET_TWO, MET_RINGS };

static const shape shapes[SHAPES] = {
    {"32 chains", OLD_BOOK_BYTES, 32, 1, 0, 0, 0, 0},
    {"32 chains of spans", OLD_BOOK_BYTES, 32, 1, 0, 1, 0, 0},
    {"16 chains of two moves each", OLD_BOOK_BYTES, 16, 2, 0, 0, 0, 0},
    {"32 chains, plain bytes on dead branches", OLD_BOOK_BYTES, 32, 1, 0, 0, 1, 0},
    {"32 chains of spans, plain bytes on dead branches", OLD_BOOK_BYTES, 32, 1, 0, 1, 1, 0},
    {"16 chains of two moves each, plain bytes on dead branches", OLD_BOOK_BYTES, 16, 2, 0, 0, 1, 0},
    {"32 rings of spans, plain bytes on dead branches", OLD_BOOK_BYTES, 32, 1, 0, 1, 1, 1},
    {"32 chains of two moves each", ZGV_BOOK_BYTES, 32, 2, 0, 0, 0, 0},
    {"3 chains of wide states", ZGV_BOOK_BYTES, 3, 1, 1, 0, 0, 0},
    {"3 chains of wide states and spans", ZGV_BOOK_BYTES, 3, 1, 1, 1, 0, 0},
    {"32 chains of wide states and spans", ZGV_BOOK_BYTES, 32, 1, 1, 1, 0, 0},
    {"32 chains of two moves each, plain bytes on dead branches", ZGV_BOOK_BYTES, 32, 2, 0, 0, 1, 0},
    {"3 chains of wide states, plain bytes on dead branches", ZGV_BOOK_BYTES, 3, 1, 1, 0, 1, 0},
    {"3 chains of wide states and spans, plain bytes on dead branches", ZGV_BOOK_BYTES, 3, 1, 1, 1, 1, 0},
    {"32 chains of wide states and spans, plain bytes on dead branches", ZGV_BOOK_BYTES, 32, 1, 1, 1, 1, 0},
    {"3 rings of wide states and spans, plain bytes on dead branches", ZGV_BOOK_BYTES, 3, 1, 1, 1, 1, 1},
};

static made largest[LARGEST + 1]; /* those of a shape in its orders, and last `many` */
static made of_steps, medium;
static made *const many = &largest[LARGEST];

/* As many rules as a book may have, each of one move. */
static void make_many(void)
{
    unsigned i;
    make_book(many, 0);
    for (i = 0; i < ZGV_BOOK_RULES; i++) {
        const unsigned byte = i % 2 ? ' ' : 'a';
        make_rule(many, i + 1, i % 2, 0, 2);
        make_final(many, 1);
        make_move(many, 0, byte, byte, 1);
        make_close(many);
    }
    make_end(many);
}

static void make_largest(void)
{
    static const shape steps = {"", ZGV_BOOK_BYTES, 32, 2, 0, 0, 0, 0}, some = {"", 2200, 4, 1, 0, 0, 0, 0};
    size_t i;
    for (i = 0; i < LARGEST; i++)
        make_chains(&largest[i], &shapes[i / ORDERS], i % ORDERS, 0);
    make_many();
    make_chains(&of_steps, &steps, 0, 5); /* as many STEPs as have room when they are SPANs */
    make_chains(&medium, &some, 0, 0);
}

/* Two tokens of a byte each, and a separator. */
static const uint8_t chain_pool[] = {'a', ' '}, chain_list[] = {0, 1, 0, 0, 0, 0, 0, 0, 0, 1, 0, 1, 0, 0, 0, 0, 0, 0, 0, 1};

static void read_made(const made *b) { sink = zgv_read_book(b->bytes, b->len); }
static void print_made(const made *b)
{
    sink = zgv_print_separated(b->bytes, b->len, 2, 1, 1, ZGV_MODE_SPARE, chain_list, sizeof chain_list, chain_pool,
                               sizeof chain_pool, out, SHEET);
}

/* Reads a book at an even number, prints by it at the odd one behind. */
static void run_largest(size_t i)
{
    if (i % 2 == 0)
        read_made(&largest[i / 2]);
    else
        print_made(&largest[i / 2]);
}

static void check_largest(void)
{
    size_t i;
    for (i = 0; i < 2 * (LARGEST + 1); i++) {
        const unsigned rules = i / 2 < LARGEST ? shapes[i / 2 / ORDERS].rules : ZGV_BOOK_RULES;
        run_largest(i);
        if (zgv_number(sink) != ZGV_ACCEPTED || zgv_first(sink) != (i % 2 == 0 ? rules : 2))
            fail("a largest book is answered otherwise");
    }
}

/* The beginning of a line, from the times of reading and printing by a book. */
static void largest_line(const char *name, const made *b, const double *times)
{
    const double moves = (double)b->moves;
    printf("| %s | %lu | %lu | %.2f | %.2f | %.2f | %.2f | %.2f |", name, (unsigned long)b->len, (unsigned long)b->moves,
           times[0] * 1e6, times[0] * 1e9 / moves, times[1] * 1e6, times[1] * 1e9 / moves, times[1] / times[0]);
}

static void bench_largest(void)
{
    double best[2 * (LARGEST + 1)];
    size_t i;
    check_largest();
    measure_each(run_largest, 2 * (LARGEST + 1), best);
    printf("\n### The largest books\n\n| book, its states numbered upward | bytes | moves | `zgv_read_book`, µs | ns a move |"
           " `zgv_print_separated`, µs | ns a move | print : read | downward | without order |\n"
           "|---|---:|---:|---:|---:|---:|---:|---:|---:|---:|\n");
    for (i = 0; i < SHAPES; i++) {
        const double *up = best + 2 * ORDERS * i;
        largest_line(shapes[i].name, &largest[ORDERS * i], up);
        printf(" %.2f | %.2f |\n", up[3] / up[2], up[5] / up[4]);
    }
    largest_line("32 rules of one move", many, best + 2 * LARGEST);
    printf(" | |\n\n| time, upward = 1 | reading, downward | without order | printing, downward | without order |\n"
           "|---|---:|---:|---:|---:|\n");
    for (i = 0; i < SHAPES; i++) {
        const double *up = best + 2 * ORDERS * i;
        printf("| %s | %.2f | %.2f | %.2f | %.2f |\n", shapes[i].name, up[2] / up[0], up[4] / up[0], up[3] / up[1], up[5] / up[1]);
    }
}

/* ---- Small books with a state above 255, or with a dead branch */

/* The built-in book with one rule more, at bytes that no other rule takes: with a state below 256 and with one of 256; and a separator's
   with a plain byte on a dead branch, which ends in such a state. */
static made low_state, high_state, branched, branched_high;

static void make_state_book(made *b, unsigned state)
{
    make_longer(b, book, book_len, 1);
    make_rule(b, 6, ZGV_KIND_PLAIN, 0, 2);
    make_final(b, 1);
    make_move(b, 0, 1, 1, state);
    make_move(b, state, 2, 2, 1);
    make_close(b);
    make_end(b);
}

static void make_branched(made *b, unsigned state)
{
    make_longer(b, book, book_len, state > 255);
    make_rule(b, 6, ZGV_KIND_SEPARATOR, 0, 2);
    make_final(b, 1);
    make_move(b, 0, 1, 1, 1);
    make_move(b, 1, 'a', 'a', state);
    make_close(b);
    make_end(b);
}

static void make_small(void)
{
    make_state_book(&low_state, 3);
    make_state_book(&high_state, 256);
    make_branched(&branched, 3);
    make_branched(&branched_high, 256);
}

static void lines_lex_made(const made *b) { EACH_LINE(zgv_lex(b->bytes, b->len, line, LINE, records, ROOM, masks, MASK_ROOM)); }
static void lines_print_made(const made *b)
{
    EACH_LINE(zgv_print_separated(b->bytes, b->len, line_blank[i].tag, line_blank[i].place, line_blank[i].length, ZGV_MODE_SPARE,
                                  line_plain[i], line_plain_len[i], line, LINE, out, SHEET));
}
static void read_low(void) { read_made(&low_state); }
static void read_high(void) { read_made(&high_state); }
static void lex_low(void) { lines_lex_made(&low_state); }
static void lex_high(void) { lines_lex_made(&high_state); }
static void print_low(void) { lines_print_made(&low_state); }
static void print_high(void) { lines_print_made(&high_state); }
static void print_branched(void) { lines_print_made(&branched); }
static void print_branched_high(void) { lines_print_made(&branched_high); }

/* Two runs to be compared, each of so many calls. */
typedef struct pair {
    const char *name;
    void (*first)(void), (*second)(void);
    double calls;
} pair;

/* Both must answer alike before they are timed. */
static void print_pair(const pair *p, const char *differ)
{
    contender both[] = {{"", p->first, 0, 0}, {"", p->second, 0, 0}};
    uint64_t answer;
    both[0].run();
    answer = sink;
    both[1].run();
    if (sink != answer || zgv_number(answer) != ZGV_ACCEPTED)
        fail(differ);
    measure(both, 2);
    printf("| %s | %.2f | %.2f | %.2f |\n", p->name, both[0].best * 1e6 / p->calls, both[1].best * 1e6 / p->calls,
           both[1].best / both[0].best);
}

static void bench_small(void)
{
    static const pair states[] = {{"`zgv_read_book`", read_low, read_high, 1},
                                  {"`zgv_lex`, a line", lex_low, lex_high, LINES},
                                  {"`zgv_print_separated`, mode 2, a line", print_low, print_high, LINES}},
                      branches[] = {{"to a state below 256", lines_mode_2, print_branched, LINES},
                                    {"to a state of 256", lines_mode_2, print_branched_high, LINES}};
    size_t i;
    printf("\n### A small book with a state above 255\n\n| book of %lu bytes | states below 256, µs a call | one of 256, µs a call |"
           " time, below = 1 |\n|---|---:|---:|---:|\n", (unsigned long)high_state.len);
    for (i = 0; i < sizeof states / sizeof states[0]; i++)
        print_pair(&states[i], "a state above 255 changes an answer");
    printf("\n### A small book with a plain byte on a dead branch\n\n| `zgv_print_separated`, mode 2, a line | the built-in book,"
           " µs a call | with a dead branch, µs a call | time, built-in = 1 |\n|---|---:|---:|---:|\n");
    for (i = 0; i < sizeof branches / sizeof branches[0]; i++)
        print_pair(&branches[i], "a dead branch changes an answer");
}

/* ---- An earlier library beside this one, its calls renamed */

#ifdef HAVE_OLD
/* It may be one from before 0.6.0, whose two lexing calls have no masks, so that these are declared in that form. For one with masks
   the program is compiled with OLD_MASKS. */
#ifdef OLD_MASKS
#define AND_MASKS , uint8_t *, size_t
#define LENT_MASKS , masks, MASK_ROOM
#define OLD_GIVES "Both store masks."
#else
#define AND_MASKS
#define LENT_MASKS
#define OLD_GIVES "The earlier one stores no masks."
#endif
uint64_t old_zgv_read_book(const uint8_t *, size_t);
uint64_t old_zgv_lex(const uint8_t *, size_t, const uint8_t *, size_t, uint8_t *, size_t AND_MASKS);
uint64_t old_zgv_lex_builtin(const uint8_t *, size_t, uint8_t *, size_t AND_MASKS);
uint64_t old_zgv_print(const uint8_t *, size_t, const uint8_t *, size_t, const uint8_t *, size_t, uint8_t *, size_t);
uint64_t old_zgv_print_separated(const uint8_t *, size_t, uint16_t, uint32_t, uint32_t, uint32_t, const uint8_t *, size_t,
                                 const uint8_t *, size_t, uint8_t *, size_t);

static void old_book(void) { sink = old_zgv_read_book(book, book_len); }
static void new_book(void) { sink = zgv_read_book(book, book_len); }
static void old_sheet(void) { sink = old_zgv_lex(book, book_len, sheet, sheet_len, records, ROOM LENT_MASKS); }
static void old_lines(void) { EACH_LINE(old_zgv_lex(book, book_len, line, LINE, records, ROOM LENT_MASKS)); }
static void old_sheet_builtin(void) { sink = old_zgv_lex_builtin(sheet, sheet_len, records, ROOM LENT_MASKS); }
static void old_lines_builtin(void) { EACH_LINE(old_zgv_lex_builtin(line, LINE, records, ROOM LENT_MASKS)); }
static void old_sheet_counted(void) { sink = old_zgv_lex(book, book_len, sheet, sheet_len, records, FEWER LENT_MASKS); }
static void old_sheet_builtin_counted(void) { sink = old_zgv_lex_builtin(sheet, sheet_len, records, FEWER LENT_MASKS); }
static void old_print(void) { sink = old_zgv_print(book, book_len, list, list_len, sheet, sheet_len, out, SHEET); }
static void old_mode(uint32_t mode)
{
    sink = old_zgv_print_separated(book, book_len, blank.tag, blank.place, blank.length, mode, plain, plain_len, sheet, sheet_len,
                                   out, SHEET);
}
static void old_mode_1(void) { old_mode(ZGV_MODE_ALL); }
static void old_mode_2(void) { old_mode(ZGV_MODE_SPARE); }
static void old_lines_print(void)
{
    EACH_LINE(old_zgv_print(book, book_len, line_list[i], line_list_len[i], line, LINE, out, SHEET));
}
static void old_lines_mode(uint32_t mode)
{
    EACH_LINE(old_zgv_print_separated(book, book_len, line_blank[i].tag, line_blank[i].place, line_blank[i].length, mode,
                                      line_plain[i], line_plain_len[i], line, LINE, out, SHEET));
}
static void old_lines_mode_1(void) { old_lines_mode(ZGV_MODE_ALL); }
static void old_lines_mode_2(void) { old_lines_mode(ZGV_MODE_SPARE); }
static void old_read_made(const made *b) { sink = old_zgv_read_book(b->bytes, b->len); }
static void old_print_made(const made *b)
{
    sink = old_zgv_print_separated(b->bytes, b->len, 2, 1, 1, ZGV_MODE_SPARE, chain_list, sizeof chain_list, chain_pool,
                                   sizeof chain_pool, out, SHEET);
}
static void old_print_branched(void)
{
    EACH_LINE(old_zgv_print_separated(branched.bytes, branched.len, line_blank[i].tag, line_blank[i].place, line_blank[i].length,
                                      ZGV_MODE_SPARE, line_plain[i], line_plain_len[i], line, LINE, out, SHEET));
}

/* A call by one book, of the earlier library and of this one. */
#define BY_BOTH(call, name, book)                                      \
    static void old_##call##_##name(void) { old_##call##_made(book); } \
    static void new_##call##_##name(void) { call##_made(book); }
BY_BOTH(print, many, many)
BY_BOTH(read, medium, &medium)
BY_BOTH(print, medium, &medium)
BY_BOTH(read, upward, &largest[CHAINS * ORDERS])
BY_BOTH(print, upward, &largest[CHAINS * ORDERS])
BY_BOTH(print, downward, &largest[CHAINS * ORDERS + 1])
BY_BOTH(print, spans, &largest[CHAINS_OF_SPANS * ORDERS])
BY_BOTH(print, met, &largest[MET * ORDERS])
BY_BOTH(print, rings, &largest[MET_RINGS * ORDERS])

static void bench_old(void)
{
    static const pair pairs[] = {
        {"`zgv_read_book`, the built-in book", old_book, new_book, 1},
        {"`zgv_lex`, a line", old_lines, lines_zgv, LINES},
        {"`zgv_lex_builtin`, a line", old_lines_builtin, lines_builtin, LINES},
        {"`zgv_print`, a line", old_lines_print, lines_print, LINES},
        {"`zgv_print_separated`, mode 1, a line", old_lines_mode_1, lines_mode_1, LINES},
        {"`zgv_print_separated`, mode 2, a line", old_lines_mode_2, lines_mode_2, LINES},
        {"`zgv_print_separated`, mode 2, a line, a plain byte on a dead branch", old_print_branched, print_branched, LINES},
        {"`zgv_lex`, the sheet", old_sheet, sheet_zgv, 1},
        {"`zgv_lex_builtin`, the sheet", old_sheet_builtin, sheet_builtin, 1},
        {"`zgv_lex`, the sheet, fewer records than bytes", old_sheet_counted, sheet_counted, 1},
        {"`zgv_lex_builtin`, the sheet, fewer records than bytes", old_sheet_builtin_counted, sheet_builtin_counted, 1},
        {"`zgv_print`, the sheet", old_print, print_plain, 1},
        {"`zgv_print_separated`, mode 1, the sheet", old_mode_1, print_mode_1, 1},
        {"`zgv_print_separated`, mode 2, the sheet", old_mode_2, print_mode_2, 1},
        {"`zgv_print_separated`, 32 rules of one move", old_print_many, new_print_many, 1},
        {"`zgv_read_book`, 4 chains in 2,200 bytes", old_read_medium, new_read_medium, 1},
        {"`zgv_print_separated`, 4 chains in 2,200 bytes", old_print_medium, new_print_medium, 1},
        {"`zgv_read_book`, 32 chains upward", old_read_upward, new_read_upward, 1},
        {"`zgv_print_separated`, 32 chains upward", old_print_upward, new_print_upward, 1},
        {"`zgv_print_separated`, 32 chains downward", old_print_downward, new_print_downward, 1},
        {"`zgv_print_separated`, 32 chains of spans upward", old_print_spans, new_print_spans, 1},
        {"`zgv_print_separated`, 32 chains upward, plain bytes on dead branches", old_print_met, new_print_met, 1},
        {"`zgv_print_separated`, 32 rings of spans upward, plain bytes on dead branches", old_print_rings, new_print_rings, 1},
    };
    size_t i;
    printf("\n### An earlier library beside this one\n\n" OLD_GIVES
           "\n\n| | earlier, µs a call | this, µs a call | this : earlier |\n|---|---:|---:|---:|\n");
    for (i = 0; i < sizeof pairs / sizeof pairs[0]; i++)
        print_pair(&pairs[i], "two libraries answer differently");
}
#endif

/* ---- Growth */

static made grown;
static uint8_t grown_text[SHEET];

static void open_rule(unsigned tag, unsigned final)
{
    make_rule(&grown, tag, ZGV_KIND_PLAIN, 0, grown.wide ? ZGV_RULE_STATES - 1 : 255);
    make_final(&grown, final);
}

static void span(unsigned from, unsigned low, unsigned high, unsigned to) { make_move(&grown, from, low, high, to); }
static void step(unsigned from, unsigned byte, unsigned to) { make_move(&grown, from, byte, byte, to); }
static void end_rule(void) { make_close(&grown); }
static void end_book(void) { make_end(&grown); }

static void grown_zgv(void) { sink = zgv_lex(grown.bytes, grown.len, grown_text, SHEET, records, ROOM, masks, MASK_ROOM); }
static void grown_chains(void) { sink = chains_lex(grown.bytes, grown.len, grown_text, SHEET, records, ROOM); }
static void grown_dense(void) { sink = dense_lex(table, grown_text, SHEET, records); }

static void growth_line(const char *name)
{
    contender all[] = {{"", grown_zgv, SHEET, 0}, {"", grown_chains, SHEET, 0}, {"", grown_dense, SHEET, 0}};
    uint64_t answer;
    grown_zgv();
    answer = sink;
    if (zgv_number(answer) != ZGV_ACCEPTED || zgv_second(answer) < SHEET - ZGV_RULE_STATES)
        fail("a text for growth is not cut");
    grown_chains();
    if (sink != answer || !dense_build(table, grown.bytes, grown.len))
        fail("a book for growth is too large");
    grown_dense();
    if (sink != answer)
        fail("two lexers differ on growth");
    measure(all, 3);
    printf("| %s | %lu | %.0f | %.0f | %.0f |\n", name, (unsigned long)grown.len, SHEET / all[0].best / 1e6,
           SHEET / all[1].best / 1e6, SHEET / all[2].best / 1e6);
}

/* Tokens of five bytes, a letter and four digits. Rule k takes those of its letter. */
static void make_apart(unsigned count)
{
    unsigned k;
    size_t i;
    make_book(&grown, 0);
    for (k = 0; k < count; k++) {
        open_rule(k + 1, 1);
        step(0, 0x40 + k, 1);
        span(1, '0', '9', 1);
        end_rule();
    }
    end_book();
    for (i = 0; i < SHEET; i++)
        grown_text[i] = i % 5 == 0 ? (uint8_t)(0x40 + draw(count)) : (uint8_t)('0' + draw(10));
}

/* The same tokens between blanks, where every rule walks over the whole token. */
static void make_together(unsigned count)
{
    unsigned k;
    size_t i;
    make_book(&grown, 0);
    for (k = 0; k < count; k++) {
        open_rule(k + 1, 2);
        span(0, '0', '9', 1);
        span(1, '0', '9', 1);
        step(1, 0x40 + k, 2);
        end_rule();
    }
    end_book();
    for (i = 0; i < SHEET; i++)
        grown_text[i] = i % 5 == 4 ? (uint8_t)(0x40 + draw(count)) : (uint8_t)('0' + draw(10));
}

static void rules_line(void (*make)(unsigned), unsigned count, const char *which)
{
    char name[64];
    make(count);
    sprintf(name, "%u rule%s, %s", count, count == 1 ? "" : "s", which);
    growth_line(name);
}

#ifdef HAVE_OLD
static void old_grown(void) { sink = old_zgv_lex(grown.bytes, grown.len, grown_text, SHEET, records, ROOM LENT_MASKS); }

/* The last lines of the table of bench_old(): as many rules as there may be. */
static void bench_old_rules(void)
{
    static const pair apart = {"`zgv_lex`, 32 rules, one walks on past a token's first byte", old_grown, grown_zgv, 1},
                      together = {"`zgv_lex`, 32 rules, all walk over the whole token", old_grown, grown_zgv, 1};
    make_apart(ZGV_BOOK_RULES);
    print_pair(&apart, "two libraries answer differently");
    make_together(ZGV_BOOK_RULES);
    print_pair(&together, "two libraries answer differently");
}
#endif

/* One rule: tokens of four bytes, with the transitions from four states. */
static void moves_at_few(unsigned count)
{
    unsigned k, each = count / 4;
    size_t i;
    char name[64];
    make_book(&grown, 0);
    open_rule(1, 4);
    for (k = 0; k < count; k++)
        step(k / each, k % each, k / each + 1);
    end_rule();
    end_book();
    for (i = 0; i < SHEET; i++)
        grown_text[i] = (uint8_t)draw(each);
    sprintf(name, "%u transitions from 4 states", count);
    growth_line(name);
}

/* One rule: tokens as long as half the transitions, with two from each state. States have two bytes where one is too short. */
static void moves_spread(unsigned count)
{
    unsigned k;
    size_t i;
    char name[64];
    make_book(&grown, count / 2 >= 255);
    open_rule(1, count / 2);
    for (k = 0; k < count / 2; k++) {
        step(k, 'a', k + 1);
        step(k, 'b', k + 1);
    }
    end_rule();
    end_book();
    for (i = 0; i < SHEET; i++)
        grown_text[i] = (uint8_t)('a' + draw(2));
    sprintf(name, "%u transitions, 2 from a state", count);
    growth_line(name);
}

/* ---- Reading */

static void read_zgv(void) { sink = zgv_read_book(book, book_len); }
static void read_chains(const uint8_t *bytes, size_t len)
{
    chains t;
    sink = chains_load(&t, bytes, len);
}
static void read_c(void) { read_chains(book, book_len); }

/* The largest books with 256 moves from a state: by the earlier limits, by those of this library, and by these with states of two bytes. */
static made full_old, full, full_wide;

static void read_full_old(void) { read_made(&full_old); }
static void read_full(void) { read_made(&full); }
static void read_full_wide(void) { read_made(&full_wide); }
static void read_full_c(void) { read_chains(full.bytes, full.len); }
#ifdef HAVE_OLD
static void old_read_full_old(void) { old_read_made(&full_old); }
#endif

static void make_all_full(void)
{
    make_full(&full_old, OLD_BOOK_BYTES, OLD_RULE_TRANSITIONS, 0);
    make_full(&full, ZGV_BOOK_BYTES, ZGV_RULE_TRANSITIONS, 0);
    make_full(&full_wide, ZGV_BOOK_BYTES, ZGV_RULE_TRANSITIONS, 1);
}

static void bench_reading(void)
{
    contender all[] = {
        {"`zgv_read_book`, the built-in book", read_zgv, 0, 0},
        {"the same in C", read_c, 0, 0},
        {"`zgv_read_book`, a full book, 256 transitions from a state", read_full, 0, 0},
        {"the same in C", read_full_c, 0, 0},
    };
    size_t i;
    all[0].bytes = all[1].bytes = (double)book_len;
    all[2].bytes = all[3].bytes = (double)full.len;
    for (i = 0; i < 4; i++) {
        all[i].run();
        if (zgv_number(sink) != ZGV_ACCEPTED)
            fail("a book is refused");
    }
    print_table("### Reading a book", all, 4, 1);
    printf("\nThe built-in book has %lu bytes, the full one %lu.\n", (unsigned long)book_len, (unsigned long)full.len);
}

/* A table of readings, each of one book. */
static void print_readings(const char *title, contender *all, const made *const *books, size_t count)
{
    size_t i;
    measure(all, count);
    printf("\n%s\n\n| | bytes | moves | µs a call | ns a byte | ns a move | ns a move, first line = 1 |\n"
           "|---|---:|---:|---:|---:|---:|---:|\n", title);
    for (i = 0; i < count; i++) {
        const double a_move = all[i].best / (double)books[i]->moves;
        printf("| %s | %lu | %lu | %.2f | %.2f | %.2f | %.2f |\n", all[i].name, (unsigned long)books[i]->len,
               (unsigned long)books[i]->moves, all[i].best * 1e6, all[i].best * 1e9 / (double)books[i]->len, a_move * 1e9,
               a_move / (all[0].best / (double)books[0]->moves));
    }
}

static void bench_full(void)
{
    contender all[] = {
#ifdef HAVE_OLD
        {"earlier library, 512 moves in a rule", old_read_full_old, 0, 0},
#endif
        {"this library, 512 moves in a rule", read_full_old, 0, 0},
        {"this library, 4,096 moves in a rule", read_full, 0, 0},
        {"this library, 4,096 moves in a rule, states of two bytes from 256 on", read_full_wide, 0, 0},
    };
    const made *const books[] = {
#ifdef HAVE_OLD
        &full_old,
#endif
        &full_old, &full, &full_wide};
    size_t i;
    for (i = 0; i < sizeof all / sizeof all[0]; i++) {
        all[i].run();
        if (zgv_number(sink) != ZGV_ACCEPTED)
            fail("a full book is refused");
    }
    print_readings("### Reading the largest books, 256 moves from a state", all, books, sizeof all / sizeof all[0]);
}

/* One rule of as many moves as it may have: 256 from each of 16 states, and all from one state at one byte. */
static made apart, overlapping;
static void read_apart(void) { read_made(&apart); }
static void read_overlapping(void) { read_made(&overlapping); }

static void bench_overlapping(void)
{
    contender all[] = {{"256 from each of 16 states", read_apart, 0, 0},
                       {"all from one state at one byte, refused by 9", read_overlapping, 0, 0}};
    const made *const books[] = {&apart, &overlapping};
    make_full(&apart, 12 + 4 * ZGV_RULE_TRANSITIONS, ZGV_RULE_TRANSITIONS, 0);
    make_overlapping(&overlapping, ZGV_RULE_TRANSITIONS);
    read_apart();
    if (zgv_number(sink) != ZGV_ACCEPTED || zgv_first(sink) != 1 || apart.len != overlapping.len)
        fail("the moves apart are answered otherwise");
    read_overlapping();
    if (zgv_number(sink) != ZGV_OVERLAP || zgv_place(sink) != overlapping.len - 2)
        fail("the moves that overlap are answered otherwise");
    print_readings("### Reading one rule of 4,096 moves", all, books, 2);
    if (all[1].best >= all[0].best)
        fail("moves that overlap take longer to read than others");
}

static void read_of_steps(void) { read_made(&of_steps); }
static void rewrite_zgv(void) { sink = zgv_rewrite_book(book, book_len, out, SHEET); }
static void rewrite_of_steps(void) { sink = zgv_rewrite_book(of_steps.bytes, of_steps.len, out, SHEET); }

static void rewriting_line(const char *name, size_t len, const contender *both)
{
    both[1].run();
    if (zgv_number(sink) != ZGV_ACCEPTED)
        fail("a book is not rewritten");
    printf("| %s | %lu | %lu | %.2f | %.2f | %.2f |\n", name, (unsigned long)len, (unsigned long)(zgv_first(sink) - len),
           both[0].best * 1e6, both[1].best * 1e6, both[1].best / both[0].best);
}

static void bench_rewriting(void)
{
    contender all[] = {{"", read_zgv, 0, 0}, {"", rewrite_zgv, 0, 0}, {"", read_of_steps, 0, 0}, {"", rewrite_of_steps, 0, 0}};
    measure(all, 4);
    printf("\n### Rewriting a book\n\n| book | bytes | STEPs | `zgv_read_book`, µs | `zgv_rewrite_book`, µs | rewrite : read |\n"
           "|---|---:|---:|---:|---:|---:|\n");
    rewriting_line("the built-in one", book_len, all);
    rewriting_line("32 chains of two STEPs each", of_steps.len, all + 2);
}

static void bench_growth(void)
{
    static const unsigned rules[] = {1, 8, 32}, at_few[] = {16, 128, 512, 1024}, spread[] = {16, 128, 512, 4096};
    size_t i;
    printf("\n### Growth with the book, a text of 65,536 bytes, MB/s\n\n" NO_MASKS "\n\n"
           "| book | its bytes | `zgv_lex` | chains in C | dense table |\n|---|---:|---:|---:|---:|\n");
    for (i = 0; i < 3; i++)
        rules_line(make_apart, rules[i], "one walks on past a token's first byte");
    for (i = 0; i < 3; i++)
        rules_line(make_together, rules[i], "all walk over the whole token");
    for (i = 0; i < 4; i++)
        moves_at_few(at_few[i]);
    for (i = 0; i < 4; i++)
        moves_spread(spread[i]);
}

/* ---- Expressions */

typedef struct expression {
    const char *name;
    uint8_t text[ZGV_REGEX_BYTES];
    size_t len;
    unsigned number; /* that it is answered by */
    size_t sets;     /* of its rule, where one is made */
    uint64_t answer;
} expression;

enum { HOUSE = 12, EXPRESSIONS = 32, HOUSE_BYTES = 60, TOOL_ROUNDS = 20 };

static expression expressions[EXPRESSIONS];
static size_t expression_count;
static uint8_t rule_bytes[ZGV_REGEX_OUTPUT];

static void run_expression(size_t i)
{
    const expression *e = &expressions[i];
    sink = zgv_compile(1, ZGV_KIND_PLAIN, e->text, e->len, rule_bytes, sizeof rule_bytes);
}

/* The highest state that the rule's moves lead to, which is the number of its sets. */
static size_t highest_state(size_t len)
{
    static const uint8_t widths[] = {1, 4, 2, 2, 2, 4, 5, 1};
    size_t at, highest = 0;
    for (at = 0; at < len; at += widths[rule_bytes[at]])
        if (rule_bytes[at] == 6 && rule_bytes[at + 4] > highest)
            highest = rule_bytes[at + 4];
    return highest;
}

static expression *new_expression(const char *name, unsigned number)
{
    expression *e = &expressions[expression_count];
    if (expression_count++ == EXPRESSIONS)
        fail("too many expressions");
    memset(e, 0, sizeof *e);
    e->name = name;
    e->number = number;
    return e;
}

static void put_text(expression *e, const void *text, size_t len)
{
    if (e->len + len > sizeof e->text)
        fail("an expression is too long");
    memcpy(e->text + e->len, text, len);
    e->len += len;
}

static void put_byte(expression *e, unsigned byte, size_t times)
{
    const uint8_t text = (uint8_t)byte;
    for (; times > 0; times--)
        put_text(e, &text, 1);
}

/* It is answered as it should be. */
static void check_expression(expression *e)
{
    run_expression((size_t)(e - expressions));
    e->answer = sink;
    if (zgv_number(sink) != e->number)
        fail("an expression is answered otherwise");
    e->sets = e->number == ZGV_ACCEPTED ? highest_state(zgv_first(sink)) : 0;
}

static void add_expression(const char *name, const char *text)
{
    expression *e = new_expression(name, ZGV_ACCEPTED);
    put_text(e, text, strlen(text));
    if (e->len > HOUSE_BYTES)
        fail("an expression of a song house is too long");
    check_expression(e);
}

/* The rules of bench/house.l and bench/house.re. */
static void add_house(void)
{
    add_expression("timestamp", "\\[[0-9][0-9]:[0-9][0-9]\\.[0-9][0-9]]");
    add_expression("word", "[A-Za-z\x80-\xFF]+('[a-z]+)?");
    add_expression("quoted cue", "\"[A-Za-z0-9 ,.!?']*\"");
    add_expression("key name", "(title|artist|album|key|tempo|offset|length|by):");
    add_expression("colour", "#[0-9a-f][0-9a-f][0-9a-f][0-9a-f][0-9a-f][0-9a-f]");
    add_expression("chord", "[A-G](#|b)?(m|maj|min|dim)?7?");
    add_expression("chord over a bass", "[A-G](#|b)?(m|maj7?|dim|sus[24])?/[A-G](#|b)?");
    add_expression("number", "[0-9]+(\\.[0-9]+)?");
    add_expression("directive", "\\{[a-z_]+(:[A-Za-z0-9 ,.]+)?}");
    add_expression("repeat", "\\|:|:\\||x[0-9][0-9]?");
    add_expression("blanks", "[ \t]+");
    add_expression("line's end", "\r?\n");
    if (expression_count != HOUSE)
        fail("a song house has a dozen expressions");
}

/* A list of the bytes for which the test holds; no byte that may not stand in one is its end. */
static void put_list(expression *e, int (*holds)(unsigned byte, unsigned k), unsigned k)
{
    unsigned low, high;
    put_byte(e, '[', 1);
    for (low = 1; low < 256; low = high + 1) {
        unsigned first = low, last;
        high = low;
        if (!holds(low, k))
            continue;
        while (high < 255 && holds(high + 1, k))
            high++;
        last = high;
        while (first <= last && strchr("][-\\^", (int)first) != NULL)
            first++;
        while (first <= last && strchr("][-\\^", (int)last) != NULL)
            last--;
        if (first > last)
            continue;
        put_byte(e, first, 1);
        if (last - first > 1)
            put_byte(e, '-', 1);
        if (last > first)
            put_byte(e, last, 1);
    }
    put_byte(e, ']', 1);
}

/* Bit k of a code that each byte has for itself: its lowest bit, then a Gray code of the others. */
static int has_code_bit(unsigned byte, unsigned k) { return (k == 0 ? byte : (byte >> 1 ^ byte >> 2) >> (k - 1)) & 1; }
static int is_even(unsigned byte, unsigned unused)
{
    (void)unused;
    return byte % 2 == 0 && byte != '\n';
}

/* Eight lists, so that nearly every byte leads to a set of its own. */
static void put_lists(expression *e)
{
    unsigned k;
    put_byte(e, '(', 1);
    for (k = 0; k < 8; k++) {
        if (k > 0)
            put_byte(e, '|', 1);
        put_list(e, has_code_bit, k);
    }
    put_byte(e, ')', 1);
}

/* First a set for nearly each byte; from each of them, and from there on, two other sets in turns, so that a set is looked up at each
   byte, behind all others. */
static void add_turns(const char *name, unsigned number, const char *tail)
{
    expression *e = new_expression(name, number);
    put_lists(e);
    put_text(e, "(.|", 3);
    put_list(e, is_even, 0);
    put_text(e, tail, strlen(tail));
    check_expression(e);
}

static void add_worst(void)
{
    expression *e = new_expression("a byte at a fixed distance from the end", ZGV_ACCEPTED);
    put_text(e, ".*a......", 9);
    check_expression(e);
    e = new_expression("each byte leads to a set of its own, from everywhere", ZGV_ACCEPTED);
    put_lists(e);
    put_byte(e, '*', 1);
    check_expression(e);
    add_turns("each byte leads to a set of its own, then to one of the two last in turns", ZGV_ACCEPTED, "\xFF?)*");
    if (expressions[expression_count - 1].sets != ZGV_REGEX_SETS)
        fail("the worst expression has not as many sets as it may have");
}

static void add_refused(void)
{
    expression *e;
    add_turns("as the last above, and a set too many at the last byte of the last set", ZGV_TOO_MANY_SETS, "(\xFF\xFF?)?)*");
    e = new_expression("a byte at a fixed distance from the end, one period more", ZGV_TOO_MANY_SETS);
    put_text(e, ".*a.......", 10);
    check_expression(e);
    e = new_expression("512 opening parentheses", ZGV_NO_EXPRESSION);
    put_byte(e, '(', ZGV_REGEX_BYTES);
    check_expression(e);
    e = new_expression("255 parentheses inside others", ZGV_LARGE_EXPRESSION);
    put_byte(e, '(', 255);
    put_byte(e, 'a', 1);
    put_byte(e, ')', 255);
    check_expression(e);
    e = new_expression("102 lists of all bytes", ZGV_LARGE_EXPRESSION);
    while (e->len < 510)
        put_text(e, "[\x01-\xFF]", 5);
    check_expression(e);
    e = new_expression("512 bytes", ZGV_LARGE_EXPRESSION);
    put_byte(e, 'a', ZGV_REGEX_BYTES);
    check_expression(e);
}

/* The expression as code of a page. */
static void print_expression(const expression *e)
{
    size_t i;
    printf("`");
    for (i = 0; i < e->len; i++)
        if (e->text[i] == '|')
            printf("\\|");
        else if (e->text[i] < ' ' || e->text[i] > '~')
            printf(e->text[i] == '\t' ? "\\t" : e->text[i] == '\n' ? "\\n" : e->text[i] == '\r' ? "\\r" : "\\x%02X", e->text[i]);
        else
            printf("%c", e->text[i]);
    printf("`");
}

static void house_zgv(void)
{
    size_t i;
    for (i = 0; i < HOUSE; i++)
        run_expression(i);
}

#if defined HAVE_FLEX || defined HAVE_RE2C
/* Processor time of programs that this one started. */
static double now_started(void)
{
    struct rusage r;
    getrusage(RUSAGE_CHILDREN, &r);
    return (double)(r.ru_utime.tv_sec + r.ru_stime.tv_sec) + 1e-6 * (double)(r.ru_utime.tv_usec + r.ru_stime.tv_usec);
}

/* A line of the table: the best time of a program over a file of the rules. */
static void tool_line(const char *name, const char *command, double house)
{
    double best = 1e9;
    int round;
    for (round = 0; round < TOOL_ROUNDS; round++) {
        double begin = now_started(), spent;
        if (system(command) != 0)
            fail("a generator fails");
        spent = now_started() - begin;
        if (spent < best)
            best = spent;
    }
    printf("| %s | %.2f | %.0f |\n", name, best * 1e6, best / house);
}
#endif

static void bench_expressions(void)
{
    double best[EXPRESSIONS], house;
    size_t i, worst, refused;
    contender all[] = {{"", house_zgv, 0, 0}};
    add_house();
    worst = expression_count;
    add_worst();
    refused = expression_count;
    add_refused();
    measure_each(run_expression, expression_count, best);
    printf("\n### Making rules of a song house's expressions\n\n"
           "| rule | expression | its bytes | sets | bytes of the rule | µs a call |\n|---|---|---:|---:|---:|---:|\n");
    for (i = 0; i < worst; i++) {
        printf("| %s | ", expressions[i].name);
        print_expression(&expressions[i]);
        printf(" | %lu | %lu | %lu | %.2f |\n", (unsigned long)expressions[i].len, (unsigned long)expressions[i].sets,
               (unsigned long)zgv_first(expressions[i].answer), best[i] * 1e6);
    }
    printf("\n### Making rules of the worst expressions\n\n"
           "| expression | its bytes | sets | bytes of the rule | µs a call |\n|---|---:|---:|---:|---:|\n");
    for (i = worst; i < refused; i++)
        printf("| %s | %lu | %lu | %lu | %.2f |\n", expressions[i].name, (unsigned long)expressions[i].len,
               (unsigned long)expressions[i].sets, (unsigned long)zgv_first(expressions[i].answer), best[i] * 1e6);
    printf("\n### Refusing expressions\n\n| expression | its bytes | refused by | µs a call |\n|---|---:|---:|---:|\n");
    for (i = refused; i < expression_count; i++)
        printf("| %s | %lu | %u | %.2f |\n", expressions[i].name, (unsigned long)expressions[i].len, expressions[i].number,
               best[i] * 1e6);
    measure(all, 1);
    house = all[0].best;
    printf("\n### The song house's dozen, beside generators of scanners\n\n| | µs | time, first line = 1 |\n|---|---:|---:|\n"
           "| `zgv_compile`, a call for each | %.2f | 1 |\n", house * 1e6);
    fflush(stdout);
#ifdef HAVE_FLEX
    tool_line("flex, full tables, a run of the program", "exec flex -Cf -o build/bench/house.flex.c bench/house.l", house);
    tool_line("flex, compressed tables, the same", "exec flex -Cem -o build/bench/house.flex.c bench/house.l", house);
#endif
#ifdef HAVE_RE2C
    tool_line("re2c, a run of the program", "exec re2c -o build/bench/house.re2c.c bench/house.re", house);
#endif
}

/* ---- Hostile inputs */

static size_t hostile_len;
static uint8_t hostile_text[SHEET + 2]; /* bytes "a", and behind them zeros, the first of which is a separator */
static uint8_t *hostile_list;
static size_t hostile_tokens;

static void hostile_zgv(void)
{
    sink = zgv_lex(grown.bytes, grown.len, hostile_text, hostile_len, records, ROOM, masks, MASK_ROOM);
}
static void hostile_counted(void)
{
    sink = zgv_lex(grown.bytes, grown.len, hostile_text, hostile_len, records, (hostile_len - 1) * ZGV_RECORD_BYTES, masks,
                   MASK_ROOM);
}
static void hostile_chains(void) { sink = chains_lex(grown.bytes, grown.len, hostile_text, hostile_len, records, ROOM); }
static void hostile_dense(void) { sink = dense_lex(table, hostile_text, hostile_len, records); }
#ifdef HAVE_FLEX
static void hostile_flex(void) { sink = flex_hostile((char *)hostile_text, hostile_len, records); }
#endif
#ifdef HAVE_RE2C
static void hostile_re2c(void) { sink = re2c_hostile((char *)hostile_text, hostile_len, records); }
#endif
static void hostile_print(void)
{
    sink = zgv_print(grown.bytes, grown.len, hostile_list, hostile_tokens * ZGV_RECORD_BYTES, hostile_text, hostile_len, out, SHEET);
}
static void hostile_mode(uint32_t mode)
{
    sink = zgv_print_separated(grown.bytes, grown.len, 2, (uint32_t)hostile_len, 1, mode, hostile_list,
                               hostile_tokens * ZGV_RECORD_BYTES, hostile_text, hostile_len + 1, out, SHEET);
}
static void hostile_mode_1(void) { hostile_mode(ZGV_MODE_ALL); }
static void hostile_mode_2(void) { hostile_mode(ZGV_MODE_SPARE); }

/* A list of so many tokens of one length, all at the text's start. */
static void make_list(size_t tokens, size_t length)
{
    zgv_token token = {1, 0, 0};
    size_t i;
    token.length = (uint32_t)length;
    hostile_tokens = tokens;
    for (i = 0; i < tokens; i++)
        zgv_put_record(hostile_list, i, token);
}
static void single_bytes(void) { make_list(hostile_len, 1); }
static void half_the_bytes(void) { make_list(hostile_len / 2, 1); }
static void whole_texts(void) { make_list(hostile_len, hostile_len); }

/* A last byte that no rule matches: one token less than bytes, so that records can be enough and fewer. */
static void stray_end(void) { hostile_text[hostile_len - 1] = 'c'; }

/* A rule for a's, plain, and one for the byte 00, separator. The first matches "a" and any number of a's with a "b" behind
   them, or, where `runs`, one or more a's. */
static void make_hostile_book(int runs)
{
    make_book(&grown, 0);
    open_rule(1, runs ? 2 : 1);
    make_final(&grown, 3);
    step(0, 'a', runs ? 2 : 1);
    step(0, 'b', 3);
    step(1, 'a', 2);
    step(1, 'b', 3);
    step(2, 'a', 2);
    step(2, 'b', 3);
    end_rule();
    make_rule(&grown, 2, ZGV_KIND_SEPARATOR, 0, 255);
    make_final(&grown, 1);
    step(0, 0, 1);
    end_rule();
    end_book();
}

/* A line of a table: seconds for texts of a quarter and a half of the limit, each the best of three runs, and for one of the
   limit, one run. */
static void hostile_line(const char *name, void (*run)(void), unsigned number, void (*prepare)(void))
{
    size_t part;
    printf("| %s |", name);
    for (part = 4; part > 0; part /= 2) {
        double best = 1e9;
        int round;
        hostile_len = SHEET / part;
        memset(hostile_text, 0, sizeof hostile_text);
        memset(hostile_text, 'a', hostile_len);
        if (prepare != NULL)
            prepare();
        for (round = 0; round < (part == 1 ? 1 : 3); round++) {
            double begin = now(), spent;
            run();
            spent = now() - begin;
            if (spent < best)
                best = spent;
        }
        if (zgv_number(sink) != number || (number == ZGV_ACCEPTED && prepare == NULL && zgv_first(sink) != hostile_len))
            fail("a hostile input is answered otherwise");
        printf(" %.3f |", best);
        fflush(stdout);
    }
    printf("\n");
}

static void bench_hostile(void)
{
    const char *head = "| | 16,384 bytes | 32,768 | 65,536 |\n|---|---:|---:|---:|\n";
    hostile_list = malloc(ROOM);
    if (hostile_list == NULL)
        fail("out of memory");
    make_hostile_book(0);
    if (!dense_build(table, grown.bytes, grown.len))
        fail("the hostile book has no dense table");
    printf("\n### Hostile texts, seconds\n\n" NO_MASKS "\n\n%s", head);
    hostile_line("`zgv_lex`", hostile_zgv, ZGV_ACCEPTED, NULL);
    hostile_line("`zgv_lex`, fewer records than bytes", hostile_counted, ZGV_ACCEPTED, stray_end);
    hostile_line("chains in C", hostile_chains, ZGV_ACCEPTED, NULL);
    hostile_line("one dense table in C, built before", hostile_dense, ZGV_ACCEPTED, NULL);
#ifdef HAVE_FLEX
    hostile_line("flex, full tables", hostile_flex, ZGV_ACCEPTED, NULL);
#endif
#ifdef HAVE_RE2C
    hostile_line("re2c", hostile_re2c, ZGV_ACCEPTED, NULL);
#endif
    printf("\n### Hostile lists, seconds\n\n%s", head);
    hostile_line("`zgv_print`, a token for each byte", hostile_print, ZGV_ACCEPTED, single_bytes);
    hostile_line("`zgv_print_separated`, mode 2, the same", hostile_mode_2, ZGV_ACCEPTED, single_bytes);
    hostile_line("`zgv_print_separated`, mode 1, half as many", hostile_mode_1, ZGV_ACCEPTED, half_the_bytes);
    make_hostile_book(1);
    hostile_line("`zgv_print`, for each byte a token of the whole text", hostile_print, ZGV_OUTPUT_TOO_LONG, whole_texts);
    hostile_line("`zgv_print_separated`, mode 2, the same", hostile_mode_2, ZGV_OUTPUT_TOO_LONG, whole_texts);
}

int main(int argc, char **argv)
{
    sheet = calloc(1, SHEET + 2);
    records = calloc(1, ROOM);
    masks = calloc(1, MASK_ROOM);
    out = calloc(1, SHEET);
    table = malloc(sizeof *table);
    if (sheet == NULL || records == NULL || masks == NULL || out == NULL || table == NULL)
        fail("out of memory");
    if (argc != 2 && !(argc == 3 && (strcmp(argv[2], "earlier") == 0 || strcmp(argv[2], "expressions") == 0)))
        fail("usage: bench BOOK [earlier | expressions]");
    if (argc == 3 && strcmp(argv[2], "expressions") == 0) {
        bench_expressions();
        return 0;
    }
    read_builtin(argv[1]);
    make_sheet();
    make_lines();
    make_largest();
    make_small();
    make_all_full();
    if (!dense_build(table, book, book_len))
        fail("the built-in book has no dense table");
    check_same();
    if (argc == 2) {
        bench_lexers();
        bench_turns();
    }
    bench_printers();
    bench_line_printers();
#ifdef HAVE_OLD
    bench_old();
    bench_old_rules();
#endif
    if (argc == 3)
        return 0;
    bench_growth();
    bench_reading();
    bench_full();
    bench_overlapping();
    bench_small();
    bench_rewriting();
    bench_largest();
    bench_expressions();
    bench_hostile();
    return 0;
}
