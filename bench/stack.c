/*
 * stack.c - how deep each call goes on the stack
 *
 *    stack BOOK            prints a table
 *    stack BOOK HEADER     holds the bytes that the header states (STACK) to what is measured: each must be 4,096 above it
 *
 * Each call is the first one of a process of its own, in a thread whose stack is painted with one byte; what is no longer
 * painted was used. The use of a thread that makes no call is taken off. Nothing here calls memset() or memcpy() before, and the
 * program is linked with -z lazy, so that binding them counts too.
 */
#define _GNU_SOURCE

#include "zagvulem.h"

#include <pthread.h>
#include <stdio.h>
#include <stdlib.h>
#include <string.h>
#include <sys/wait.h>
#include <unistd.h>

enum { STACK = 1 << 22, PAINT = 0xC7, MARGIN = 4096, SIZES = 3 };

static uint8_t small[ZGV_BOOK_BYTES], book[ZGV_BOOK_BYTES]; /* the book that is given, and the one that is measured */
static size_t small_len, book_len;
static const uint8_t text[] = "[00:12.50]oh yes [fade]\n[00:1";
static uint8_t records[sizeof text * ZGV_RECORD_BYTES], masks[sizeof text * ZGV_MASK_BYTES];
static uint8_t plain[2 * ZGV_RECORD_BYTES];
static uint8_t out[256];
static uint8_t spans[ZGV_BOOK_BYTES], rewritten[ZGV_BOOK_BYTES];
static size_t spans_len;
static uint8_t compiled[ZGV_REGEX_OUTPUT];
static uint64_t next, examined;
static volatile uint64_t sink;

static void *nothing(void *unused)
{
    sink = 0;
    return unused;
}
static void *read_book(void *unused)
{
    sink = zgv_read_book(book, book_len);
    return unused;
}
static void *read_book_strict(void *unused)
{
    sink = zgv_read_book_strict(spans, spans_len);
    return unused;
}
static void *rewrite_book(void *unused)
{
    sink = zgv_rewrite_book(book, book_len, rewritten, sizeof rewritten);
    return unused;
}
static void *rule(void *unused)
{
    sink = zgv_rule(book, book_len, 2);
    return unused;
}
/* Parentheses that open at each of 512 bytes, for which the reader goes deepest before it refuses; then an expression of which they are as
   deep as they may be, with nearly as many positions and sets as it may have. */
static void *compile(void *unused)
{
    static const uint8_t large[] = "((((((((((((((((a|b)*a))))(a|b)(a|b)(a|b)(a|b)(a|b))))))))))))"
                                   "(.c.d.e.f.g.h.i.j.k.l.m.n.o.p.q.r.s.t.u.v.w.x.y.z)?";
    static uint8_t deep[ZGV_REGEX_BYTES];
    size_t i;
    for (i = 0; i < sizeof deep; i++)
        ((volatile uint8_t *)deep)[i] = '(';
    sink = zgv_compile(1, ZGV_KIND_PLAIN, deep, sizeof deep, compiled, sizeof compiled);
    if (zgv_number(sink) == ZGV_NO_EXPRESSION)
        sink = zgv_compile(1, ZGV_KIND_PLAIN, large, sizeof large - 1, compiled, sizeof compiled);
    return unused;
}
static void *lex(void *unused)
{
    sink = zgv_lex(book, book_len, text, sizeof text - 1, records, sizeof records, masks, sizeof masks);
    return unused;
}
static void *lex_within(void *unused)
{
    sink = zgv_lex_within(book, book_len, text, sizeof text - 1, 0, sizeof text, records, sizeof records, masks, sizeof masks, &next,
                          &examined);
    return unused;
}
static void *lex_builtin(void *unused)
{
    sink = zgv_lex_builtin(text, sizeof text - 1, records, sizeof records, masks, sizeof masks);
    return unused;
}
static void *print(void *unused)
{
    sink = zgv_print(book, book_len, records, 3 * ZGV_RECORD_BYTES, text, sizeof text - 1, out, sizeof out);
    return unused;
}
static void *print_separated(void *unused)
{
    sink = zgv_print_separated(book, book_len, 3, 12, 1, ZGV_MODE_SPARE, plain, sizeof plain, text, sizeof text - 1, out,
                               sizeof out);
    return unused;
}

static const struct {
    const char *name;
    void *(*call)(void *);
} calls[] = {{"zgv_read_book", read_book},
             {"zgv_read_book_strict", read_book_strict},
             {"zgv_rule", rule},
             {"zgv_rewrite_book", rewrite_book},
             {"zgv_compile", compile},
             {"zgv_lex", lex},
             {"zgv_lex_within", lex_within},
             {"zgv_lex_builtin", lex_builtin},
             {"zgv_print", print},
             {"zgv_print_separated", print_separated}};

enum { CALLS = sizeof calls / sizeof calls[0] };

/* The first three tokens of the text, for the printers. */
static void fill_records(void)
{
    static const zgv_token tokens[] = {{1, 0, 10}, {2, 10, 2}, {3, 12, 1}};
    size_t i;
    for (i = 0; i < 3; i++)
        zgv_put_record(records, i, tokens[i]);
    for (i = 0; i < 2; i++)
        zgv_put_record(plain, i, tokens[i]);
}

/* A copy without memcpy(). */
static void copy(volatile uint8_t *to, const uint8_t *from, size_t count)
{
    while (count-- > 0)
        *to++ = *from++;
}

static void put(const uint8_t *bytes, size_t count)
{
    copy(book + book_len, bytes, count);
    book_len += count;
}

/* A plain rule with states above 255, for which the reader takes more cells. After a "z" it has a blank on a dead branch, so that the ways
   to final states are sought, with more cells too. */
static void put_wide_rule(void)
{
    static const uint8_t rule[] = {1, 0, 80, 0, 9, 0, 0, 10, 15, 255, 11, 1, 0, 12, 0, 0, 'z', 'z', 1, 0,
                                   12, 1, 0, ' ', ' ', 1, 1, 7};
    put(rule, sizeof rule);
}

/* A plain rule that takes letters, of 11 bytes and five for each move. */
static void put_letters(unsigned tag, unsigned moves)
{
    const uint8_t head[] = {1, 0, (uint8_t)tag, 0, 2, 0, 3, 255, 4, 1}, close = 7;
    unsigned k;
    put(head, sizeof head);
    for (k = 0; k < moves; k++) {
        const unsigned state = k / 25, letter = 'a' + k % 25;
        const uint8_t span[] = {6, (uint8_t)(state < 1 ? 0 : state + 1), (uint8_t)letter, (uint8_t)letter, 1};
        put(span, sizeof span);
    }
    put(&close, 1);
}

/* The book of a size: the given one; and with rules to the limit, the first of them that of states above 255, just below 8,192 bytes and
   just below the longest. */
static void fill_book(size_t size)
{
    static const unsigned moves[SIZES] = {0, 57, 500};
    static const uint8_t end = 8;
    unsigned tag;
    book_len = 0;
    if (size > 0)
        put_wide_rule();
    put(small, small_len - 1);
    for (tag = 90; size > 0 && tag < 90 + ZGV_BOOK_RULES - 6; tag++)
        put_letters(tag, moves[size]);
    put(&end, 1);
}

/* The book for the stricter reading: a SPAN in the place of each STEP. */
static void fill_spans(void)
{
    static const uint8_t lengths[] = {1, 4, 2, 2, 2, 4, 5, 1, 1, 3, 3, 3, 7};
    const uint8_t *command = book;
    spans_len = 0;
    for (; command < book + book_len; command += lengths[*command]) {
        const uint8_t span[] = {6, command[1], command[2], command[2], command[3]};
        const size_t length = *command == 5 ? sizeof span : lengths[*command];
        copy(spans + spans_len, *command == 5 ? span : command, length);
        spans_len += length;
    }
}

/* The stack that a thread takes which makes the call; 0 where the call refuses. */
static size_t thread_depth(void *(*call)(void *))
{
    pthread_attr_t attributes;
    pthread_t thread;
    size_t untouched = 0, i;
    volatile uint8_t *stack = aligned_alloc(4096, STACK);
    if (stack == NULL)
        exit(EXIT_FAILURE);
    for (i = 0; i < STACK; i++)
        stack[i] = PAINT;
    if (pthread_attr_init(&attributes) != 0 || pthread_attr_setstack(&attributes, (void *)stack, STACK) != 0
        || pthread_create(&thread, &attributes, call, NULL) != 0 || pthread_join(thread, NULL) != 0)
        exit(EXIT_FAILURE);
    while (untouched < STACK && stack[untouched] == PAINT)
        untouched++;
    return zgv_number(sink) == ZGV_ACCEPTED ? STACK - untouched : 0;
}

/* The same in a process of its own, in which it is the first call. */
static size_t depth(const char *name, void *(*call)(void *))
{
    size_t used = 0;
    int ends[2], status;
    pid_t child;
    if (pipe(ends) != 0 || (child = fork()) < 0)
        exit(EXIT_FAILURE);
    if (child == 0) {
        used = thread_depth(call);
        _exit(write(ends[1], &used, sizeof used) == sizeof used ? EXIT_SUCCESS : EXIT_FAILURE);
    }
    close(ends[1]);
    if (read(ends[0], &used, sizeof used) != sizeof used || waitpid(child, &status, 0) != child || status != 0 || used == 0) {
        fprintf(stderr, "stack: %s refuses or fails\n", name);
        exit(EXIT_FAILURE);
    }
    close(ends[0]);
    return used;
}

/* The numbers, with commas, of which a text consists; 0 where it has others than one or two, or anything else. */
static int numbers(const char *text, size_t found[2])
{
    int count = 0;
    for (;;) {
        while (*text == ' ' || *text == '\n')
            text++;
        if (*text == '\0')
            return count;
        if (*text < '0' || *text > '9' || count == 2)
            return 0;
        found[count] = 0;
        for (; (*text >= '0' && *text <= '9') || *text == ','; text++)
            if (*text != ',')
                found[count] = 10 * found[count] + (size_t)(*text - '0');
        count++;
    }
}

/* Reads the "zgv_NAME()  BYTES  BYTES" lines of the header's comment. The second number is for the largest book, the first for the
   others; one alone is for all. */
static int read_header(const char *header, size_t stated[SIZES][CALLS])
{
    char line[256];
    FILE *file = fopen(header, "r");
    if (file == NULL) {
        perror(header);
        return 0;
    }
    while (fgets(line, sizeof line, file) != NULL && strstr(line, "#ifndef") == NULL) {
        char name[32];
        int end = 0, count;
        size_t found[2], i, size;
        if (sscanf(line, " * %31[a-z_]()%n", name, &end) != 1 || end == 0 || (count = numbers(line + end, found)) == 0)
            continue;
        for (i = 0; i < CALLS; i++)
            for (size = 0; size < SIZES && strcmp(name, calls[i].name) == 0; size++)
                stated[size][i] = found[size == SIZES - 1 ? count - 1 : 0];
    }
    fclose(file);
    return 1;
}

static int hold_header(const char *header, size_t used[SIZES][CALLS])
{
    size_t stated[SIZES][CALLS] = {{0}}, i, size;
    int held = 1;
    if (!read_header(header, stated))
        return 0;
    for (size = 0; size < SIZES; size++)
        for (i = 0; i < CALLS; i++)
            if (stated[size][i] < used[size][i] + MARGIN || stated[size][i] > ZGV_STACK_BYTES) {
                fprintf(stderr, "stack: %s takes %lu, %s states %lu\n", calls[i].name, (unsigned long)used[size][i], header,
                        (unsigned long)stated[size][i]);
                held = 0;
            }
    return held;
}

int main(int argc, char **argv)
{
    size_t i, base, size, used[SIZES][CALLS], lengths[SIZES];
    FILE *file = argc == 2 || argc == 3 ? fopen(argv[1], "rb") : NULL;
    if (file == NULL) {
        fputs("usage: stack BOOK [HEADER]\n", stderr);
        return EXIT_FAILURE;
    }
    small_len = fread(small, 1, sizeof small, file);
    fclose(file);
    fill_records();
    base = depth("nothing", nothing);
    for (size = 0; size < SIZES; size++) {
        fill_book(size);
        lengths[size] = book_len;
        fill_spans();
        for (i = 0; i < CALLS; i++) {
            size_t all = depth(calls[i].name, calls[i].call);
            used[size][i] = all > base ? all - base : 0;
        }
    }
    if (argc == 3)
        return hold_header(argv[2], used) ? EXIT_SUCCESS : EXIT_FAILURE;
    printf("\n### Stack of a first call, bytes\n\n| call | book of %lu bytes | of %lu | of %lu |\n|---|---:|---:|---:|\n",
           (unsigned long)lengths[0], (unsigned long)lengths[1], (unsigned long)lengths[2]);
    for (i = 0; i < CALLS; i++)
        printf("| `%s` | %lu | %lu | %lu |\n", calls[i].name, (unsigned long)used[0][i], (unsigned long)used[1][i],
               (unsigned long)used[2][i]);
    return EXIT_SUCCESS;
}
