/*
 * zgvbook.c - makes, lists and checks books
 *
 *    zgvbook make FILE [-o BOOK]    makes the book of a file of rules
 *    zgvbook list BOOK              lists the rules of a book and their moves
 *    zgvbook check BOOK             says whether a book is accepted
 *
 * FILE has a line for each rule: a tag, a kind and an expression, with blanks or
 * tabs between them.
 *
 *    tag           a whole number from 1 to 65535, no two the same
 *    kind          plain or separator
 *    expression    the rest of the line, as zgv_compile() reads it
 *
 * The rules rank as their lines do. A line that is empty, or begins with a #, is left
 * out; blanks and tabs before a line's first word play no part, nor does a carriage
 * return at its end.
 *
 * Blanks, tabs and #s inside an expression are bytes of it. Those blanks and tabs
 * that a line has before and behind the expression are not: one that an expression
 * begins or ends with is written as a list, [ ]. In an expression, lists included,
 * \t \n \r stand for 09, 0A and 0D, and \xHH, with two hexadecimal digits, for a
 * byte from 01 to 20 or from 7F to FF; zgv_compile() has no such notation. These
 * bytes, but for 0A, may also stand in FILE as they are.
 *
 * Each line that is refused is told as FILE:LINE:COLUMN, with what is wrong; a column
 * counts bytes from 1. Then no book is written. BOOK, standard output without -o, is
 * opened only when the whole book is there and both readings have accepted it.
 *
 * A list, and that a book is accepted, go to standard output, all else that is said
 * to standard error. The exit status is 0 where a book was written, listed or
 * accepted, 1 where a line or a book was refused, 2 where the command line is wrong
 * or a file cannot be read or written.
 */
#define _POSIX_C_SOURCE 200112L

#include "zagvulem.h"

#include <stdio.h>
#include <stdlib.h>
#include <string.h>
#include <sys/stat.h>

enum {
    REFUSED = 1,
    TROUBLE = 2,            /* the command line, or a file */
    RULES_BYTES = 1 << 20,  /* of a file of rules */
    MOST_MESSAGES = 20,
    SHOWN_BYTES = 20,       /* of a word in a message */
    END_COMMAND = 8
};

/* ---- Files */

/* Reads a file, but no more of it than there is room for. */
static int read_file(const char *name, uint8_t *bytes, size_t room, size_t *length)
{
    int whole;
    FILE *file = fopen(name, "rb");
    if (file == NULL) {
        perror(name);
        return 0;
    }
    *length = fread(bytes, 1, room, file);
    whole = !ferror(file);
    if (!whole)
        perror(name);
    fclose(file);
    return whole;
}

/* Writes to a file, or to standard output where it has no name. */
static int write_file(const char *name, const uint8_t *bytes, size_t length)
{
    const char *said = name == NULL ? "standard output" : name;
    FILE *file = name == NULL ? stdout : fopen(name, "wb");
    int whole;
    if (file == NULL) {
        perror(said);
        return 0;
    }
    whole = fwrite(bytes, 1, length, file) == length && fflush(file) == 0;
    if (!whole)
        perror(said);
    if (fclose(file) != 0 && whole) {
        perror(said);
        whole = 0;
    }
    if (!whole)
        fprintf(stderr, "zgvbook: %s is not whole\n", said);
    return whole;
}

/* Whether two names are of one file that is there. */
static int same_file(const char *name, const char *other)
{
    struct stat a, b;
    return stat(name, &a) == 0 && stat(other, &b) == 0 && a.st_dev == b.st_dev && a.st_ino == b.st_ino;
}

/* ---- What is said */

static const char *plural(size_t count)
{
    return count == 1 ? "" : "s";
}

static int is_printable(uint8_t byte)
{
    return byte >= 0x20 && byte <= 0x7E;
}

/* A byte as a character, or in hexadecimal digits. */
static void say_byte(FILE *to, uint8_t byte)
{
    if (is_printable(byte))
        fprintf(to, "'%c'", byte);
    else
        fprintf(to, "%02X", byte);
}

/* A word of a file, or the beginning of a long one. */
static void say_word(const uint8_t *word, size_t length)
{
    size_t i;
    fputc('"', stderr);
    for (i = 0; i < length && i < SHOWN_BYTES; i++)
        if (is_printable(word[i]))
            fputc(word[i], stderr);
        else
            fprintf(stderr, "\\x%02X", word[i]);
    fputs(length > SHOWN_BYTES ? "...\"" : "\"", stderr);
}

static void say_refused_book(const char *name, uint64_t answer)
{
    const unsigned number = zgv_number(answer);
    fprintf(stderr, "%s: refused: %s (number %u, byte %lu of the book)\n", name, zgv_refusal_text(number), number,
            (unsigned long)zgv_place(answer));
}

/* ---- A file of rules */

/* One line: where it stands, and how far it has been read. */
typedef struct line {
    const char *file;
    size_t number;         /* from 1 */
    const uint8_t *bytes;  /* without its end */
    size_t length, at;
} line;

/* An expression as zgv_compile() takes it, with one byte of room past the limit, and of each of its bytes the place in the line. The place
   behind the last one is there too. */
typedef struct expression {
    uint8_t bytes[ZGV_REGEX_BYTES + 1];
    size_t places[ZGV_REGEX_BYTES + 2];
    size_t length;
} expression;

/* The book so far, of accepted rules, without an END. */
typedef struct making {
    uint8_t book[ZGV_BOOK_BYTES + ZGV_REGEX_OUTPUT + 1];
    size_t length, rules, messages;
} making;

/* Begins a message on the line: its file, number and column. */
static void say_where(const line *l, size_t place)
{
    fprintf(stderr, "%s:%lu:%lu: ", l->file, (unsigned long)l->number, (unsigned long)place + 1);
}

static int say_wrong_word(const line *l, const char *rule, size_t place, size_t length)
{
    say_where(l, place);
    fprintf(stderr, "%s, not ", rule);
    say_word(l->bytes + place, length);
    fputc('\n', stderr);
    return 0;
}

static int is_blank(uint8_t byte)
{
    return byte == ' ' || byte == '\t';
}

static void skip_blanks(line *l)
{
    while (l->at < l->length && is_blank(l->bytes[l->at]))
        l->at++;
}

/* Goes to the end of the word and says where it began. */
static size_t take_word(line *l)
{
    size_t begin;
    skip_blanks(l);
    begin = l->at;
    while (l->at < l->length && !is_blank(l->bytes[l->at]))
        l->at++;
    return begin;
}

static int read_tag(line *l, uint16_t *tag)
{
    const size_t begin = take_word(l);
    unsigned long value = 0;
    size_t i;
    for (i = begin; i < l->at && value <= 65535; i++) {
        if (l->bytes[i] < '0' || l->bytes[i] > '9')
            break;
        value = 10 * value + (unsigned long)(l->bytes[i] - '0');
    }
    if (i < l->at || value < 1 || value > 65535)
        return say_wrong_word(l, "a tag is a whole number from 1 to 65535", begin, l->at - begin);
    *tag = (uint16_t)value;
    return 1;
}

static int read_kind(line *l, uint32_t *kind)
{
    static const char *const names[] = {"plain", "separator"};
    const size_t begin = take_word(l), length = l->at - begin;
    uint32_t k;
    for (k = 0; k < 2; k++)
        if (length == strlen(names[k]) && memcmp(l->bytes + begin, names[k], length) == 0) {
            *kind = k == 0 ? ZGV_KIND_PLAIN : ZGV_KIND_SEPARATOR;
            return 1;
        }
    return say_wrong_word(l, "a kind is plain or separator", begin, length);
}

static int digit(uint8_t byte)
{
    if (byte >= '0' && byte <= '9')
        return byte - '0';
    if (byte >= 'a' && byte <= 'f')
        return byte - 'a' + 10;
    return byte >= 'A' && byte <= 'F' ? byte - 'A' + 10 : -1;
}

/* The byte of \xHH at the place of its backslash, and -1 where it is none that may be written so. */
static int hex_byte(const line *l, size_t end)
{
    int high = l->at + 2 < end ? digit(l->bytes[l->at + 2]) : -1, low = l->at + 3 < end ? digit(l->bytes[l->at + 3]) : -1, byte;
    if (high < 0 || low < 0)
        return -1;
    byte = 16 * high + low;
    return byte == 0 || (byte > 0x20 && byte < 0x7F) ? -1 : byte;
}

static void put_byte(expression *e, uint8_t byte, size_t place)
{
    if (e->length == sizeof e->bytes)
        return;
    e->bytes[e->length] = byte;
    e->places[e->length++] = place;
}

/* Takes what begins with a backslash: a byte in this file's own notation, or two bytes that go to zgv_compile(). */
static int take_escape(line *l, size_t end, expression *e)
{
    static const char letters[] = "tnr", bytes[] = "\t\n\r";
    const uint8_t next = l->at + 1 < end ? l->bytes[l->at + 1] : 0;
    const char *letter = next == 0 ? NULL : strchr(letters, next);
    size_t taken = 2;
    if (letter != NULL) {
        put_byte(e, (uint8_t)bytes[letter - letters], l->at);
    } else if (next == 'x') {
        const int byte = hex_byte(l, end);
        if (byte < 0)
            return say_wrong_word(l, "\\x has two hexadecimal digits, of a byte from 01 to 20 or from 7F to FF", l->at,
                                  end - l->at < 4 ? end - l->at : 4);
        put_byte(e, (uint8_t)byte, l->at);
        taken = 4;
    } else {
        put_byte(e, '\\', l->at);
        if (l->at + 1 == end)
            taken = 1;
        else
            put_byte(e, next, l->at + 1);
    }
    l->at += taken;
    return 1;
}

/* Reads the rest of the line, without the blanks around it. */
static int read_expression(line *l, expression *e)
{
    size_t end = l->length;
    skip_blanks(l);
    while (end > l->at && is_blank(l->bytes[end - 1]))
        end--;
    e->length = 0;
    e->places[0] = l->at;
    while (l->at < end) {
        if (l->bytes[l->at] == '\\') {
            if (!take_escape(l, end, e))
                return 0;
        } else {
            put_byte(e, l->bytes[l->at], l->at);
            l->at++;
        }
    }
    e->places[e->length] = end;
    return 1;
}

/* Why zgv_compile() refuses; 30 also says at which byte. */
static void say_refused_expression(const line *l, const expression *e, uint64_t answer)
{
    const unsigned number = zgv_number(answer);
    const size_t place = (size_t)zgv_place(answer);
    say_where(l, e->places[number == ZGV_NO_EXPRESSION ? place : 0]);
    fprintf(stderr, "refused: %s (number %u", zgv_refusal_text(number), number);
    if (number == ZGV_NO_EXPRESSION && place < e->length) {
        fputs(", at ", stderr);
        say_byte(stderr, e->bytes[place]);
    } else if (number == ZGV_NO_EXPRESSION) {
        fputs(e->length == 0 ? ", there is none" : ", at its end", stderr);
    }
    fputs(")\n", stderr);
}

/* Why no book may have the rule: the tag's fault, or the expression's. */
static void say_refused_rule(const line *l, const expression *e, size_t tag_place, size_t rules, uint64_t answer)
{
    const unsigned number = zgv_number(answer);
    const int of_tag = number == ZGV_TAG_TAKEN || (number == ZGV_TOO_MANY && rules == ZGV_BOOK_RULES);
    say_where(l, of_tag ? tag_place : e->places[0]);
    if (number == ZGV_START_FINAL)
        fprintf(stderr, "refused: the expression matches the empty string (number %u)\n", number);
    else
        fprintf(stderr, "refused: %s (number %u)\n", zgv_refusal_text(number), number);
}

/* Adds the rule of a line to the book, or says why not. */
static int add_rule(line *l, making *m)
{
    static expression e;
    uint16_t tag = 0;
    uint32_t kind = 0;
    uint64_t answer;
    const size_t tag_place = l->at;
    size_t length;
    if (!read_tag(l, &tag) || !read_kind(l, &kind) || !read_expression(l, &e))
        return 0;
    /* the byte behind what a rule takes is for an END */
    answer = zgv_compile(tag, kind, e.bytes, e.length, m->book + m->length, sizeof m->book - 1 - m->length);
    if (zgv_number(answer) != ZGV_ACCEPTED) {
        say_refused_expression(l, &e, answer);
        return 0;
    }
    length = m->length + zgv_first(answer);
    m->book[length] = END_COMMAND;
    answer = zgv_read_book(m->book, length + 1);
    if (zgv_number(answer) != ZGV_ACCEPTED) {
        say_refused_rule(l, &e, tag_place, m->rules, answer);
        return 0;
    }
    m->length = length;
    m->rules = zgv_first(answer);
    return 1;
}

/* Makes the rules of all lines; says of each line that is refused why. */
static int add_rules(const char *name, const uint8_t *bytes, size_t length, making *m)
{
    size_t begin = 0, number;
    for (number = 1; begin < length; number++) {
        const uint8_t *feed = memchr(bytes + begin, '\n', length - begin);
        const size_t end = feed == NULL ? length : (size_t)(feed - bytes);
        line l;
        l.file = name;
        l.number = number;
        l.bytes = bytes + begin;
        l.length = end - begin;
        l.at = 0;
        if (l.length > 0 && l.bytes[l.length - 1] == '\r')
            l.length--;
        begin = end + 1;
        skip_blanks(&l);
        if (l.at == l.length || l.bytes[l.at] == '#' || add_rule(&l, m))
            continue;
        if (++m->messages == MOST_MESSAGES && begin < length) {
            fprintf(stderr, "zgvbook: %d lines are refused, and what follows them is not read\n", MOST_MESSAGES);
            break;
        }
    }
    return m->messages == 0;
}

static int make_book(const char *name, const char *out)
{
    /* one byte past the limit, which a file that is too long fills */
    static uint8_t bytes[RULES_BYTES + 1];
    static making m;
    size_t length;
    uint64_t answer, strict;
    if (out != NULL && same_file(name, out)) {
        fprintf(stderr, "zgvbook: BOOK is another file than \"%s\"\n", name);
        return TROUBLE;
    }
    if (!read_file(name, bytes, sizeof bytes, &length))
        return TROUBLE;
    if (length > RULES_BYTES) {
        fprintf(stderr, "%s: refused: the file has more than %d bytes\n", name, RULES_BYTES);
        return REFUSED;
    }
    if (!add_rules(name, bytes, length, &m)) {
        fputs("zgvbook: nothing is written\n", stderr);
        return REFUSED;
    }
    m.book[m.length++] = END_COMMAND;
    answer = zgv_read_book(m.book, m.length);
    strict = zgv_read_book_strict(m.book, m.length);
    if (zgv_number(answer) != ZGV_ACCEPTED || answer != strict) {
        answer = zgv_number(answer) != ZGV_ACCEPTED ? answer : strict;
        fprintf(stderr, "%s: refused: %s (number %u)\nzgvbook: nothing is written\n", name, zgv_refusal_text(zgv_number(answer)),
                zgv_number(answer));
        return REFUSED;
    }
    if (!write_file(out, m.book, m.length))
        return TROUBLE;
    fprintf(stderr, "%s: %lu rule%s, a book of %lu bytes\n", name, (unsigned long)m.rules, plural(m.rules), (unsigned long)m.length);
    return EXIT_SUCCESS;
}

/* ---- A book */

/* Reads a book from a file and has it checked by the ordinary reading; gives the exit status. */
static int take_book(const char *name, uint8_t *book, size_t room, size_t *length, size_t *rules)
{
    uint64_t answer;
    if (!read_file(name, book, room, length))
        return TROUBLE;
    answer = zgv_read_book(book, *length);
    if (zgv_number(answer) != ZGV_ACCEPTED) {
        say_refused_book(name, answer);
        return REFUSED;
    }
    *rules = zgv_first(answer);
    return EXIT_SUCCESS;
}

/* A state of one byte or of two, by the command that it is an operand of. */
static unsigned state_at(uint8_t command, const uint8_t *operand)
{
    return command < 9 ? operand[0] : (unsigned)operand[0] << 8 | operand[1];
}

static void list_move(unsigned from, uint8_t low, uint8_t high, unsigned to)
{
    printf("  from %u at ", from);
    say_byte(stdout, low);
    if (low != high) {
        putchar('-');
        say_byte(stdout, high);
    }
    printf(" to %u\n", to);
}

/* Lists one rule of an accepted book: its tag, kind, start, error and final states, and its moves, each in the order of the book. Says
   where the next command stands. */
static const uint8_t *list_rule(const uint8_t *rule)
{
    static const uint8_t widths[] = {1, 4, 2, 2, 2, 4, 5, 1, 1, 3, 3, 3, 7};
    const uint8_t *c;
    unsigned start = 0, error = 0;
    for (c = rule; *c != 7; c += widths[*c]) {
        if (*c == 2 || *c == 9)
            start = state_at(*c, c + 1);
        if (*c == 3 || *c == 10)
            error = state_at(*c, c + 1);
    }
    printf("tag %u, %s: start %u, error %u, final", (unsigned)rule[1] << 8 | rule[2],
           rule[3] == ZGV_KIND_PLAIN ? "plain" : "separator", start, error);
    for (c = rule; *c != 7; c += widths[*c])
        if (*c == 4 || *c == 11)
            printf(" %u", state_at(*c, c + 1));
    putchar('\n');
    for (c = rule; *c != 7; c += widths[*c])
        switch (*c) {
        case 5:
            list_move(c[1], c[2], c[2], c[3]);
            break;
        case 6:
            list_move(c[1], c[2], c[3], c[4]);
            break;
        case 12:
            list_move(state_at(*c, c + 1), c[3], c[4], state_at(*c, c + 5));
            break;
        }
    return c + 1;
}

/* Whether all that was put to standard output is there. */
static int end_output(void)
{
    if (fflush(stdout) == 0 && !ferror(stdout))
        return EXIT_SUCCESS;
    perror("standard output");
    return TROUBLE;
}

static int list_book(const char *name)
{
    static uint8_t book[ZGV_BOOK_BYTES + 1];
    size_t length, rules;
    const uint8_t *command = book;
    const int status = take_book(name, book, sizeof book, &length, &rules);
    if (status != EXIT_SUCCESS)
        return status;
    while (*command != END_COMMAND)
        command = list_rule(command);
    return end_output();
}

/* What an author may want to know of an accepted book: a STEP, and a byte for which the printer with separators refuses every list. */
static void say_remarks(const char *name, const uint8_t *book, size_t length)
{
    uint64_t answer = zgv_read_book_strict(book, length);
    if (zgv_number(answer) == ZGV_RETIRED)
        printf("%s: %s: at byte %lu (number %u of the stricter reading); modernize rewrites it\n", name, zgv_refusal_text(ZGV_RETIRED),
               (unsigned long)zgv_place(answer), ZGV_RETIRED);
    answer = zgv_print_separated(book, length, 1, 0, 0, ZGV_MODE_SPARE, NULL, 0, NULL, 0, NULL, 0);
    if (zgv_number(answer) == ZGV_SHARED_BYTE)
        printf("%s: %s: byte %02lX (number %u of printing with separators)\n", name, zgv_refusal_text(ZGV_SHARED_BYTE),
               (unsigned long)zgv_place(answer), ZGV_SHARED_BYTE);
}

static int check_book(const char *name)
{
    static uint8_t book[ZGV_BOOK_BYTES + 1];
    size_t length, rules;
    const int status = take_book(name, book, sizeof book, &length, &rules);
    if (status != EXIT_SUCCESS)
        return status;
    printf("%s: accepted: %lu rule%s, %lu bytes\n", name, (unsigned long)rules, plural(rules), (unsigned long)length);
    say_remarks(name, book, length);
    return end_output();
}

/* ---- The command line */

static int usage(void)
{
    fputs("usage: zgvbook make FILE [-o BOOK]\n"
          "       zgvbook list BOOK\n"
          "       zgvbook check BOOK\n"
          "  make   makes the book of a file with a line for each rule: TAG plain|separator EXPRESSION\n"
          "  list   lists the rules of a book and their moves\n"
          "  check  says whether a book is accepted\n",
          stderr);
    return TROUBLE;
}

int main(int argc, char **argv)
{
    const char *file = NULL, *out = NULL;
    int i;
    if (argc < 3)
        return usage();
    for (i = 2; i < argc; i++)
        if (strcmp(argv[i], "-o") == 0 && out == NULL && i + 1 < argc && strcmp(argv[1], "make") == 0)
            out = argv[++i];
        else if (argv[i][0] == '-' || file != NULL)
            return usage();
        else
            file = argv[i];
    if (file == NULL)
        return usage();
    if (strcmp(argv[1], "make") == 0)
        return make_book(file, out);
    if (strcmp(argv[1], "list") == 0)
        return list_book(file);
    return strcmp(argv[1], "check") == 0 ? check_book(file) : usage();
}
