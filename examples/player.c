/*
 * player.c - a player that changes the cues of a timed lyric sheet
 *
 *    player [-l] [-r] [--turns N [--save FILE]] BOOK SHEET [SECONDS [OLD NEW]]
 *    player --hidden [-r] [--turns N [--save FILE]] BOOK TEXT
 *
 * Cuts SHEET by BOOK, moves its time stamps, [mm:ss.hh], by SECONDS, puts the
 * word NEW in the place of the word OLD, and writes the sheet to standard output:
 * all its tokens, those that separate and its line feeds among them, joined by
 * zgv_print(). With -l it writes the cue list instead: the plain tokens alone, on
 * one line, by zgv_print_separated(), with a separator only where two would
 * touch. What is written has been read back and is the same list.
 *
 * Which tokens separate is what the book says: the kinds of its rules.
 *
 * With --hidden it writes, for the author of a book, which rules earlier ones hide
 * in TEXT, by the masks of the cut. Each rule has a line, in the book's order: its
 * number, from 0, its tag and kind, how many tokens it took, and at how many it is
 * hidden, since it matches the same bytes and an earlier rule took them. ALWAYS
 * HIDDEN ends the line of a rule that is hidden and took no token. Below stands each
 * token at which the rule is hidden, and the rule that took it. Bytes that cannot be
 * printed are escaped, and long tokens shortened.
 *
 * With --turns N it cuts in turns of N bytes, by zgv_lex_within(), as a task does
 * that has little time at once. The tokens are the same, and so is what is written.
 * Standard error shows them as they come: of each turn its budget, how many bytes
 * it examined, where and how it stopped, and below its tokens. A turn that is spent
 * without a token is followed by one of twice the budget, from the same place; the
 * next one has N bytes again.
 *
 * With --save FILE it saves after each turn, as an operator may while the cut is
 * unfinished: FILE then holds the sheet so far. It is what zgv_print() makes of the
 * tokens that the turns have given, and has been compared with the sheet: its bytes
 * before the place at which the next turn begins. Stamps and words are as they were
 * read. FILE is neither BOOK nor SHEET.
 *
 * A rest is text that no rule of the book matches. Where one is left nothing is
 * written; with -r what was cut before it is.
 *
 * Standard error says what is done. The exit status is 0 where a text or the
 * hidden rules were written, 1 where nothing was, 2 where the command line is
 * wrong. What was saved stays in any case.
 */
#define _POSIX_C_SOURCE 200112L

#include "zagvulem.h"

#include <stdio.h>
#include <stdlib.h>
#include <string.h>
#include <sys/stat.h>

enum {
    WRONG_USE = 2,
    STAMP_LENGTH = 10,
    MOST_SECONDS = 5999,
    LAST_STAMP = 599999,
    MOST_BUDGET = ZGV_TEXT_BYTES,
    SHOWN_BYTES = 40
};

/* Bytes with room for more: a file, or a pool of token bytes that grows. */
typedef struct buffer {
    uint8_t *bytes;
    size_t length, room;
} buffer;

/* A list of tokens, as it was cut with their masks, and the place of the rest; their bytes stand in a pool that goes with it. */
typedef struct list {
    uint8_t *records, *masks;
    size_t count, rest;
} list;

/* The book, the tags of its rules, and for each tag whether its rule is of separator kind. */
typedef struct rules {
    buffer book;
    uint32_t count;
    uint16_t tags[ZGV_BOOK_RULES];
    uint8_t separates[65536];
} rules;

/* Where the sheet so far is saved: no name where it is not; the file is opened at the first save; so many bytes stand in it. */
typedef struct archive {
    const char *name;
    FILE *file;
    size_t length;
} archive;

/* What the command line asks for. */
typedef struct task {
    const char *book, *sheet, *save, *old_word, *new_word;
    long seconds, budget; /* no budget: one cut, without turns */
    int as_list, leave_rest, hidden;
} task;

/* ---- Memory and files */

static void *allocate(size_t length)
{
    void *bytes = malloc(length > 0 ? length : 1);
    if (bytes == NULL) {
        fputs("player: out of memory\n", stderr);
        exit(EXIT_FAILURE);
    }
    return bytes;
}

/* Adds bytes at the end, and says where they begin. `bytes` is not in `b`. */
static uint32_t append(buffer *b, const void *bytes, size_t length)
{
    size_t place = b->length;
    if (length > b->room - b->length) {
        size_t room = 2 * (b->length + length) + 64;
        uint8_t *more = allocate(room);
        if (b->length > 0)
            memcpy(more, b->bytes, b->length);
        free(b->bytes);
        b->bytes = more;
        b->room = room;
    }
    if (length > 0)
        memcpy(b->bytes + place, bytes, length);
    b->length += length;
    return (uint32_t)place;
}

static buffer read_file(const char *name)
{
    buffer b = {NULL, 0, 0};
    uint8_t part[4096];
    size_t n;
    FILE *file = fopen(name, "rb");
    if (file == NULL) {
        perror(name);
        exit(EXIT_FAILURE);
    }
    while ((n = fread(part, 1, sizeof part, file)) > 0)
        append(&b, part, n);
    if (ferror(file)) {
        perror(name);
        exit(EXIT_FAILURE);
    }
    fclose(file);
    return b;
}

/* ---- What is said */

/* A refusal in words, with what its place counts. */
static void say_refused(const char *what, uint64_t answer)
{
    unsigned number = zgv_number(answer);
    unsigned long place = (unsigned long)zgv_place(answer);
    fprintf(stderr, "%s: refused: %s (number %u", what, zgv_refusal_text(number), number);
    switch (number) {
    case ZGV_TEXT_TOO_LONG:
    case ZGV_PAST_THE_TEXT:
    case ZGV_TOO_MANY_TOKENS:
    case ZGV_OUTPUT_TOO_LONG:
    case ZGV_UNKNOWN_MODE:
        break;
    case ZGV_TOO_FEW_RECORDS:
    case ZGV_OUTPUT_TOO_SHORT:
        fprintf(stderr, ", %lu needed", place);
        break;
    case ZGV_SHARED_BYTE:
        fprintf(stderr, ", byte %02lX", place);
        break;
    default:
        fprintf(stderr, number <= ZGV_NO_RULE ? ", byte %lu of the book" : ", token %lu", place);
    }
    fputs(")\n", stderr);
}

static unsigned long line_of(const uint8_t *text, size_t place)
{
    unsigned long line = 1;
    size_t i;
    for (i = 0; i < place; i++)
        line += text[i] == '\n';
    return line;
}

static void say_rest(const char *name, const buffer *sheet, size_t rest)
{
    fprintf(stderr, "%s: not cut from byte %lu on, which is %02X, in line %lu: %lu of %lu bytes are left\n", name,
            (unsigned long)rest, (unsigned)sheet->bytes[rest], line_of(sheet->bytes, rest),
            (unsigned long)(sheet->length - rest), (unsigned long)sheet->length);
}

static const char *plural(size_t count)
{
    return count == 1 ? "" : "s";
}

/* Bytes between quotes, those that cannot be printed escaped; of a long token the first ones, and how many it has. */
static void put_bytes(FILE *file, const uint8_t *bytes, size_t length)
{
    size_t shown = length <= SHOWN_BYTES ? length : SHOWN_BYTES, i;
    putc('"', file);
    for (i = 0; i < shown; i++)
        switch (bytes[i]) {
        case '\n':
            fputs("\\n", file);
            break;
        case '\r':
            fputs("\\r", file);
            break;
        case '\t':
            fputs("\\t", file);
            break;
        case '"':
        case '\\':
            fprintf(file, "\\%c", bytes[i]);
            break;
        default:
            fprintf(file, bytes[i] < 0x20 || bytes[i] > 0x7E ? "\\x%02X" : "%c", bytes[i]);
        }
    putc('"', file);
    if (shown < length)
        fprintf(file, "... of %lu bytes", (unsigned long)length);
}

/* ---- Books, lists and cuts */

/* Reads a book and its rules' kinds; 0 where it is refused. */
static int read_rules(rules *r, const char *name)
{
    uint64_t answer;
    uint32_t i;
    r->book = read_file(name);
    memset(r->separates, 0, sizeof r->separates);
    answer = zgv_read_book(r->book.bytes, r->book.length);
    if (zgv_number(answer) != ZGV_ACCEPTED) {
        say_refused(name, answer);
        return 0;
    }
    r->count = zgv_first(answer);
    for (i = 0; i < r->count; i++) {
        answer = zgv_rule(r->book.bytes, r->book.length, i);
        r->tags[i] = (uint16_t)zgv_first(answer);
        r->separates[r->tags[i]] = zgv_second(answer) == ZGV_KIND_SEPARATOR;
    }
    return 1;
}

/* Allocates an empty list with records and masks enough for every text of a length that is not too long; says for how many tokens. */
static size_t make_list(list *l, size_t length)
{
    size_t tokens = length < ZGV_TEXT_BYTES ? length : ZGV_TEXT_BYTES;
    l->records = allocate(tokens * ZGV_RECORD_BYTES);
    l->masks = allocate(tokens * ZGV_MASK_BYTES);
    l->count = l->rest = 0;
    return tokens;
}

/* Cuts a text into a list that it makes. */
static uint64_t cut(const rules *r, const uint8_t *text, size_t length, list *l)
{
    size_t room = make_list(l, length);
    uint64_t answer = zgv_lex(r->book.bytes, r->book.length, text, length, l->records, room * ZGV_RECORD_BYTES, l->masks,
                              room * ZGV_MASK_BYTES);
    if (zgv_number(answer) == ZGV_ACCEPTED) {
        l->count = zgv_first(answer);
        l->rest = zgv_second(answer);
    }
    return answer;
}

static void free_list(list *l)
{
    free(l->records);
    free(l->masks);
}

/* Whether a word alone is cut as one token; then that token, with the word's bytes added to the pool. */
static int one_token(const rules *r, const char *word, size_t length, buffer *pool, zgv_token *token)
{
    list l;
    uint64_t answer = cut(r, (const uint8_t *)word, length, &l);
    int one = zgv_number(answer) == ZGV_ACCEPTED && l.count == 1 && l.rest == length;
    if (one) {
        *token = zgv_get_record(l.records, 0);
        token->place = append(pool, word, length);
    }
    free_list(&l);
    return one;
}

/* A token to separate by: a blank where the book has it so, else the lowest byte that it has so. */
static int find_separator(const rules *r, buffer *pool, zgv_token *separator)
{
    int byte;
    for (byte = -1; byte < 256; byte++) {
        char c = byte < 0 ? ' ' : (char)byte;
        if (one_token(r, &c, 1, pool, separator) && r->separates[separator->tag])
            return 1;
    }
    return 0;
}

/* ---- Cutting in turns */

/* What a turn did, and its tokens, which are the last ones of the list. */
static void show_turn(const uint8_t *text, const list *l, size_t turn, uint64_t budget, uint64_t examined, uint64_t answer)
{
    size_t tokens = zgv_first(answer), i;
    fprintf(stderr, "turn %lu, %lu byte%s: %lu examined, %lu token%s, %s at byte %lu\n", (unsigned long)turn,
            (unsigned long)budget, plural(budget), (unsigned long)examined, (unsigned long)tokens, plural(tokens),
            zgv_second(answer) == ZGV_FINISHED ? "finished" : "spent", (unsigned long)l->rest);
    for (i = l->count - tokens; i < l->count; i++) {
        zgv_token t = zgv_get_record(l->records, i);
        fprintf(stderr, "    token %lu at byte %lu, tag %u, ", (unsigned long)i, (unsigned long)t.place, (unsigned)t.tag);
        put_bytes(stderr, text + t.place, t.length);
        putc('\n', stderr);
    }
}

/* Adds bytes to the file in which the sheet is saved; what stands in it already stays whatever happens. */
static int add_to(archive *a, const uint8_t *bytes, size_t length)
{
    if (a->file == NULL)
        a->file = fopen(a->name, "wb");
    if (a->file == NULL || fwrite(bytes, 1, length, a->file) != length || fflush(a->file) != 0)
        return 0;
    a->length += length;
    return 1;
}

/* Saves the sheet so far: the tokens of a list, joined, which are the text's bytes before the place of its rest. What was saved before
   is the beginning of it. */
static void save(archive *a, const rules *r, const uint8_t *text, size_t length, const list *l)
{
    uint8_t *out = allocate(l->rest);
    uint64_t answer = zgv_print(r->book.bytes, r->book.length, l->records, l->count * ZGV_RECORD_BYTES, text, length, out,
                                l->rest);
    int saved = 0;
    if (zgv_number(answer) != ZGV_ACCEPTED)
        say_refused(a->name, answer);
    else if (zgv_first(answer) != l->rest || (l->rest > 0 && memcmp(out, text, l->rest) != 0))
        fprintf(stderr, "%s: not saved: what was printed is not the beginning of the sheet\n", a->name);
    else if (!add_to(a, out + a->length, l->rest - a->length))
        perror(a->name);
    else
        saved = 1;
    free(out);
    if (!saved)
        exit(EXIT_FAILURE);
    fprintf(stderr, "    saved: %lu token%s in %lu byte%s\n", (unsigned long)l->count, plural(l->count), (unsigned long)l->rest,
            plural(l->rest));
}

/* The same list as by cut(), in turns of so many bytes; each adds its tokens behind those of the turns before it. */
static uint64_t cut_in_turns(const rules *r, const uint8_t *text, size_t length, uint64_t usual, list *l, archive *a)
{
    size_t room = make_list(l, length), turn;
    uint64_t budget = usual, next = 0, examined = 0, answer;
    for (turn = 1;; turn++) {
        answer = zgv_lex_within(r->book.bytes, r->book.length, text, length, l->rest, budget, l->records + l->count * ZGV_RECORD_BYTES,
                                (room - l->count) * ZGV_RECORD_BYTES, l->masks + l->count * ZGV_MASK_BYTES,
                                (room - l->count) * ZGV_MASK_BYTES, &next, &examined);
        if (zgv_number(answer) != ZGV_ACCEPTED)
            return answer;
        l->count += zgv_first(answer);
        l->rest = (size_t)next;
        show_turn(text, l, turn, budget, examined, answer);
        if (a->name != NULL)
            save(a, r, text, length, l);
        if (zgv_second(answer) == ZGV_FINISHED)
            return answer;
        /* What the place needs is not known, but as many bytes as the text has are enough: twice as much ends there at last. */
        budget = zgv_first(answer) > 0 ? usual : 2 * budget;
        if (zgv_first(answer) == 0)
            fprintf(stderr, "    no token: the next turn has %lu bytes\n", (unsigned long)budget);
    }
}

/* ---- Changing a sheet */

static int is_stamp(const uint8_t *b, size_t length)
{
    static const char form[STAMP_LENGTH + 1] = "[00:00.00]";
    size_t i;
    if (length != STAMP_LENGTH)
        return 0;
    for (i = 0; i < STAMP_LENGTH; i++)
        if (form[i] == '0' ? b[i] < '0' || b[i] > '9' : b[i] != (uint8_t)form[i])
            return 0;
    return 1;
}

static long two_digits(const uint8_t *b)
{
    return (b[0] - '0') * 10 + (b[1] - '0');
}

/* Moves a stamp; 0 where it would leave 00:00.00 to 99:59.99. */
static int move_stamp(buffer *pool, zgv_token *t, long seconds)
{
    const uint8_t *b = pool->bytes + t->place;
    long time = (two_digits(b + 1) * 60 + two_digits(b + 4) + seconds) * 100 + two_digits(b + 7);
    char stamp[64];
    if (time < 0 || time > LAST_STAMP)
        return 0;
    sprintf(stamp, "[%02ld:%02ld.%02ld]", time / 6000, time / 100 % 60, time % 100);
    t->place = append(pool, stamp, STAMP_LENGTH);
    return 1;
}

/* Changes the records of a list in place, but for a cue list leaves out what separates; new bytes go to the pool's end. */
static int change(const task *asked, const rules *r, buffer *pool, list *l)
{
    size_t i, kept = 0, stamps = 0, words = 0;
    zgv_token new_token = {0, 0, 0};
    if (asked->new_word != NULL
        && (!one_token(r, asked->new_word, strlen(asked->new_word), pool, &new_token) || r->separates[new_token.tag])) {
        fprintf(stderr, "player: by this book \"%s\" is not one plain token\n", asked->new_word);
        return 0;
    }
    for (i = 0; i < l->count; i++) {
        zgv_token t = zgv_get_record(l->records, i);
        const uint8_t *bytes = pool->bytes + t.place;
        if (r->separates[t.tag]) {
            if (asked->as_list)
                continue;
        } else if (asked->seconds != 0 && is_stamp(bytes, t.length)) {
            if (!move_stamp(pool, &t, asked->seconds)) {
                fprintf(stderr, "%s: line %lu: %.*s moved by %ld s leaves 00:00.00 to 99:59.99\n", asked->sheet,
                        line_of(pool->bytes, t.place), STAMP_LENGTH, (const char *)bytes, asked->seconds);
                return 0;
            }
            stamps++;
        } else if (asked->old_word != NULL && t.length == strlen(asked->old_word)
                   && memcmp(bytes, asked->old_word, t.length) == 0) {
            t = new_token;
            words++;
        }
        zgv_put_record(l->records, kept++, t);
    }
    l->count = kept;
    fprintf(stderr, "%s: %lu stamps moved, %lu words changed\n", asked->sheet, (unsigned long)stamps, (unsigned long)words);
    return 1;
}

/* ---- Writing, and reading back */

static uint64_t print_list(const task *asked, const rules *r, buffer *pool, const list *l, uint8_t *out)
{
    size_t records_len = l->count * ZGV_RECORD_BYTES;
    zgv_token separator;
    if (!asked->as_list)
        return zgv_print(r->book.bytes, r->book.length, l->records, records_len, pool->bytes, pool->length, out,
                         ZGV_TEXT_BYTES);
    if (!find_separator(r, pool, &separator)) {
        fputs("player: the book has no separator of one byte\n", stderr);
        exit(EXIT_FAILURE);
    }
    return zgv_print_separated(r->book.bytes, r->book.length, separator.tag, separator.place, separator.length,
                               ZGV_MODE_SPARE, l->records, records_len, pool->bytes, pool->length, out, ZGV_TEXT_BYTES);
}

/* Of the refusals that name a token: which it is, and what follows it. */
static void say_token(const list *l, const buffer *pool, uint64_t answer)
{
    size_t i = (size_t)zgv_place(answer);
    zgv_token t, next;
    if (zgv_number(answer) != ZGV_READ_ON || i + 1 >= l->count)
        return;
    t = zgv_get_record(l->records, i);
    next = zgv_get_record(l->records, i + 1);
    fprintf(stderr, "player: \"%.*s\" and \"%.*s\" would touch; -l writes a separator between\n", (int)t.length,
            (const char *)pool->bytes + t.place, (int)next.length, (const char *)pool->bytes + next.place);
}

/* Whether a text is cut, without a rest, into the tokens of a list: of a cue list those that do not separate. */
static int reads_back(const task *asked, const rules *r, const uint8_t *text, size_t length, const list *l,
                      const buffer *pool)
{
    list again;
    uint64_t answer = cut(r, text, length, &again);
    size_t i, k = 0;
    int same = zgv_number(answer) == ZGV_ACCEPTED && again.rest == length;
    for (i = 0; same && i < again.count; i++) {
        zgv_token a = zgv_get_record(again.records, i), b;
        if (asked->as_list && r->separates[a.tag])
            continue;
        same = k < l->count;
        if (same) {
            b = zgv_get_record(l->records, k++);
            same = a.tag == b.tag && a.length == b.length
                   && memcmp(text + a.place, pool->bytes + b.place, a.length) == 0;
        }
    }
    free_list(&again);
    return same && k == l->count;
}

static int write_list(const task *asked, const rules *r, buffer *pool, const list *l)
{
    uint8_t *out = allocate(ZGV_TEXT_BYTES);
    uint64_t answer = print_list(asked, r, pool, l, out);
    int done = 0;
    if (zgv_number(answer) != ZGV_ACCEPTED) {
        say_refused(asked->as_list ? "the cue list" : "the changed sheet", answer);
        say_token(l, pool, answer);
    } else if (!reads_back(asked, r, out, zgv_first(answer), l, pool)) {
        fputs("player: what was printed is not read back as the same list\n", stderr);
    } else if (fwrite(out, 1, zgv_first(answer), stdout) != zgv_first(answer) || fflush(stdout) != 0) {
        perror("player");
    } else {
        fprintf(stderr, "%s: %lu tokens written in %lu bytes, and read back as the same list\n", asked->sheet,
                (unsigned long)l->count, (unsigned long)zgv_first(answer));
        done = 1;
    }
    free(out);
    return done;
}

/* ---- Rules that earlier ones hide */

static int agrees(const list *l, size_t token, uint32_t rule)
{
    return (zgv_get_mask(l->masks, token) >> rule & 1) != 0;
}

/* The rule that took a token: the earliest of those that agree, of which there is one at least. */
static uint32_t taker(const list *l, size_t token)
{
    uint32_t rule = 0;
    while (!agrees(l, token, rule))
        rule++;
    return rule;
}

/* A rule's line, and below it each token at which it is hidden; says how many it took and how many those are. */
static void write_rule(const rules *r, const buffer *text, const list *l, uint32_t rule, size_t *took, size_t *hidden)
{
    size_t i;
    *took = *hidden = 0;
    for (i = 0; i < l->count; i++)
        if (agrees(l, i, rule))
            ++*(taker(l, i) == rule ? took : hidden);
    printf("rule %u, tag %u, %s: took %lu token%s, hidden at %lu%s\n", (unsigned)rule, (unsigned)r->tags[rule],
           r->separates[r->tags[rule]] ? "separator" : "plain", (unsigned long)*took, plural(*took), (unsigned long)*hidden,
           *took == 0 && *hidden > 0 ? ", ALWAYS HIDDEN" : "");
    for (i = 0; i < l->count; i++)
        if (agrees(l, i, rule) && taker(l, i) != rule) {
            zgv_token t = zgv_get_record(l->records, i);
            printf("    token %lu at byte %lu, ", (unsigned long)i, (unsigned long)t.place);
            put_bytes(stdout, text->bytes + t.place, t.length);
            printf(", went to rule %u, tag %u\n", (unsigned)taker(l, i), (unsigned)t.tag);
        }
}

static int write_hidden(const task *asked, const rules *r, const buffer *text, const list *l)
{
    size_t took, hidden, some = 0, always = 0;
    uint32_t rule;
    for (rule = 0; rule < r->count; rule++) {
        write_rule(r, text, l, rule, &took, &hidden);
        some += hidden > 0;
        always += hidden > 0 && took == 0;
    }
    if (fflush(stdout) != 0 || ferror(stdout)) {
        perror("player");
        return 0;
    }
    fprintf(stderr, "%s: %lu token%s, %lu rule%s: %lu hidden somewhere, %lu always\n", asked->sheet, (unsigned long)l->count,
            plural(l->count), (unsigned long)r->count, plural(r->count), (unsigned long)some, (unsigned long)always);
    return 1;
}

/* ---- The command line */

static int usage(void)
{
    fputs("usage: player [-l] [-r] [--turns N [--save FILE]] BOOK SHEET [SECONDS [OLD NEW]]\n"
          "       player --hidden [-r] [--turns N [--save FILE]] BOOK TEXT\n"
          "  -l           write the cue list, not the sheet\n"
          "  -r           write what was cut although a rest is left\n"
          "  --hidden     write which rules of the book are hidden by earlier ones\n"
          "  --turns N    cut in turns of N bytes, and show their tokens as they come\n"
          "  --save FILE  after each turn save the sheet so far\n",
          stderr);
    return 0;
}

/* A whole number of seconds that a stamp can be moved by. */
static int read_seconds(const char *word, long *seconds)
{
    const char *digits = word[0] == '-' ? word + 1 : word;
    size_t n = strspn(digits, "0123456789");
    if (n == 0 || n > 6 || digits[n] != '\0' || labs(*seconds = strtol(word, NULL, 10)) > MOST_SECONDS) {
        fprintf(stderr, "player: SECONDS is a whole number from -%d to %d, not \"%s\"\n", MOST_SECONDS, MOST_SECONDS, word);
        return 0;
    }
    return 1;
}

/* The budget of a turn: N of --turns, which may be missing. */
static int read_budget(const char *word, long *budget)
{
    size_t n = word == NULL ? 0 : strspn(word, "0123456789");
    if (n == 0 || n > 6 || word[n] != '\0' || (*budget = strtol(word, NULL, 10)) < 1 || *budget > MOST_BUDGET) {
        fprintf(stderr, "player: N of --turns is a whole number from 1 to %d, not \"%s\"\n", MOST_BUDGET, word == NULL ? "" : word);
        return 0;
    }
    return 1;
}

/* Whether two names are of one file that is there. */
static int same_file(const char *name, const char *other)
{
    struct stat a, b;
    return stat(name, &a) == 0 && stat(other, &b) == 0 && a.st_dev == b.st_dev && a.st_ino == b.st_ino;
}

/* The file in which the sheet is saved: FILE of --save, which goes with --turns. */
static int check_save(const task *asked)
{
    if (asked->save == NULL)
        return 1;
    if (asked->budget == 0)
        return usage();
    if (same_file(asked->save, asked->book) || same_file(asked->save, asked->sheet)) {
        fprintf(stderr, "player: FILE of --save is another file than the book and the sheet, not \"%s\"\n", asked->save);
        return 0;
    }
    return 1;
}

static int read_task(int argc, char **argv, task *asked)
{
    int i = 1;
    memset(asked, 0, sizeof *asked);
    for (; i < argc && argv[i][0] == '-'; i++) {
        if (strcmp(argv[i], "-l") == 0)
            asked->as_list = 1;
        else if (strcmp(argv[i], "-r") == 0)
            asked->leave_rest = 1;
        else if (strcmp(argv[i], "--hidden") == 0)
            asked->hidden = 1;
        else if (strcmp(argv[i], "--save") == 0 && i + 1 < argc)
            asked->save = argv[++i];
        else if (strcmp(argv[i], "--turns") != 0)
            return usage();
        else if (!read_budget(argv[++i], &asked->budget))
            return 0;
    }
    argv += i;
    argc -= i;
    if (asked->hidden ? argc != 2 || asked->as_list : argc != 2 && argc != 3 && argc != 5)
        return usage();
    asked->book = argv[0];
    asked->sheet = argv[1];
    if (argc == 5) {
        asked->old_word = argv[3];
        asked->new_word = argv[4];
    }
    return (argc == 2 || read_seconds(argv[2], &asked->seconds)) && check_save(asked);
}

int main(int argc, char **argv)
{
    static rules r;
    buffer sheet;
    list l;
    archive saved = {NULL, NULL, 0};
    task asked;
    uint64_t answer;
    int done = 0;
    if (!read_task(argc, argv, &asked))
        return WRONG_USE;
    if (!read_rules(&r, asked.book))
        return EXIT_FAILURE;
    sheet = read_file(asked.sheet);
    saved.name = asked.save;
    answer = asked.budget == 0 ? cut(&r, sheet.bytes, sheet.length, &l)
                               : cut_in_turns(&r, sheet.bytes, sheet.length, (uint64_t)asked.budget, &l, &saved);
    if (saved.file != NULL && fclose(saved.file) != 0) {
        perror(saved.name);
        return EXIT_FAILURE;
    }
    if (zgv_number(answer) != ZGV_ACCEPTED) {
        say_refused(asked.sheet, answer);
    } else {
        if (l.rest < sheet.length) {
            say_rest(asked.sheet, &sheet, l.rest);
            fputs(asked.leave_rest ? "player: writing what was cut\n" : "player: nothing is written; -r writes what was cut\n",
                  stderr);
        }
        if (l.rest == sheet.length || asked.leave_rest)
            /* To change it, the sheet's bytes are the pool from here on: new words and stamps are added behind. */
            done = asked.hidden ? write_hidden(&asked, &r, &sheet, &l)
                                : change(&asked, &r, &sheet, &l) && write_list(&asked, &r, &sheet, &l);
    }
    free_list(&l);
    free(sheet.bytes);
    free(r.book.bytes);
    return done ? EXIT_SUCCESS : EXIT_FAILURE;
}
