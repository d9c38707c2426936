/*
 * modernize.c - rewrites a book that has STEPs
 *
 *    modernize OLD NEW
 *
 * Reads the book in the file OLD and writes it to the file NEW with a SPAN in the
 * place of each STEP, by zgv_rewrite_book(). All else stays byte for byte, and
 * every text is cut by NEW as by OLD. OLD and NEW may be one file.
 *
 * NEW is opened only when the rewritten book is there and has been accepted by the
 * stricter reading, zgv_read_book_strict(); where OLD is refused, NEW stays as it
 * was. Where the writing itself fails, NEW is not whole, and that is said.
 *
 * Standard error says what is done. The exit status is 0 where a book was written,
 * 1 where none was or not whole, 2 where the command line is wrong.
 */
#include "zagvulem.h"

#include <stdio.h>
#include <stdlib.h>

enum { WRONG_USE = 2 };

/* ---- Files */

/* Reads a file, but no more of it than there is room for; says how many bytes. */
static size_t read_file(const char *name, uint8_t *bytes, size_t room)
{
    size_t length;
    FILE *file = fopen(name, "rb");
    if (file == NULL) {
        perror(name);
        exit(EXIT_FAILURE);
    }
    length = fread(bytes, 1, room, file);
    if (ferror(file)) {
        perror(name);
        exit(EXIT_FAILURE);
    }
    fclose(file);
    return length;
}

static int write_file(const char *name, const uint8_t *bytes, size_t length)
{
    int whole;
    FILE *file = fopen(name, "wb");
    if (file == NULL) {
        perror(name);
        return 0;
    }
    whole = fwrite(bytes, 1, length, file) == length && fflush(file) == 0;
    if (!whole)
        perror(name);
    if (fclose(file) != 0 && whole) {
        perror(name);
        whole = 0;
    }
    if (!whole)
        fprintf(stderr, "modernize: %s is not whole\n", name);
    return whole;
}

/* ---- What is said */

static const char *plural(size_t count)
{
    return count == 1 ? "" : "s";
}

/* Of a book of `length` bytes: why it is refused. */
static void say_refused(const char *name, size_t length, uint64_t answer)
{
    unsigned number = zgv_number(answer);
    if (number == ZGV_BOOK_TOO_LONG && length <= ZGV_BOOK_BYTES)
        fprintf(stderr, "%s: refused: its %lu bytes would be more than %d with a SPAN in each STEP's place (number %u)\n", name,
                (unsigned long)length, ZGV_BOOK_BYTES, number);
    else
        fprintf(stderr, "%s: refused: %s (number %u, byte %lu of the book)\n", name, zgv_refusal_text(number), number,
                (unsigned long)zgv_place(answer));
    fputs("modernize: nothing is written\n", stderr);
}

static void say_old(const char *name, size_t length, size_t rules, size_t steps)
{
    fprintf(stderr, "%s: %lu bytes, %lu rule%s, ", name, (unsigned long)length, (unsigned long)rules, plural(rules));
    if (steps > 0)
        fprintf(stderr, "%lu STEP%s\n", (unsigned long)steps, plural(steps));
    else
        fputs("no STEP\n", stderr);
}

/* ---- The command line */

int main(int argc, char **argv)
{
    /* one byte past the limit, which a file that is too long fills */
    static uint8_t book[ZGV_BOOK_BYTES + 1], rewritten[ZGV_BOOK_BYTES];
    size_t length, steps;
    uint64_t answer, checked;
    if (argc != 3 || argv[1][0] == '-' || argv[2][0] == '-') {
        fputs("usage: modernize OLD NEW\n"
              "  writes the book OLD to NEW with a SPAN in the place of each STEP\n",
              stderr);
        return WRONG_USE;
    }
    length = read_file(argv[1], book, sizeof book);
    answer = zgv_rewrite_book(book, length, rewritten, sizeof rewritten);
    if (zgv_number(answer) != ZGV_ACCEPTED) {
        say_refused(argv[1], length, answer);
        return EXIT_FAILURE;
    }
    checked = zgv_read_book_strict(rewritten, zgv_first(answer));
    if (zgv_number(checked) != ZGV_ACCEPTED) {
        say_refused("the rewritten book", zgv_first(answer), checked);
        return EXIT_FAILURE;
    }
    steps = zgv_first(answer) - length; /* each one makes the book a byte longer */
    say_old(argv[1], length, zgv_first(checked), steps);
    if (!write_file(argv[2], rewritten, zgv_first(answer)))
        return EXIT_FAILURE;
    fprintf(stderr, "%s: %lu bytes written, %s, and accepted by the stricter reading\n", argv[2],
            (unsigned long)zgv_first(answer), steps > 0 ? "with a SPAN in each STEP's place" : "unchanged");
    return EXIT_SUCCESS;
}
