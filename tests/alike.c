/* Cuts many texts by a book and by the built-in one, and holds that answers, records and masks are the same: alike BOOK SHEET. */
#include "zagvulem.h"

#include <stdio.h>
#include <stdlib.h>
#include <string.h>

enum { LONGEST = 600, TEXTS = 20000 };

static uint8_t book[ZGV_BOOK_BYTES], sheet[ZGV_TEXT_BYTES];
static uint8_t records[2][ZGV_TEXT_BYTES * ZGV_RECORD_BYTES], masks[2][ZGV_TEXT_BYTES * ZGV_MASK_BYTES];
static size_t book_len, cuts, tokens;

static size_t read_file(const char *name, uint8_t *bytes, size_t room)
{
    FILE *file = fopen(name, "rb");
    size_t length = file == NULL ? 0 : fread(bytes, 1, room, file);
    if (file == NULL || length == 0) {
        perror(name);
        exit(EXIT_FAILURE);
    }
    fclose(file);
    return length;
}

static void cut(const uint8_t *text, size_t length)
{
    const uint64_t by_book = zgv_lex(book, book_len, text, length, records[0], sizeof records[0], masks[0], sizeof masks[0]);
    const uint64_t builtin = zgv_lex_builtin(text, length, records[1], sizeof records[1], masks[1], sizeof masks[1]);
    const size_t count = zgv_first(builtin);
    size_t i;
    if (by_book != builtin || memcmp(records[0], records[1], count * ZGV_RECORD_BYTES) != 0
        || memcmp(masks[0], masks[1], count * ZGV_MASK_BYTES) != 0) {
        printf("a text of %lu bytes is cut otherwise:", (unsigned long)length);
        for (i = 0; i < length && i < 40; i++)
            printf(" %02X", text[i]);
        putchar('\n');
        exit(EXIT_FAILURE);
    }
    cuts++;
    tokens += count;
}

static uint32_t seed = 1;

static uint32_t below(uint32_t limit)
{
    seed = seed * 1664525u + 1013904223u;
    return (uint32_t)(((uint64_t)(seed >> 8) * limit) >> 24);
}

/* A text of pieces that stamps and words are made of; in one of four any bytes stand between them. */
static size_t fill(uint8_t *text)
{
    static const char *const pieces[] = {"[", "]", "[0", "[00:", "[00:12.", "[00:12.50", "[00:12.50]", "[99:99.99]", ":", ".", "1",
                                         "23", "oh", "\\", "^", "-", "_", "Z", "~", "!", "\x80", "\xFF", " ", "  \t", "\t", "\n", "\n\n"};
    const size_t length = below(LONGEST);
    const int has_strays = below(4) == 0;
    size_t filled = 0;
    while (filled < length) {
        const char *piece = pieces[below(sizeof pieces / sizeof pieces[0])];
        size_t i;
        if (has_strays && below(20) == 0)
            text[filled++] = (uint8_t)below(256);
        for (i = 0; piece[i] != '\0' && filled < length; i++)
            text[filled++] = (uint8_t)piece[i];
    }
    return filled;
}

int main(int argc, char **argv)
{
    static uint8_t text[LONGEST + 1];
    size_t length, i;
    unsigned a, b;
    if (argc != 3)
        return EXIT_FAILURE;
    book_len = read_file(argv[1], book, sizeof book);
    length = read_file(argv[2], sheet, sizeof sheet);
    for (i = 0; i <= length; i++) {
        cut(sheet, i);
        cut(sheet + i, length - i);
    }
    for (a = 0; a < 256; a++)
        for (b = 0; b < 256; b++) {
            text[0] = (uint8_t)a;
            text[1] = (uint8_t)b;
            cut(text, 2);
        }
    for (i = 0; i < TEXTS; i++)
        cut(text, fill(text));
    printf("%lu texts with %lu tokens\n", (unsigned long)cuts, (unsigned long)tokens);
    return EXIT_SUCCESS;
}
