/* Holds zgv_compile() to the C library's regcomp() over random expressions and texts, and the place of 30 to what it means: something
   may follow what stands before it, and nothing what ends with it. */
#define _POSIX_C_SOURCE 200112L

#include "zagvulem.h"

#include <regex.h>
#include <stdio.h>
#include <stdlib.h>
#include <string.h>

enum { EXPRESSIONS = 3000, DAMAGED = 3000, LONGEST = 200, SUBJECT = 7 };

static uint8_t book[ZGV_REGEX_OUTPUT + 1];
static uint32_t seed = 7;

static uint32_t below(uint32_t limit)
{
    seed = seed * 1664525u + 1013904223u;
    return (uint32_t)(((uint64_t)(seed >> 8) * limit) >> 24);
}

static void wrong(const char *expression, const char *what, const char *text)
{
    printf("%s: %s: %s\n", expression, what, text);
    exit(EXIT_FAILURE);
}

static uint64_t compile(const char *expression, size_t length)
{
    return zgv_compile(1, ZGV_KIND_PLAIN, (const uint8_t *)expression, length, book, sizeof book - 1);
}

/* ---- Random expressions */

static char made[LONGEST + 64];

static void put(const char *text)
{
    strcat(made, text);
}

static void alternatives(unsigned depth);

static void piece(unsigned depth)
{
    static const char *const atoms[] = {"a", "b", "c", ".", "[ab]", "[b-c]", "[a-ac]", "\\.", "\\*", "\\(", "\\\\", "]", "}", "-", "\\^"};
    static const char *const behind[] = {"", "", "", "*", "+", "?"};
    if (depth > 0 && strlen(made) < LONGEST / 2 && below(3) == 0) {
        put("(");
        alternatives(depth - 1);
        put(")");
    } else {
        put(atoms[below(3) == 0 ? below(sizeof atoms / sizeof atoms[0]) : below(5)]);
    }
    put(behind[below(6)]);
}

static void sequence(unsigned depth)
{
    uint32_t count = 1 + below(3);
    while (count-- > 0 && strlen(made) < LONGEST)
        piece(depth);
}

static void alternatives(unsigned depth)
{
    sequence(depth);
    while (below(3) == 0 && strlen(made) < LONGEST) {
        put("|");
        sequence(depth);
    }
}

static const char *expression(void)
{
    made[0] = '\0';
    alternatives(below(5));
    return made;
}

/* ---- Matching */

/* Whether the rule that was written last matches a text. */
static int is_matched(const char *text)
{
    unsigned state = 0, to;
    const uint8_t *c;
    for (; *text != '\0'; text++, state = to)
        for (to = 255, c = book + 8; *c != 7; c += *c == 4 ? 2 : 5)
            if (*c == 6 && c[1] == state && c[2] <= (uint8_t)*text && (uint8_t)*text <= c[3])
                to = c[4];
    for (c = book + 8; *c == 4; c += 2)
        if (c[1] == state)
            return 1;
    return 0;
}

static unsigned long compare(const char *text)
{
    static const char bytes[] = "aaabbbccc.*(\\]}-^\xFF";
    char whole[sizeof made + 8], subject[SUBJECT + 1];
    regex_t regex;
    unsigned i, k;
    unsigned long matched = 0;
    sprintf(whole, "^(%s)$", text);
    if (regcomp(&regex, whole, REG_EXTENDED | REG_NOSUB) != 0)
        wrong(text, "regcomp refuses", whole);
    for (i = 0; i < 300; i++) {
        const unsigned length = below(SUBJECT + 1);
        for (k = 0; k < length; k++)
            subject[k] = bytes[below(below(3) == 0 ? sizeof bytes - 1 : 9)];
        subject[length] = '\0';
        if ((regexec(&regex, subject, 0, NULL, 0) == 0) != is_matched(subject))
            wrong(text, "matched otherwise than by regexec", subject);
        matched += (unsigned long)is_matched(subject);
    }
    regfree(&regex);
    return matched;
}

/* ---- The place of 30 */

/* Whether something makes an expression of a text: the end of a list or an escape, and what closes its parentheses. */
static int may_go_on(const char *text, size_t length)
{
    static const char *const ends[] = {"", "a", ".", "]", "a]", "\xFF]"};
    char whole[3 * sizeof made];
    size_t i, depth, open = 0;
    for (i = 0; i < length; i++)
        open += text[i] == '(';
    for (i = 0; i < sizeof ends / sizeof ends[0]; i++)
        for (depth = 0; depth <= open; depth++) {
            const size_t end = strlen(ends[i]);
            memcpy(whole, text, length);
            memcpy(whole + length, ends[i], end);
            memset(whole + length + end, ')', depth);
            if (zgv_number(compile(whole, length + end + depth)) != ZGV_NO_EXPRESSION)
                return 1;
        }
    return 0;
}

/* A byte put in, left out or changed. */
static void damage(char *text)
{
    static const char bytes[] = "()[]|*+?.\\^${-ab}z";
    const size_t length = strlen(text), at = below((uint32_t)length + 1);
    const char byte = bytes[below(sizeof bytes - 1)];
    switch (at == length ? 0 : below(3)) {
    case 0:
        memmove(text + at + 1, text + at, length - at + 1);
        text[at] = byte;
        break;
    case 1:
        memmove(text + at, text + at + 1, length - at);
        break;
    default:
        text[at] = byte;
    }
}

static int hold_place(const char *text)
{
    const size_t length = strlen(text);
    const uint64_t answer = compile(text, length);
    const size_t place = (size_t)zgv_place(answer);
    if (zgv_number(answer) != ZGV_NO_EXPRESSION)
        return 0;
    if (place > length || !may_go_on(text, place))
        wrong(text, "the place of 30 is too late", text + (place < length ? place : length));
    if (place < length && may_go_on(text, place + 1))
        wrong(text, "the place of 30 is too early", text + place);
    return 1;
}

int main(void)
{
    unsigned long compared = 0, matched = 0, places = 0;
    unsigned i;
    for (i = 0; i < EXPRESSIONS; i++) {
        const char *text = expression();
        const uint64_t answer = compile(text, strlen(text));
        if (zgv_number(answer) == ZGV_NO_EXPRESSION)
            wrong(text, "refused", text + zgv_place(answer));
        if (zgv_number(answer) != ZGV_ACCEPTED)
            continue;
        matched += compare(text);
        compared++;
    }
    for (i = 0; i < DAMAGED; i++) {
        uint32_t times = 1 + below(3);
        expression();
        while (times-- > 0)
            damage(made);
        places += (unsigned long)hold_place(made);
    }
    if (compared < EXPRESSIONS / 2 || matched < EXPRESSIONS || places < DAMAGED / 4)
        wrong("too few", "of what is tried", "");
    printf("%lu expressions match what regcomp's do, and %lu refused ones are refused at their place\n", compared, places);
    return EXIT_SUCCESS;
}
