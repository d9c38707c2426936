#!/bin/sh
# README.md: its program in C, its turns, saving between them, its first command and its song house's book do what it says.
. "$(dirname "$0")/common"
needs build/libzagvulem.a build/cutlist build/zgvbook

awk -v LANG=c -f tests/blocks.awk README.md >"$tmp/cut.c"
$CC -std=c99 -Wall -Wextra -Werror -pedantic -O2 -Iinclude "$tmp/cut.c" build/libzagvulem.a -o "$tmp/cut" ||
    fail 'compiling the program of README.md'
"$tmp/cut" <examples/sheet.txt >"$tmp/tokens" || fail 'the program of README.md refuses the sample sheet'
[ "$(sed -n '1,4p' "$tmp/tokens" | tr '\n' '/')" = '1: [00:04.00]/2: Lamps/3:  /2: along/' ] || fail "it prints: $(head -n 4 "$tmp/tokens")"

# Turns of one period after the other print the same, also where the first budget is too small. What is saved before the first, between
# them and after the last is the text up to the next place.
cat >"$tmp/turns.c" <<'END'
#define main cut
#include "cut.c"
#undef main
#include <stdlib.h>
#include <string.h>

int main(int argc, char **argv)
{
    static uint8_t text[ZGV_TEXT_BYTES + 1], saved[ZGV_TEXT_BYTES + 1];
    static song s;
    int more;
    s.book = zgv_builtin_book;
    s.book_len = sizeof zgv_builtin_book;
    s.text = text;
    s.text_len = fread(text, 1, sizeof text, stdin);
    s.budget = argc == 2 ? strtoul(argv[1], NULL, 10) : 64;
    do {
        FILE *file = tmpfile();
        if (!save(&s, file))
            return 1;
        rewind(file);
        if (fread(saved, 1, sizeof saved, file) != s.place || memcmp(saved, text, s.place) != 0)
            return 2;
        fclose(file);
    } while ((more = period(&s)) == 1);
    if (!save(&s, stderr))
        return 1;
    fprintf(stderr, "\n%d %lu\n", more, (unsigned long)s.place);
    return 0;
}
END
$CC -std=c99 -Wall -Wextra -Werror -pedantic -O2 -Iinclude "$tmp/turns.c" build/libzagvulem.a -o "$tmp/turns" ||
    fail 'compiling the turns of README.md'
for budget in 1 64 65536; do
    "$tmp/turns" "$budget" <examples/sheet.txt >"$tmp/printed" 2>"$tmp/said" || fail "saving between turns from $budget bytes: $?"
    cmp "$tmp/printed" "$tmp/tokens" || fail "turns from $budget bytes print other tokens"
    printf '\n0 483\n' | cat examples/sheet.txt - | cmp - "$tmp/said" || fail "turns from $budget bytes end with: $(cat "$tmp/said")"
done
[ "$(printf 'oh no\r\n' | "$tmp/turns" 2>&1 >/dev/null | tr '\n' /)" = 'oh no/0 5/' ] || fail 'turns do not finish at a rest'
[ "$(head -c 65537 /dev/zero | "$tmp/turns" 2>&1 >/dev/null | tr '\n' /)" = '/-1 0/' ] ||
    fail 'turns over a text that is too long are not refused'

# make sheet prints the same tokens as numbers
make -s sheet >"$tmp/listed" || fail 'make sheet'
[ "$(tail -n 1 "$tmp/listed")" = 'rest 483 0' ] || fail "make sheet ends with $(tail -n 1 "$tmp/listed")"
LC_ALL=C awk 'FNR == NR { sheet = sheet $0 "\n"; next } $1 != "rest" { print $2 ": " substr(sheet, $3 + 1, $4) }' \
    examples/sheet.txt "$tmp/listed" |
    cmp - "$tmp/tokens" || fail 'make sheet and the program of README.md cut the sheet differently'

# the song house's book is accepted, without a remark, and cuts a sheet to its end
mkdir "$tmp/build"
cp build/zgvbook build/cutlist "$tmp/build/"
awk -v LANG=sh -f tests/blocks.awk README.md | sed -n '/^cat >build\/house.rules/,/^echo @@/p' >"$tmp/house"
grep -q 'zgvbook check' "$tmp/house" || fail "README.md has no song house's book"
(cd "$tmp" && sh -e house) >"$tmp/said" 2>&1 || fail "the song house's book: $(cat "$tmp/said")"
length=$(wc -c <"$tmp/build/house.bin")
printf 'build/house.rules: 5 rules, a book of %s bytes\nbuild/house.bin: accepted: 5 rules, %s bytes\n@@\n' "$length" "$length" |
    cmp - "$tmp/said" || fail "of the song house's book it says: $(cat "$tmp/said")"
mkdir "$tmp/try"
cp "$tmp/build/house.bin" "$tmp/try/book.bin"
printf "[00:01.00]Don't go!\r\n" >"$tmp/try/text.bin"
[ "$(cd "$tmp/try" && ../build/cutlist | cut -d' ' -f2 | tr '\n' ' ')" = '1 2 4 2 3 5 21 ' ] || fail "the song house's book cuts otherwise"

# a rest and a refusal
printf 'oh no\r\n' | "$tmp/cut" >"$tmp/tokens" 2>"$tmp/said" && fail 'a rest is not told'
[ "$(cat "$tmp/said")" = 'not cut from byte 5 on, which is 0D' ] || fail "of a rest it says: $(cat "$tmp/said")"
head -c 65537 /dev/zero | "$tmp/cut" >"$tmp/tokens" 2>"$tmp/said" && fail 'a text that is too long is not told'
[ "$(cat "$tmp/said")" = 'refused: the text has more than 65,536 bytes (number 14)' ] || fail "it says: $(cat "$tmp/said")"

# the functions of the library are those that the header declares, as many as README.md says
nm build/libzagvulem.a | awk '$2 == "T" { print $3 }' | sort >"$tmp/has"
sed -n 's/^uint64_t \(zgv_[a-z_]*\)(.*/\1/p' include/zagvulem.h | sort >"$tmp/declares"
diff "$tmp/has" "$tmp/declares" || fail 'the library has other functions than the header declares'
grep -q 'Ten functions' README.md && [ "$(wc -l <"$tmp/has")" -eq 10 ] || fail 'README.md says another number of functions'

echo "readme: its program, its turns, its first command and its song house's book do what it says"
