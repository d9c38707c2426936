#!/bin/sh
# docs/FORMAT.md: its commands print what it says, and its numbers are so.
. "$(dirname "$0")/common"
needs build/cutlist build/player build/modernize build/zgvbook
cutlist=$PWD/build/cutlist
modernize=$PWD/build/modernize
zgvbook=$PWD/build/zgvbook
document=$PWD/docs/FORMAT.md
PATH=$PWD/examples:$PATH

# run from a folder that has what the commands ask for
mkdir "$tmp/top" "$tmp/top/build"
cp -R examples "$tmp/top/"
cp build/cutlist build/player build/modernize build/zgvbook "$tmp/top/build/"
printf 'all:\n' >"$tmp/top/Makefile"
awk -v LANG=sh -f tests/blocks.awk docs/FORMAT.md >"$tmp/commands"
awk -v LANG=text -f tests/blocks.awk docs/FORMAT.md >"$tmp/wanted"
[ "$(grep -c '^echo @@$' "$tmp/commands")" -ge 8 ] || fail 'docs/FORMAT.md has fewer commands than it had'
(cd "$tmp/top" && sh "$tmp/commands") 2>&1 | grep -v '^make: ' >"$tmp/printed"
diff "$tmp/wanted" "$tmp/printed" || fail 'the commands of docs/FORMAT.md print something else'

# 23: the second way out that it names, and a catch-all over all bytes
player=$PWD/build/player
cd "$tmp/top/build/try" || exit 1
hex() { od -An -v -tx1 "$1" | tr -d '\n'; }
hex comments.bin | sed 's/01 00 03 01/01 00 03 00/' | make-book.sh >feeds.bin
[ "$("$player" -l feeds.bin sheet 2>/dev/null)" = "$(printf 'oh no # twice\nyes')" ] || fail 'the line feed as the only separator'
builtin=$tmp/top/examples/builtin.bin
[ "$(list-book.sh "$builtin" | awk '$2 == "STEP" { print $1; exit }')" -eq 10 ] || fail 'the first STEP of the built-in book'
{ hex "$builtin" | sed 's/08$//'; echo ' 01 00 06 00 02 00 03 02 04 01 06 00 00 ff 01 07 08'; } | make-book.sh >book.bin
printf 'oh\r\n' >text.bin
[ "$("$cutlist" | tr '\n' /)" = '0 2 0 2/1 6 2 1/2 4 3 1/rest 4 0/' ] || fail 'a catch-all over all bytes'
"$player" -l book.bin text.bin >/dev/null 2>said && fail 'a catch-all over all bytes is not refused by 23'
grep -q '(number 23, byte 09)' said || fail "of a catch-all over all bytes the player says: $(cat said)"

cd "$tmp" || exit 1
# reads STATUS-LINE: what cutlist says of book.bin with an empty text
: >text.bin
reads() {
    said=$("$cutlist")
    [ "$said" = "$1" ] || fail "$2: $said"
}

# moves COUNT WIDTH: a book of 32 rules with so many moves, of 4, 5 or 7 bytes each, spread evenly
moves() {
    awk -v count="$1" -v width="$2" 'BEGIN {
        head = width == 7 ? "09 00 00 0a 00 ff 0b 00 01" : "02 00 03 ff 04 01"
        move = width == 4 ? "05 %02x %02x 01\n" : width == 5 ? "06 %02x %02x %02x 01\n" : "0c 00 %02x %02x %02x 00 01\n"
        for (rule = 1; rule <= 32; rule++) {
            printf "01 00 %02x 00 %s\n", rule, head
            own = int(count / 32) + (rule <= count % 32)
            for (i = 0; i < own; i++)
                printf move, int(i / 256), i % 256, i % 256
            print "07"
        }
        print "08"
    }' | make-book.sh >book.bin
}
moves 16295 4; reads 'rest 0 0' '16,295 STEPs in 32 rules'
"$modernize" book.bin spans.bin 2>said && fail 'a book that is full of STEPs is rewritten'
grep -q 'more than 65536 .*(number 1)$' said || fail "of a book that is full of STEPs modernize says: $(cat said)"
moves 16296 4; reads 'refused 1 0' '16,296 STEPs in 32 rules'
moves 13036 5; reads 'rest 0 0' '13,036 SPANs in 32 rules'
moves 13037 5; reads 'refused 1 0' '13,037 SPANs in 32 rules'
moves 9298 7; reads 'rest 0 0' '9,298 SPANs of two bytes in 32 rules'
moves 9299 7; reads 'refused 1 0' '9,299 SPANs of two bytes in 32 rules'

# words RULES: a book of so many rules, each of 42 words of six letters that share no beginning but for the last two letters
words() {
    awk -v rules="$1" 'BEGIN {
        for (rule = 1; rule <= rules; rule++) {
            printf "01 00 %02x 00 02 00 03 ff\n", rule
            state = 0
            for (word = 0; word < 42; word++) {
                from = 0
                for (letter = 0; letter < 6; letter++) {
                    state++
                    byte = letter == 0 ? 65 + word : 97 + letter
                    printf "06 %02x %02x %02x %02x\n", from, byte, byte, state
                    from = state
                }
                printf "04 %02x\n", from
            }
            print "07"
        }
        print "08"
    }' | make-book.sh >book.bin
}
words 32; reads 'rest 0 0' '32 rules of 42 words of six letters'
words 1
printf 'AbcdefBbcdefjbcdef' >text.bin
[ "$("$cutlist" | tail -n 1)" = 'rest 18 0' ] || fail 'words of a list are not cut'

# pairs RULES: a book of so many rules, each of 676 words of six letters, one for each two letters that a word may begin with
pairs() {
    awk -v rules="$1" '
        function two(n) { return sprintf("%02x %02x", int(n / 256), n % 256) }
        function move(from, byte, to) { printf "0c %s %02x %02x %s\n", two(from), byte, byte, two(to); moves++ }
        BEGIN {
            for (rule = 1; rule <= rules; rule++) {
                printf "01 00 %02x 00 09 00 00 0a 0f ff\n", rule
                state = 0
                for (a = 97; a <= 122; a++) {
                    first = ++state
                    move(0, a, first)
                    for (b = 97; b <= 122; b++) {
                        from = first
                        for (letter = 1; letter < 6; letter++) {
                            move(from, letter == 1 ? b : 101 + letter, ++state)
                            from = state
                        }
                        print "0b " two(from)
                    }
                }
                print "07"
            }
            print "08"
            print moves >"moves"
        }' | make-book.sh >book.bin
}
pairs 1
[ "$(cat moves)" -eq 3406 ] || fail "676 words of six letters are $(cat moves) moves"
[ "$(wc -c <book.bin)" -eq $((25881 + 1)) ] || fail "676 words of six letters are a book of $(wc -c <book.bin) bytes"
printf 'abghijzzghijabghi' >text.bin
[ "$("$cutlist" | tr '\n' /)" = '0 1 0 6/1 1 6 6/rest 12 5/' ] || fail 'words of a long list are not cut'
pairs 2; : >text.bin; reads 'rest 0 0' 'two rules of 676 words of six letters'
pairs 3; reads 'refused 1 0' 'three rules of 676 words of six letters'

# sets of positions, an expression for all bytes but two, and one for letters and -
sets() { # EXPRESSION
    printf '1 plain %s\n' "$1" >rules
    "$zgvbook" make rules -o book.bin 2>said || return 1
    "$zgvbook" list book.bin | sed -n 's/^  from .* to //p' | sort -un | wc -l
}
[ "$(sets '.*a......')" -eq 128 ] || fail "the sets of .*a......: $(sets '.*a......')"
! sets '.*a.......' || fail '256 sets are not refused'
grep -q '(number 32)$' said || fail "of 256 sets zgvbook says: $(cat said)"
sets '[\x01-!#-\xFF]' >/dev/null
[ "$("$zgvbook" list book.bin | tail -n +2 | tr '\n' /)" = "  from 0 at 01-'!' to 1/  from 0 at '#'-FF to 1/" ] ||
    fail 'all bytes but 00 and "'
sets '([a-z]|-)+' >/dev/null || fail 'letters and -'

# the catch-all as an expression: what the bytes cut, but for 00
{
    cat "$tmp/top/examples/builtin.rules"
    sed -n 's/.*`\(6 plain [^`]*\)`.*/\1/p' "$document"
} >rules
"$zgvbook" make rules -o book.bin 2>said && grep -q '^rules: 6 rules' said || fail "the catch-all as an expression: $(cat said)"
printf 'oh\r\n' >text.bin
[ "$("$cutlist" | tr '\n' /)" = '0 2 0 2/1 6 2 1/2 4 3 1/rest 4 0/' ] || fail 'the catch-all as an expression'

# refusals of a faulty hexadecimal text and of books that are no books
echo '01 0' | make-book.sh >bad 2>said && fail 'make-book.sh takes a byte of one digit'
grep -q 'line 1: not a byte of two hexadecimal digits: 0' said || fail "make-book.sh says: $(cat said)"
printf '\001\000' >bad
list-book.sh bad >listed && fail 'list-book.sh takes a book that is cut off'
[ "$(cat listed)" = '    0  RULE, cut off' ] || fail "list-book.sh says: $(cat listed)"

echo "format: $(grep -c '^echo @@$' commands) commands print what the document says, and its numbers hold"
