#!/bin/sh
# The player: what it writes, what it says and its exit status, over sheets and books that are in order and that are not.
. "$(dirname "$0")/common"
needs build/player build/cutlist
player=${PLAYER:-$PWD/build/player}
cutlist=$PWD/build/cutlist
examples=$PWD/examples
PATH=$examples:$PATH
builtin=$examples/builtin.bin
top=$PWD
cd "$tmp" || exit 1
cp "$examples/sheet.txt" sheet
runs=0

# run STATUS WORDS...: runs the player, what it writes goes to out, what it says to said
run() {
    wanted=$1
    shift
    "$player" "$@" >out 2>said
    status=$?
    runs=$((runs + 1))
    [ "$status" -eq "$wanted" ] || fail "player $*: status $status, not $wanted: $(cat said)"
    [ "$status" -eq 0 ] || [ ! -s out ] || fail "player $*: it wrote something although its status is $status"
}
says() {
    grep -qF -- "$1" said || fail "it does not say '$1' but: $(cat said)"
}
writes() {
    printf "$1" | cmp -s - out || fail "it does not write '$1' but: $(cat out)"
}

# the sample sheet comes back as it is, with its lines; moved and renamed
run 0 "$builtin" sheet
cmp sheet out || fail 'the sheet is not written as it was'
says '154 tokens written in 483 bytes, and read back as the same list'
run 0 "$builtin" sheet 2 boats ships
says '14 stamps moved, 2 words changed'
sed -e 's/boats/ships/g' sheet >wanted
awk '{ while (match($0, /\[[0-9:.]*\]/)) { printf "%s", substr($0, 1, RSTART - 1)
        t = substr($0, RSTART + 1, 2) * 60 + substr($0, RSTART + 4, 2) + 2
        printf "[%02d:%02d%s", t / 60, t % 60, substr($0, RSTART + 6, 4); $0 = substr($0, RSTART + RLENGTH) } print }' wanted |
    cmp - out || fail 'the stamps are not moved by two seconds'
cp out moved
run 0 "$builtin" moved -2 ships boats
cmp sheet out || fail 'moved there and back it is another sheet'

# the cue list, without line feeds
run 0 -l "$builtin" sheet
says '84 tokens written in 468 bytes'
[ "$(wc -l <out)" -eq 0 ] || fail 'the cue list has line feeds'

# CR LF: a rest, of which it says where it begins and with which byte; nothing is written, unless it is told to
printf '[00:01.00]oh no\r\n[00:02.00]yes\r\n' >crlf
run 1 "$builtin" crlf 2
says 'crlf: not cut from byte 15 on, which is 0D, in line 1: 17 of 32 bytes are left'
says 'nothing is written; -r writes what was cut'
run 1 -l "$builtin" crlf
run 0 -r "$builtin" crlf
writes '[00:01.00]oh no'
says 'not cut from byte 15 on, which is 0D'
says 'writing what was cut'
printf 'oh\n\001' >stray
run 1 "$builtin" stray
says 'not cut from byte 3 on, which is 01, in line 2: 1 of 4 bytes are left'

# numbers and words of the command line
for bad in x 2x '' ' 2' +2 1.5 0x10 -- - 6000 -6000 99999999999999999999; do
    run 2 "$builtin" sheet "$bad"
    says "SECONDS is a whole number from -5999 to 5999, not \"$bad\""
done
run 2
says 'usage: player [-l] [-r] [--turns N [--save FILE]] BOOK SHEET [SECONDS [OLD NEW]]'
run 2 "$builtin"
run 2 "$builtin" sheet 2 boats
run 2 "$builtin" sheet 2 boats ships more
run 2 -x "$builtin" sheet
run 0 "$builtin" sheet 5000
run 1 "$builtin" sheet 5999
says 'sheet: line 1: [00:04.00] moved by 5999 s leaves 00:00.00 to 99:59.99'
run 1 "$builtin" sheet -5
says '[00:04.00] moved by -5 s leaves 00:00.00 to 99:59.99'
run 0 "$builtin" sheet -4
for bad in 'two words' '' '[x' ' ' "$(printf '\r')"; do
    run 1 "$builtin" sheet 0 boats "$bad"
    says "by this book \"$bad\" is not one plain token"
done

# two tokens that would touch: refused as a sheet, a blank between them in a cue list
printf 'oh [fade]\n' >touch
run 1 "$builtin" touch 0 '[' x
says 'the changed sheet: refused: a token would be read on into what follows it (number 21, token 2)'
says '"x" and "fade" would touch; -l writes a separator between'
run 0 -l "$builtin" touch 0 '[' x
writes 'oh x fade]'
printf '[fade]' >touch
run 1 "$builtin" touch 0 '[' x
says '(number 21, token 0)'

# files that are not there, empty and too long
run 1 "$builtin" none
says 'none: No such file or directory'
run 1 none sheet
says 'none: No such file or directory'
run 1 "$builtin" .
: >empty
run 0 "$builtin" empty
writes ''
run 0 -l "$builtin" empty
head -c 65537 /dev/zero | tr '\0' a >long
run 1 "$builtin" long
says 'long: refused: the text has more than 65,536 bytes (number 14)'
head -c 65536 long >full
run 0 "$builtin" full
cmp full out || fail 'a text of 65,536 bytes is not written as it was'
printf 'x a' | cat - full | head -c 65536 >fuller
run 1 "$builtin" fuller 0 x yes
says 'the changed sheet: refused: more than 65,536 bytes would be written (number 20)'

# refused books
run 1 empty sheet
says "empty: refused: the book stops before its END, or inside a command (number 2, byte 0 of the book)"
run 1 sheet sheet
says 'sheet: refused: no command of a book, or one that may not stand here (number 3, byte 0 of the book)'
make-book.sh >twice <<'END'
01 00 01 00  02 00  03 02  04 01  05 00 61 01  06 00 41 7A 01  07 08
END
run 1 twice sheet
says 'twice: refused: two moves of a rule leave one state at the same byte (number 9, byte 19 of the book)'

# a book with tags of its own, in another order, whose separators are a bar and a full stop: the blank is a plain token
make-book.sh >other <<'END'
01 03 E8 01  02 07  03 09  04 08  05 07 7C 08  07                  # 1000, separator: one bar
01 00 02 01  02 00  03 02  04 01  05 00 2E 01  05 01 2E 01  07     # 2, separator: full stops
01 FF FF 00  02 00  03 02  04 01  06 00 61 7A 01  06 01 61 7A 01  07   # 65535, plain: words
01 00 03 00  02 00  03 02  04 01  05 00 20 01  07                  # 3, plain: one blank
08
END
printf 'oh|no... yes' >bars
run 0 other bars 0 no yes
writes 'oh|yes... yes'
run 0 -l other bars
writes 'oh.no yes'
says '4 tokens written in 9 bytes, and read back as the same list'
run 1 other sheet
says 'sheet: not cut from byte 0 on, which is 5B, in line 1'
run 1 other bars 0 oh '|'
says 'by this book "|" is not one plain token'

# a book without separators has no cue list; one whose kinds share a byte is refused by 23
make-book.sh >plain <<'END'
01 00 01 00  02 00  03 02  04 01  05 00 61 01  07 08
END
printf aa >as
run 0 plain as
writes aa
run 1 -l plain as
says 'the book has no separator of one byte'
make-book.sh >shared <<'END'
01 00 01 00  02 00  03 02  04 01  06 00 20 7E 01  07
01 00 02 01  02 00  03 03  04 02  05 00 0A 02  05 00 20 01  05 01 20 02  07
08
END
printf 'a\na' >lines
run 1 -l shared lines
says 'the cue list: refused: a plain and a separator rule of the book use the same byte (number 23, byte 20)'

# --hidden: "if" hides words, words hide "else" everywhere, others hide a rule for any byte at some, and that one hides rule 5 everywhere
make-book.sh >hides <<'END'
01 00 0A 00  02 00  03 09  04 02  06 00 69 69 01  06 01 66 66 02  07                   # rule 0, tag 10: "if"
01 00 14 00  02 00  03 09  04 01  06 00 61 7A 01  06 01 61 7A 01  07                   # rule 1, tag 20: words
01 00 1E 01  02 00  03 09  04 01  06 00 20 20 01  06 01 20 20 01  07                   # rule 2, tag 30, separator: blanks
01 00 28 00  02 00  03 09  04 04                                                       # rule 3, tag 40: "else"
    06 00 65 65 01  06 01 6C 6C 02  06 02 73 73 03  06 03 65 65 04  07
01 FF FF 00  02 00  03 09  04 01  06 00 00 FF 01  07                                   # rule 4, tag 65535: any byte
01 00 32 01  02 00  03 09  04 01                                                       # rule 5, tag 50, separator: some bytes
    06 00 00 1F 01  06 00 21 22 01  06 00 5C 5C 01  06 00 7F FF 01  07
01 00 3C 00  02 00  03 09  04 01  06 00 41 5A 01  07                                   # rule 6, tag 60: a capital letter
08
END
printf 'if x  else iffy if\n\r\t"\\\000!\377' >text
run 0 --hidden hides text
says 'text: 17 tokens, 7 rules: 4 hidden somewhere, 2 always'
cmp - out <<'END' || fail "of hidden rules it writes: $(cat out)"
rule 0, tag 10, plain: took 2 tokens, hidden at 0
rule 1, tag 20, plain: took 3 tokens, hidden at 2
    token 0 at byte 0, "if", went to rule 0, tag 10
    token 8 at byte 16, "if", went to rule 0, tag 10
rule 2, tag 30, separator: took 4 tokens, hidden at 0
rule 3, tag 40, plain: took 0 tokens, hidden at 1, ALWAYS HIDDEN
    token 4 at byte 6, "else", went to rule 1, tag 20
rule 4, tag 65535, plain: took 8 tokens, hidden at 4
    token 1 at byte 2, " ", went to rule 2, tag 30
    token 2 at byte 3, "x", went to rule 1, tag 20
    token 5 at byte 10, " ", went to rule 2, tag 30
    token 7 at byte 15, " ", went to rule 2, tag 30
rule 5, tag 50, separator: took 0 tokens, hidden at 8, ALWAYS HIDDEN
    token 9 at byte 18, "\n", went to rule 4, tag 65535
    token 10 at byte 19, "\r", went to rule 4, tag 65535
    token 11 at byte 20, "\t", went to rule 4, tag 65535
    token 12 at byte 21, "\"", went to rule 4, tag 65535
    token 13 at byte 22, "\\", went to rule 4, tag 65535
    token 14 at byte 23, "\x00", went to rule 4, tag 65535
    token 15 at byte 24, "!", went to rule 4, tag 65535
    token 16 at byte 25, "\xFF", went to rule 4, tag 65535
rule 6, tag 60, plain: took 0 tokens, hidden at 0
END

# of several rules that hide one the earliest took the token; a token of 41 bytes is shortened, one of 40 is not
{
    for tag in 01 02 03 04; do
        echo "01 00 $tag 00  02 00  03 02  04 01  06 00 61 7A 01  06 01 61 7A 01  07"
    done
    echo '01 00 05 01  02 00  03 02  04 01  06 00 20 20 01  07  08'
} | make-book.sh >same
forty=$(head -c 40 long)
printf '%s a%s' "$forty" "$forty" >text
run 0 --hidden same text
says 'text: 3 tokens, 5 rules: 3 hidden somewhere, 3 always'
{
    echo 'rule 0, tag 1, plain: took 2 tokens, hidden at 0'
    for rule in 1 2 3; do
        echo "rule $rule, tag $((rule + 1)), plain: took 0 tokens, hidden at 2, ALWAYS HIDDEN"
        echo "    token 0 at byte 0, \"$forty\", went to rule 0, tag 1"
        echo "    token 2 at byte 41, \"$forty\"... of 41 bytes, went to rule 0, tag 1"
    done
    echo 'rule 4, tag 5, separator: took 1 token, hidden at 0'
} | cmp - out || fail "of four rules that agree it writes: $(cat out)"

# as many rules as a book may have, of which the last is hidden by the first, and as many tokens as a text may have
awk 'BEGIN {
    for (tag = 1; tag <= 32; tag++)
        printf "01 00 %02x 00  02 00  03 02  04 01  06 00 %s 01  07\n", tag, tag == 1 || tag == 32 ? "61 61" : "62 62"
    print "08"
}' | make-book.sh >most
run 0 --hidden most full
says 'full: 65536 tokens, 32 rules: 1 hidden somewhere, 1 always'
[ "$(sed -n 32p out)" = 'rule 31, tag 32, plain: took 0 tokens, hidden at 65536, ALWAYS HIDDEN' ] || fail "it writes: $(sed -n 32p out)"
[ "$(tail -n 1 out)" = '    token 65535 at byte 65535, "a", went to rule 0, tag 1' ] || fail "it writes: $(tail -n 1 out)"
[ "$(wc -l <out)" -eq $((32 + 65536)) ] || fail "it writes $(wc -l <out) lines"

# a book without hidden rules, by the command of README.md too
run 0 --hidden "$builtin" sheet
says 'sheet: 154 tokens, 5 rules: 0 hidden somewhere, 0 always'
cat >wanted <<'END'
rule 0, tag 1, plain: took 14 tokens, hidden at 0
rule 1, tag 2, plain: took 68 tokens, hidden at 0
rule 2, tag 3, separator: took 56 tokens, hidden at 0
rule 3, tag 4, separator: took 14 tokens, hidden at 0
rule 4, tag 5, plain: took 2 tokens, hidden at 0
END
cmp wanted out || fail "of the built-in book it writes: $(cat out)"
words=$(sed -n 's|^build/player \(--hidden .*\)|\1|p' "$top/README.md")
[ -n "$words" ] || fail 'README.md has no command with --hidden'
# shellcheck disable=SC2086
(cd "$top" && "$player" $words) >out 2>said || fail "the command of README.md: $(cat said)"
cmp wanted out || fail "the command of README.md writes: $(cat out)"
run 0 --hidden plain empty
writes 'rule 0, tag 1, plain: took 0 tokens, hidden at 0\n'
says 'empty: 0 tokens, 1 rule: 0 hidden somewhere, 0 always'

# with --hidden: a rest, refusals, and the words of the command line
run 1 --hidden "$builtin" crlf
says 'crlf: not cut from byte 15 on, which is 0D, in line 1: 17 of 32 bytes are left'
says 'nothing is written; -r writes what was cut'
run 0 -r --hidden "$builtin" crlf
says 'writing what was cut'
says 'crlf: 4 tokens, 5 rules: 0 hidden somewhere, 0 always'
cp out before
run 0 --hidden -r "$builtin" crlf
cmp before out || fail 'the order of its options changes what it writes'
run 1 --hidden twice sheet
says 'twice: refused: two moves of a rule leave one state at the same byte (number 9, byte 19 of the book)'
run 1 --hidden empty sheet
says 'empty: refused: the book stops before its END, or inside a command (number 2, byte 0 of the book)'
run 1 --hidden "$builtin" long
says 'long: refused: the text has more than 65,536 bytes (number 14)'
run 1 --hidden "$builtin" none
says 'none: No such file or directory'
run 2 --hidden
says '       player --hidden [-r] [--turns N [--save FILE]] BOOK TEXT'
run 2 --hidden "$builtin"
run 2 --hidden "$builtin" sheet 2
run 2 --hidden "$builtin" sheet 2 boats ships
run 2 --hidden -l "$builtin" sheet
run 2 --hide "$builtin" sheet
run 2 "$builtin" sheet --hidden
if [ -w /dev/full ]; then
    ! "$player" --hidden "$builtin" sheet >/dev/full 2>said || fail 'that nothing could be written is not told'
    says 'player: No space left on device'
fi

# --turns: what each turn says, with its tokens below it; twice the budget from the same place where there was none, and then as before
printf 'oh no [00:1x\r' >text
run 0 -r --turns 5 "$builtin" text
writes 'oh no [00:1x'
cmp - said <<'END' || fail "of turns of 5 bytes it says: $(cat said)"
turn 1, 5 bytes: 5 examined, 2 tokens, spent at byte 3
    token 0 at byte 0, tag 2, "oh"
    token 1 at byte 2, tag 3, " "
turn 2, 5 bytes: 5 examined, 2 tokens, spent at byte 6
    token 2 at byte 3, tag 2, "no"
    token 3 at byte 5, tag 3, " "
turn 3, 5 bytes: 0 examined, 0 tokens, spent at byte 6
    no token: the next turn has 10 bytes
turn 4, 10 bytes: 6 examined, 1 token, spent at byte 7
    token 4 at byte 6, tag 5, "["
turn 5, 5 bytes: 0 examined, 0 tokens, spent at byte 7
    no token: the next turn has 10 bytes
turn 6, 10 bytes: 7 examined, 1 token, finished at byte 12
    token 5 at byte 7, tag 2, "00:1x"
text: not cut from byte 12 on, which is 0D, in line 1: 1 of 13 bytes are left
player: writing what was cut
text: 0 stamps moved, 0 words changed
text: 6 tokens written in 12 bytes, and read back as the same list
END
run 0 --turns 1 "$builtin" empty
says 'turn 1, 1 byte: 0 examined, 0 tokens, finished at byte 0'
run 0 --turns 65536 other bars
says 'turn 1, 65536 bytes: 17 examined, 6 tokens, finished at byte 12'
says '    token 0 at byte 0, tag 65535, "oh"'

# --save: after each turn the file holds what was cut so far
printf 'oh no [00:1x\r' >text
run 0 -r --turns 5 --save saved "$builtin" text
writes 'oh no [00:1x'
cmp saved out || fail "it saves: $(cat saved)"
cmp - said <<'END' || fail "of turns of 5 bytes with saving it says: $(cat said)"
turn 1, 5 bytes: 5 examined, 2 tokens, spent at byte 3
    token 0 at byte 0, tag 2, "oh"
    token 1 at byte 2, tag 3, " "
    saved: 2 tokens in 3 bytes
turn 2, 5 bytes: 5 examined, 2 tokens, spent at byte 6
    token 2 at byte 3, tag 2, "no"
    token 3 at byte 5, tag 3, " "
    saved: 4 tokens in 6 bytes
turn 3, 5 bytes: 0 examined, 0 tokens, spent at byte 6
    saved: 4 tokens in 6 bytes
    no token: the next turn has 10 bytes
turn 4, 10 bytes: 6 examined, 1 token, spent at byte 7
    token 4 at byte 6, tag 5, "["
    saved: 5 tokens in 7 bytes
turn 5, 5 bytes: 0 examined, 0 tokens, spent at byte 7
    saved: 5 tokens in 7 bytes
    no token: the next turn has 10 bytes
turn 6, 10 bytes: 7 examined, 1 token, finished at byte 12
    token 5 at byte 7, tag 2, "00:1x"
    saved: 6 tokens in 12 bytes
text: not cut from byte 12 on, which is 0D, in line 1: 1 of 13 bytes are left
player: writing what was cut
text: 0 stamps moved, 0 words changed
text: 6 tokens written in 12 bytes, and read back as the same list
END

# a printer that goes wrong at one save: nothing wrong is saved, and what was saved before it is the text up to the place of that turn
cat >wrong.c <<'END'
#include "zagvulem.h"
#include <stdlib.h>

uint64_t wrong_print(const uint8_t *book, size_t book_len, const uint8_t *records, size_t records_len, const uint8_t *pool, size_t pool_len,
                     uint8_t *out, size_t out_len)
{
    static int calls;
    uint64_t answer = zgv_print(book, book_len, records, records_len, pool, pool_len, out, out_len);
    if (++calls != atoi(getenv("AT")))
        return answer;
    switch (*getenv("HOW")) {
    case 'r': /* refused */
        return (uint64_t)ZGV_READ_ON << 56 | 1;
    case 's': /* shorter */
        return answer - ((uint64_t)1 << 28);
    default: /* another byte */
        out[zgv_first(answer) - 1] ^= 1;
        return answer;
    }
}
END
$CC -std=c99 -Wall -Wextra -Werror -pedantic -O2 -I"$top/include" -c wrong.c -o wrong.o &&
    $CC -std=c99 -O2 -I"$top/include" -Dzgv_print=wrong_print "$top/examples/player.c" wrong.o "$top/build/libzagvulem.a" -o wrong ||
    fail 'compiling a player with a printer that goes wrong'
sound=$player
player=$PWD/wrong
export AT HOW
for HOW in refused shorter byte; do
    for before in 1:0 2:3 3:6 4:6 5:7 6:7; do
        AT=${before%:*}
        run 1 -r --turns 5 --save saved-$HOW-$AT "$builtin" text
        case $HOW in
        refused) says "saved-$HOW-$AT: refused: a token would be read on into what follows it (number 21, token 1)" ;;
        *) says "saved-$HOW-$AT: not saved: what was printed is not the beginning of the sheet" ;;
        esac
        [ "$(grep -c '    saved: ' said)" -eq $((AT - 1)) ] || fail "$HOW at save $AT: it says $(cat said)"
        if [ "$AT" -eq 1 ]; then
            [ ! -e saved-$HOW-$AT ] || fail "$HOW at the first save: something is saved"
        else
            head -c "${before#*:}" text | cmp - saved-$HOW-$AT || fail "$HOW at save $AT: $(cat saved-$HOW-$AT) is saved"
        fi
    done
done
AT=7 HOW=byte
run 1 -r --turns 5 --save saved "$builtin" text
says 'player: what was printed is not read back as the same list'
player=$sound

# in_turns WORDS...: in turns of any budget it writes and says what it does without, with the same tokens, and the turns join; what is
# saved is the text up to the rest
in_turns() {
    run 0 "$@"
    cp out once
    cp said said-once
    sheet_of "$@"
    for n in 1 2 7 64 1000 65536; do
        run 0 --turns "$n" --save saved "$@"
        cmp once out || fail "player $*: with --turns $n it writes something else"
        head -c "$(sed -n 's/^turn .*finished at byte //p' said)" "$sheet" | cmp - saved || fail "player $*: --turns $n saves something else"
        grep -v '^turn \|^    ' said | cmp - said-once || fail "player $*: with --turns $n it says: $(cat said)"
        grep '^    token ' said >tokens
        [ "$n" -gt 1 ] || cp tokens tokens-once
        cmp tokens tokens-once || fail "player $*: --turns $n has other tokens than --turns 1"
        sed 's/,//g' said | awk -v usual="$n" '
            function wrong(what) { print what " in line " NR ": " $0; failed = 1; exit 1 }
            BEGIN { due = usual }
            $1 == "turn" {
                finished = $9 == "finished"
                if ($2 != ++turns || $3 != due || left != 0 || over) wrong("the turn")
                if ($5 > $3 || $5 < $7 || $7 == 0 && ($12 != place || !finished && $5 != 0)) wrong("the numbers")
                from = place; place = $12; left = $7; over = finished; all += $7
                due = $7 == 0 ? 2 * $3 : usual
            }
            $1 == "saved:" && (++saves != turns || $2 != all || $5 != place) { wrong("what is saved") }
            $1 == "token" && ($5 < from || $5 >= place || left-- == 0) { wrong("the token") }
            $1 == "no" && $7 != due { wrong("the next budget") }
            END { if (!failed && (!over || left != 0 || saves != turns)) wrong("the end") }' || fail "player $*: the turns of --turns $n"
    done
}
# sheet_of WORDS...: the sheet of a command line, behind the options and the book
sheet_of() {
    while [ "${1#-}" != "$1" ]; do
        shift
    done
    sheet=$2
}
# as_cutlist BOOK TEXT: the tokens that in_turns has seen last are those that cutlist lists
as_cutlist() {
    cp "$1" book.bin
    cp "$2" text.bin
    "$cutlist" | awk '$1 != "rest" { print $1, $3, $2 }' >listed
    sed 's/^    token \([0-9]*\) at byte \([0-9]*\), tag \([0-9]*\), .*/\1 \2 \3/' tokens | cmp - listed ||
        fail "$1, $2: other tokens in turns than cutlist lists"
}
in_turns "$builtin" sheet
as_cutlist "$builtin" sheet
in_turns "$builtin" sheet 2 boats ships
in_turns -l "$builtin" sheet
in_turns --hidden "$builtin" sheet
in_turns -r "$builtin" crlf
as_cutlist "$builtin" crlf
in_turns other bars 0 no yes
as_cutlist other bars
printf '%s a%s' "$forty" "$forty" >text
in_turns --hidden same text
printf 'if x  else iffy if\n\r\t"\\\000!\377' >text
in_turns --hidden hides text
as_cutlist hides text
in_turns plain empty
in_turns "$builtin" full

# a rule that walks to the text's end at each token: a turn of one byte grows to as many as are left
make-book.sh >far <<'END'
01 00 01 00  02 00  03 09  04 01  04 03
06 00 61 61 01  06 01 61 61 02  06 02 61 61 02  06 01 62 62 03  06 02 62 62 03  07 08
END
head -c 300 long >text
in_turns far text
as_cutlist far text
run 0 --turns 1 far text
says 'turn 10, 512 bytes: 300 examined, 1 token, spent at byte 1'
{
    cat text
    printf b
} >ends
in_turns far ends
as_cutlist far ends

# by the command of README.md too
words=$(sed -n 's|^build/player \(--turns .*\)|\1|p' "$top/README.md")
[ -n "$words" ] || fail 'README.md has no command with --turns'
# shellcheck disable=SC2086
(cd "$top" && "$player" $words) >out 2>said || fail "the command of README.md: $(cat said)"
cmp sheet out || fail "the command of README.md writes: $(cat out)"
says 'turn 1, 64 bytes: 61 examined, 12 tokens, spent at byte 49'
says 'saved: 12 tokens in 49 bytes'
cmp sheet "$top/build/saved.txt" || fail "the command of README.md saves something else"

# with --turns: a rest, refusals, and the words of the command line
run 1 --turns 3 "$builtin" crlf
says 'crlf: not cut from byte 15 on, which is 0D, in line 1: 17 of 32 bytes are left'
says 'nothing is written; -r writes what was cut'
run 1 --turns 3 twice sheet
says 'twice: refused: two moves of a rule leave one state at the same byte (number 9, byte 19 of the book)'
run 1 --turns 3 "$builtin" long
says 'long: refused: the text has more than 65,536 bytes (number 14)'
run 1 --turns 3 "$builtin" none
says 'none: No such file or directory'
for bad in 0 x 2x '' ' 2' +2 -2 1.5 0x10 - 65537 99999999999999999999; do
    run 2 --turns "$bad" "$builtin" sheet
    says "N of --turns is a whole number from 1 to 65536, not \"$bad\""
done
run 2 --turns
says 'N of --turns is a whole number from 1 to 65536, not ""'
run 2 --turns=3 "$builtin" sheet
run 2 --turns 3
run 2 --turns 3 "$builtin"
run 2 --hidden --turns 3 -l "$builtin" sheet
says 'usage: player [-l] [-r] [--turns N [--save FILE]] BOOK SHEET [SECONDS [OLD NEW]]'
run 2 "$builtin" sheet --turns 3

# with --save: a rest without -r, changes to the sheet, refusals before the first turn, and a file that is there and longer
run 1 --turns 3 --save saved "$builtin" crlf
printf '[00:01.00]oh no' | cmp - saved || fail "of a text with a rest it saves: $(cat saved)"
cp full saved
run 0 --turns 30 --save saved "$builtin" sheet 2 boats ships
cmp sheet saved || fail 'it saves a changed sheet'
rm saved
run 1 --turns 3 --save saved "$builtin" long
run 1 --turns 3 --save saved twice sheet
run 1 --turns 3 --save saved "$builtin" none
run 2 --turns 0 --save saved "$builtin" sheet
run 2 --save saved "$builtin" sheet
says '  --save FILE  after each turn save the sheet so far'
run 2 --turns 3 --save
[ ! -e saved ] || fail 'it saves although nothing was cut'
run 1 --turns 3 --save none/saved "$builtin" sheet
says 'none/saved: No such file or directory'
run 1 --turns 3 --save . "$builtin" sheet
if [ -w /dev/full ]; then
    run 1 --turns 100 --save /dev/full "$builtin" sheet
    says '/dev/full: No space left on device'
fi
# neither the sheet nor the book is written over, by whatever name
cp "$builtin" book
cp sheet kept
ln sheet linked
ln -s book pointing
for bad in sheet ./sheet linked book pointing; do
    run 2 --turns 3 --save "$bad" book sheet
    says "FILE of --save is another file than the book and the sheet, not \"$bad\""
done
cmp sheet kept && cmp book "$builtin" || fail 'the sheet or the book is written over'

echo "player: $runs runs"
