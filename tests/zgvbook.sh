#!/bin/sh
# zgvbook: the built-in book made of expressions cuts as the library's own; what is written, said and answered over files of rules and
# books that are in order and that are not.
. "$(dirname "$0")/common"
needs build/zgvbook build/libzagvulem.a build/cutlist
zgvbook=${ZGVBOOK:-$PWD/build/zgvbook}
cutlist=$PWD/build/cutlist
examples=$PWD/examples
top=$PWD
PATH=$examples:$PATH
builtin=$examples/builtin.bin
cd "${tmp:?}" || exit 1
runs=0

# run STATUS WORDS...: runs zgvbook; what it writes goes to out, what it says to said
run() {
    wanted=$1
    shift
    "$zgvbook" "$@" >out 2>said
    status=$?
    runs=$((runs + 1))
    [ "$status" -eq "$wanted" ] || fail "zgvbook $*: status $status, not $wanted: $(cat said)"
}
says() {
    grep -qxF -- "$1" said || fail "it does not say '$1' but: $(cat said)"
}
writes() {
    grep -qxF -- "$1" out || fail "it does not write '$1' but: $(cat out)"
}
# the file's bytes are those that standard input says in hexadecimal digits
is() { # FILE
    make-book.sh >wanted.bin
    cmp wanted.bin "$1" || fail "$1 has other bytes: $(od -An -tx1 "$1")"
}

# the built-in book: its cuts, its rules, and both ways to write it
run 0 make "$examples/builtin.rules" -o made
says "$examples/builtin.rules: 5 rules, a book of $(wc -c <made) bytes"
[ ! -s out ] || fail 'with -o it writes to standard output'
$CC -std=c99 -Wall -Wextra -Werror -pedantic -O2 -I"$top/include" "$top/tests/alike.c" "$top/build/libzagvulem.a" -o alike ||
    fail 'compiling tests/alike.c'
alike=$(./alike made "$examples/sheet.txt") || fail "the built-in book of expressions: $alike"
run 0 make "$examples/builtin.rules"
cmp out made || fail 'without -o another book is written'
run 0 make -o other "$examples/builtin.rules"
cmp other made || fail 'with -o before the file another book is written'
run 0 check made
writes "made: accepted: 5 rules, $(wc -c <made) bytes"
[ "$(wc -l <out)" -eq 1 ] && [ ! -s said ] || fail "of a book in order it says more: $(cat out said)"
run 0 check "$builtin"
writes "$builtin: accepted: 5 rules, 168 bytes"
writes "$builtin: the book has a STEP, which is retired: at byte 10 (number 33 of the stricter reading); modernize rewrites it"

# a rule by its bytes, and the same one by each way to write its line
printf '258 separator a\n' >rules
run 0 make rules -o book
says 'rules: 1 rule, a book of 17 bytes'
is book <<'BYTES'
01 01 02 01  02 00  03 FF  04 01  06 00 61 61 01  07  08
BYTES
for line in '258 separator a' '  258	separator 	 a \t' '\t258 separator\ta\r\n' '000258 separator a\n' \
    '# one\n\n  \t\r\n  # two\n258 separator a\n#' '258 separator a  \r\n\r\n'; do
    # shellcheck disable=SC2059
    printf "$line" >rules
    run 0 make rules -o again
    cmp book again || fail "the line '$line' makes another book"
done

# bytes LINE BYTE...: the rule of the expression has one move from its start for each byte or range
bytes() {
    printf '1 plain %s\n' "$1" >rules
    shift
    run 0 make rules -o book
    "$zgvbook" list book | sed -n 's/^  from 0 at \(.*\) to [0-9]*$/\1/p' >moves
    for move; do
        echo "$move"
    done | cmp - moves || fail "the bytes of $(cat rules): $(cat moves)"
}
bytes '#' "'#'"
bytes '[ #]' "' '" "'#'"
bytes '[ ]' "' '"
bytes '\n' 0A
bytes '[\n\r]' 0A 0D
bytes '\t' 09
bytes '[\x01-\x1F\x7f-\xFf]' 01-1F 7F-FF
bytes '\x20' "' '"
bytes '.' 01-09 0B-FF
bytes '\\' "'\\'"
bytes '\\n' "'\\'"
bytes '\^|\.|\[|\$|\(|\)|\||\*|\+|\?|\{|]|}' "'\$'" "'('" "')'" "'*'" "'+'" "'.'" "'?'" "'['" "']'" "'^'" "'{'" "'|'" "'}'"
bytes "[$(printf '\002\375')]" 02 FD
bytes "['\"]" "'\"'" "'''"

# a blank or a # inside an expression is a byte of it; so is a carriage return that does not end the line
printf '1 plain a b #c \r\n2 plain [\r]\n3 plain \rx' >rules
run 0 make rules -o book.bin
printf 'a b #c\r\rxa b #c' >text.bin
[ "$("$cutlist" | tr '\n' /)" = '0 1 0 6/1 2 6 1/2 3 7 2/3 1 9 6/rest 15 0/' ] || fail "blanks inside an expression: $("$cutlist")"

# told LINE COLUMN MESSAGE: the rules in the file rules are refused with this message; nothing is written, and what is there is kept
told() {
    rm -f none
    run 1 make rules -o none
    [ ! -e none ] || fail "refused, and a file is made: $(cat said)"
    says "rules:$1:$2: $3"
    says 'zgvbook: nothing is written'
    echo kept >kept
    run 1 make rules -o kept
    [ "$(cat kept)" = kept ] || fail "refused, and the file that is there is changed: $(cat said)"
    run 1 make rules
    [ ! -s out ] || fail "refused, and something is written: $(cat said)"
}
# the same of one line, with escapes of printf
tell() { # LINE COLUMN MESSAGE
    # shellcheck disable=SC2059
    printf "# rules\n$1" >rules
    told 2 "$2" "$3"
    [ "$(wc -l <said)" -eq 2 ] || fail "it says more: $(cat said)"
}
part='refused: not an expression of the part of POSIX.1 that is read (number 30,'
large='refused: the expression has more than 512 bytes or 64 positions, or parentheses deeper than 16 (number 31)'
tell '1 plain a**' 11 "$part at '*')"
tell '1 plain  a**\n' 12 "$part at '*')"
tell '1 plain a|' 11 "$part at its end)"
tell '1 plain a|  \r\n' 11 "$part at its end)"
tell '1 plain [b-a]\r\n' 12 "$part at 'a')"
tell '1 plain ()' 10 "$part at ')')"
tell '1 plain \\n\\x41' 11 '\x has two hexadecimal digits, of a byte from 01 to 20 or from 7F to FF, not "\x41"'
tell '1 plain \\n\\t\\x80\\d' 18 "$part at 'd')"
tell '1 plain [\\x80-\\t]' 15 "$part at 09)"
tell '1 plain [\\x80-\\x7F]' 15 "$part at 7F)"
tell '1 plain a\\' 11 "$part at its end)"
tell '1 plain [a-z]\\\\]{2}' 17 "$part at '{')"
tell '1 plain a\\]' 11 "$part at ']')"
tell '1 plain ^a' 9 "$part at '^')"
tell '1 plain a\0b' 10 "$part at 00)"
tell '1 plain' 8 "$part there is none)"
tell '1 plain  \t\r\n' 11 "$part there is none)"
for end in '\\x' '\\x1' '\\xg0' '\\x00' '\\x21' '\\x7E' '\\x5D'; do
    tell "1 plain ab$end" 11 "\\x has two hexadecimal digits, of a byte from 01 to 20 or from 7F to FF, not \"\\${end#\\\\}\""
done
for tag in 0 x 65536 99999999999999999999999 1x -1 +1 0x1 1.0 plain; do
    tell "  $tag plain a" 3 "a tag is a whole number from 1 to 65535, not \"$(echo "$tag" | sed 's/^\(.\{20\}\).*/\1.../')\""
done
tell '\357\273\2771 plain a' 1 'a tag is a whole number from 1 to 65535, not "\xEF\xBB\xBF1"'
for kind in Plain plai plains 0 1 'separator,'; do
    tell "1 $kind a" 3 "a kind is plain or separator, not \"$kind\""
done
tell '1' 2 'a kind is plain or separator, not ""'
tell '1 \n' 3 'a kind is plain or separator, not ""'
tell '7 plain a*' 9 'refused: the expression matches the empty string (number 12)'
tell '7 plain  (a?|b)c?\n' 10 'refused: the expression matches the empty string (number 12)'
printf '7 plain a\n8 plain b\n  7 plain c\n' >rules
told 3 3 'refused: an earlier rule of the book has the same tag (number 7)'

# so many times a text
copies() { # COUNT TEXT
    awk -v count="$1" -v text="$2" 'BEGIN { while (count-- > 0) printf "%s", text }'
}
tell "1 plain $(copies 64 a)b" 9 "$large"
tell "1 plain $(copies 17 '(')a$(copies 17 ')')" 9 "$large"
tell "1 plain [$(copies 511 a)]" 9 "$large"
tell "1 plain [$(copies 511 '\\\\x80')]" 9 "$large"
tell "1 plain $(copies 100000 a)" 9 "$large"
tell "1 plain $(copies 513 '(')" 9 "$large"
tell "1 plain $(copies 511 '(')a" 521 "$part at its end)"
tell '1 plain .*a.......' 9 'refused: the expression has more than 254 sets of positions (number 32)'
for fits in "[$(copies 510 a)]" "[$(copies 510 '\x80')]" "$(copies 64 a)" "$(copies 16 '(')a$(copies 16 ')')" ".*a......"; do
    printf '1 plain %s\n' "$fits" >rules
    run 0 make rules -o book
done
# moves at nearly every byte, with expressions for a book that is too long and for a rule with too many moves
odd=$(awk 'BEGIN {
    for (i = 1; i < 256; i += 2)
        if (i < 33 || i > 126) printf "\\x%02X", i
        else if (i != 45 && i != 91 && i != 93) printf "%c", i
}')
printf '1 plain .*[%s]...' "$odd" >rules
told 1 9 'refused: the book has a 33rd rule, or a rule a 4,097th move (number 5)'
printf '1 plain .*[%s].....' "$odd" >rules
told 1 9 'refused: the book has more than 65,536 bytes (number 1)'
{
    for tag in 1 2 3 4 5 6 7; do
        printf '%s plain .*[%s]..\n' "$tag" "$odd"
    done
} >rules
told 7 9 'refused: the book has more than 65,536 bytes (number 1)'
awk 'BEGIN { for (i = 1; i <= 32; i++) print i " plain a" }' >rules
run 0 make rules -o book
says 'rules: 32 rules, a book of 513 bytes'
echo ' 33 plain a' >>rules
told 33 2 'refused: the book has a 33rd rule, or a rule a 4,097th move (number 5)'

# each line that is refused is told, up to twenty; no rule at all
printf '1 plain a**\n2 plain b\n3 no c\n\n2 plain d\n4 plain e?\n5 plain f' >rules
run 1 make rules -o none
cat >wanted <<'SAID'
rules:1:11: refused: not an expression of the part of POSIX.1 that is read (number 30, at '*')
rules:3:3: a kind is plain or separator, not "no"
rules:5:1: refused: an earlier rule of the book has the same tag (number 7)
rules:6:9: refused: the expression matches the empty string (number 12)
zgvbook: nothing is written
SAID
cmp wanted said || fail "of several lines it says: $(cat said)"
copies 21 'x
' >rules
run 1 make rules -o none
[ "$(grep -c '^rules:[0-9]*:1: a tag is' said)" -eq 20 ] || fail "of 21 lines it says: $(cat said)"
says 'zgvbook: 20 lines are refused, and what follows them is not read'
copies 20 'x
' >rules
run 1 make rules -o none
! grep -q 'what follows' said || fail "of 20 lines it says: $(cat said)"
[ ! -e none ] || fail 'a book is made of refused lines'
for empty in '' '\n\n' '# none' '  \t\r\n#1 plain a\n'; do
    # shellcheck disable=SC2059
    printf "$empty" >rules
    run 1 make rules -o none
    says 'rules: refused: the book has no rule (number 13)'
    [ ! -e none ] || fail 'a book is made of no rule'
done

# long lines and files: a comment of any length up to the limit of a file
{
    printf '#'
    copies 1048567 x
    printf '\n1 plain a'
} >rules
[ "$(wc -c <rules)" -eq 1048578 ] || fail "the file has $(wc -c <rules) bytes"
run 1 make rules -o none
says 'rules: refused: the file has more than 1048576 bytes'
[ ! -e none ] || fail 'a book is made of a file that is too long'
tail -c 1048575 rules >shorter
{
    printf '#'
    cat shorter
} >rules
run 0 make rules -o book
says 'rules: 1 rule, a book of 17 bytes'

# list: moves in every form, states of two bytes, several finals or none, every byte
make-book.sh >book <<'BYTES'
01 00 01 00  0C 01 00 68 68 0F FE  02 05  06 05 00 1F 06  05 05 22 07  06 05 7E 7F 06  06 05 80 FF 08  0A 0F FF  0B 01 00  04 06  04 06  07
01 FF FF 01  03 00  02 00  07
08
BYTES
run 0 list book
cmp - out <<'LISTED' || fail "it lists: $(cat out)"
tag 1, plain: start 5, error 4095, final 256 6 6
  from 256 at 'h' to 4094
  from 5 at 00-1F to 6
  from 5 at '"' to 7
  from 5 at '~'-7F to 6
  from 5 at 80-FF to 8
tag 65535, separator: start 0, error 0, final
LISTED
[ ! -s said ] || fail "of a list it says: $(cat said)"
run 0 check book
writes 'book: accepted: 2 rules, 53 bytes'

# of a book whose kinds share a byte
printf '1 plain #.*\n2 separator [ \\t]+\n' >rules
run 0 make rules -o shares
run 0 check shares
writes 'shares: a plain and a separator rule of the book use the same byte: byte 09 (number 23 of printing with separators)'

# damaged books: each beginning of the built-in one, each byte of it changed, and what is no book; list and check say what cutlist does
refuses() { # FILE
    cp "$1" book.bin
    : >text.bin
    set -- "$1" $("$cutlist")
    if [ "$2" = refused ]; then
        for command in list check; do
            run 1 "$command" "$1"
            [ ! -s out ] || fail "$command $1: it writes something of a refused book"
            grep -q "^$1: refused: .* (number $3, byte $4 of the book)\$" said || fail "$command $1: $(cat said), not $3 at $4"
        done
    else
        run 0 check "$1"
        run 0 list "$1"
    fi
}
length=0
while [ "$length" -lt 168 ]; do
    head -c "$length" "$builtin" >damaged
    refuses damaged
    length=$((length + 5))
done
at=0
while [ "$at" -lt 168 ]; do
    { head -c "$at" "$builtin"; printf '\377'; tail -c +$((at + 2)) "$builtin"; } >damaged
    refuses damaged
    at=$((at + 3))
done
head -c 65537 /dev/zero >damaged
refuses damaged
says 'damaged: refused: the book has more than 65,536 bytes (number 1, byte 0 of the book)'
head -c 1000000 /dev/zero >damaged
refuses damaged
{ cat "$builtin"; printf x; } >damaged
refuses damaged
says "damaged: refused: bytes follow the book's END (number 4, byte 168 of the book)"

# files that are not there, are folders or cannot be written; the file of rules is not written over, by whatever name
printf '1 plain a\n' >rules
for command in make list check; do
    run 2 "$command" none
    says 'none: No such file or directory'
    run 2 "$command" .
    says '.: Is a directory'
done
run 2 make rules -o none/book
says 'none/book: No such file or directory'
run 2 make rules -o .
says '.: Is a directory'
cp rules kept
ln rules linked
ln -s rules pointing
for bad in rules ./rules linked pointing; do
    run 2 make rules -o "$bad"
    says 'zgvbook: BOOK is another file than "rules"'
done
cmp rules kept || fail 'the file of rules is written over'
if [ -w /dev/full ]; then
    run 2 make rules -o /dev/full
    says '/dev/full: No space left on device'
    says 'zgvbook: /dev/full is not whole'
    for words in 'make rules' 'list book' 'check book'; do
        # shellcheck disable=SC2086
        "$zgvbook" $words >/dev/full 2>said
        [ $? -eq 2 ] && says 'standard output: No space left on device' || fail "zgvbook $words to a full device: $(cat said)"
    done
fi

# the command line
for words in '' make list check '-h' '--help' 'make -o book' 'make rules book' 'make rules -o' 'make rules -o book -o other' \
    'make -x rules' 'make rules -' 'list' 'list book book' 'list -o x book' 'check book book' 'check -o x book' 'other book' 'rules'; do
    # shellcheck disable=SC2086
    run 2 $words
    says 'usage: zgvbook make FILE [-o BOOK]'
done

echo "zgvbook: $runs runs; the built-in book of expressions cuts $alike as the library does"
