#!/bin/sh
# modernize: what it writes, byte for byte, what it says and its exit status, over books that are in order and that are not.
. "$(dirname "$0")/common"
needs build/modernize build/cutlist
modernize=${MODERNIZE:-$PWD/build/modernize}
cutlist=$PWD/build/cutlist
examples=$PWD/examples
PATH=$examples:$PATH
builtin=$examples/builtin.bin
cd "${tmp:?}" || exit 1
runs=0

# run STATUS WORDS...: runs modernize, what it says goes to said; it writes nothing to standard output
run() {
    wanted=$1
    shift
    "$modernize" "$@" >out 2>said
    status=$?
    runs=$((runs + 1))
    [ "$status" -eq "$wanted" ] || fail "modernize $*: status $status, not $wanted: $(cat said)"
    [ ! -s out ] || fail "modernize $*: it writes to standard output"
}
says() {
    grep -qxF -- "$1" said || fail "it does not say '$1' but: $(cat said)"
}

# the file's bytes are those that standard input says in hexadecimal digits
is() { # FILE
    make-book.sh >wanted.bin
    cmp wanted.bin "$1" || fail "$1 has other bytes"
}

# nothing is written: a file stays as it was, and one that is not there is not made
refuses() { # OLD
    rm -f none
    run 1 "$1" none
    [ ! -e none ] || fail "$1 is refused, and a file is made"
    echo kept >kept
    run 1 "$1" kept
    [ "$(cat kept)" = kept ] || fail "$1 is refused, and the file that is there is changed"
    says 'modernize: nothing is written'
}

# STEPs in the midst of every other command; operands that look like a STEP stay
make-book.sh >old <<'END'
01 05 05 00  05 05 61 01  02 05  04 01  05 01 05 05  06 01 06 07 05  03 02  05 00 FF 02  04 06  07
01 00 05 01  02 00  03 02  04 01  06 00 05 05 01  05 00 00 01  07
08
END
run 0 old new
says 'old: 51 bytes, 2 rules, 4 STEPs'
says "new: 55 bytes written, with a SPAN in each STEP's place, and accepted by the stricter reading"
[ "$(wc -l <said)" -eq 2 ] || fail "it says more: $(cat said)"
is new <<'END'
01 05 05 00  06 05 61 61 01  02 05  04 01  06 01 05 05 05  06 01 06 07 05  03 02  06 00 FF FF 02  04 06  07
01 00 05 01  02 00  03 02  04 01  06 00 05 05 01  06 00 00 00 01  07
08
END

# commands with states of two bytes are copied, whatever their operands look like
make-book.sh >old <<'END'
01 00 01 00  09 05 00  0A 0F FF  0B 05 05  05 05 05 05  0C 05 00 05 05 05 05  0C 05 05 06 07 05 01  07  08
END
run 0 old long
says 'old: 33 bytes, 1 rule, 1 STEP'
is long <<'END'
01 00 01 00  09 05 00  0A 0F FF  0B 05 05  06 05 05 05 05  0C 05 00 05 05 05 05  0C 05 05 06 07 05 01  07  08
END

# without a STEP, as what it has written, a book is copied
run 0 new copy
says 'new: 55 bytes, 2 rules, no STEP'
says 'copy: 55 bytes written, unchanged, and accepted by the stricter reading'
cmp new copy || fail 'a book without STEP is changed'

# the book of 16 bytes of document 01, into a file that is longer, then into its own file
make-book.sh >old <<'END'
01 00 01 00  02 00  03 02  04 01  05 00 61 01  07 08
END
head -c 100 /dev/zero >new
run 0 old new
says 'old: 16 bytes, 1 rule, 1 STEP'
run 0 old old
says "old: 17 bytes written, with a SPAN in each STEP's place, and accepted by the stricter reading"
for file in new old; do
    is "$file" <<'END'
01 00 01 00  02 00  03 02  04 01  06 00 61 61 01  07 08
END
done
run 0 old old
cmp old new || fail 'a book without STEP is changed in its own file'

# the built-in book: each command is listed as before, but for the name of its move
run 0 "$builtin" spans
says "$builtin: 168 bytes, 5 rules, 13 STEPs"
commands() { # FILE
    list-book.sh "$1" | sed 's/^ *[0-9]* *//'
}
commands "$builtin" | sed 's/^STEP/SPAN/' >wanted
commands spans | cmp - wanted || fail 'the built-in book is rewritten otherwise'
[ "$(grep -c '^SPAN' wanted)" -eq 25 ] || fail 'the built-in book has other moves'

# alike OLD TEXT LINES: cutlist prints the same lines, so many, of a text by a book and by the rewritten one
alike() {
    run 0 "$1" rewritten
    ! cmp -s "$1" rewritten || fail "$1 has no STEP"
    cp "$2" text.bin
    cp "$1" book.bin
    "$cutlist" >by-old
    cp rewritten book.bin
    "$cutlist" >by-new
    [ "$(wc -l <by-old)" -eq "$3" ] || fail "by $1 $2 is cut into $(wc -l <by-old) lines"
    cmp by-old by-new || fail "by $1 $2 is cut otherwise once it is rewritten"
}
alike "$builtin" "$examples/sheet.txt" 155
printf 'oh [00:12.50]no\n[00:1\r\nyes' >text
alike "$builtin" text 8
# book A of document 01, whose first rule walks through a state that is not final; all strings of two and three letters in one text
make-book.sh >a <<'END'
01 00 01 00  02 00  03 09  04 01  04 03  05 00 61 01  05 01 62 02  05 02 63 03  07
01 00 02 00  02 00  03 09  04 01  05 00 62 01  07
01 00 03 00  02 00  03 09  04 01  05 00 63 01  07
01 00 04 01  02 00  03 09  04 01  05 00 20 01  05 01 20 01  07  08
END
for x in '' a b c; do
    for y in a b c; do
        for z in a b c; do
            printf '%s%s%s ' "$x" "$y" "$z"
        done
    done
done >text
alike a text 134

# the limit: a rule with FINALs that repeat makes a book as long as it should be
filled() { # MOVES FINALS
    awk -v moves="$1" -v finals="$2" 'BEGIN {
        print "01 00 01 00 02 00 03 02 " moves
        while (finals-- > 0) print "04 01"
        print "07 08"
    }' | make-book.sh
}
filled '05 00 61 01 05 01 61 01' 32758 >old
filled '06 00 61 61 01 06 01 61 61 01' 32758 >wanted.bin
run 0 old new
says 'old: 65534 bytes, 1 rule, 2 STEPs'
cmp wanted.bin new || fail 'a book of 65,536 bytes is rewritten otherwise'
[ "$(wc -c <new)" -eq 65536 ] || fail "the rewritten book has $(wc -c <new) bytes"
run 0 new copy
cmp new copy || fail 'a book of 65,536 bytes is changed'
filled '05 00 61 01' 32761 >old
refuses old
says "old: refused: its 65536 bytes would be more than 65536 with a SPAN in each STEP's place (number 1)"
filled '05 00 61 01 05 01 61 01 05 01 62 01' 32756 >old
refuses old
says "old: refused: its 65534 bytes would be more than 65536 with a SPAN in each STEP's place (number 1)"
filled '06 00 61 61 01' 32761 >old
[ "$(wc -c <old)" -eq 65537 ] || fail "the book has $(wc -c <old) bytes"
refuses old
says 'old: refused: the book has more than 65,536 bytes (number 1, byte 0 of the book)'
head -c 1000000 /dev/zero >old
refuses old
says 'old: refused: the book has more than 65,536 bytes (number 1, byte 0 of the book)'

# refused books: their own file is left as it was too
: >old
refuses old
says 'old: refused: the book stops before its END, or inside a command (number 2, byte 0 of the book)'
make-book.sh >old <<'END'
01 00 01 00  02 00  03 02  04 01  05 00 61
END
refuses old
says 'old: refused: the book stops before its END, or inside a command (number 2, byte 10 of the book)'
make-book.sh >old <<'END'
05 00 61 01  08
END
refuses old
says 'old: refused: no command of a book, or one that may not stand here (number 3, byte 0 of the book)'
make-book.sh >old <<'END'
01 00 01 00  02 00  03 02  04 01  05 00 61 01  05 00 61 01  07 08
END
cp old before
refuses old
says 'old: refused: two moves of a rule leave one state at the same byte (number 9, byte 18 of the book)'
run 1 old old
cmp before old || fail 'a refused book is changed'

# files that are not there, or are folders, and that cannot be written
run 1 none new
says 'none: No such file or directory'
run 1 . new
says '.: Is a directory'
cp "$builtin" old
run 1 old none/new
says 'none/new: No such file or directory'
run 1 old old/new
says 'old/new: Not a directory'
run 1 old .
says '.: Is a directory'
mkdir locked && chmod 555 locked
if [ ! -w locked ]; then # root writes everywhere
    run 1 old locked/new
    says 'locked/new: Permission denied'
fi
cmp "$builtin" old || fail 'the old book is changed where the rewritten one cannot be written'
if [ -w /dev/full ]; then
    run 1 old /dev/full
    says '/dev/full: No space left on device'
    says 'modernize: /dev/full is not whole'
fi

# the command line
for words in '' old 'old new more' '-h' '--help' '-x new' 'old -'; do
    # shellcheck disable=SC2086
    run 2 $words
    says 'usage: modernize OLD NEW'
done
[ ! -e ./- ] || fail 'a file of the name - is made'

echo "modernize: $runs runs; books are rewritten byte for byte and cut as before"
