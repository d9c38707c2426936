#!/bin/sh
# cutlist, on books and texts in files: what only the program itself shows, as files that are missing, and its 6,000 records.
. "$(dirname "$0")/common"
needs build/cutlist
program=$PWD/build/cutlist
mkdir "$tmp/case" && cd "$tmp/case" || exit 1
runs=0

# What cutlist prints in this folder is what standard input says; then the folder is emptied for the next case.
expect() { # NAME
    cat >"$tmp/expected"
    "$program" >"$tmp/printed"
    cmp -s "$tmp/expected" "$tmp/printed" || fail "cutlist, $1: it prints $(head -n 3 "$tmp/printed")"
    rm -f book.bin text.bin
    runs=$((runs + 1))
}

# Book A of document 01: 1 matches a and abc, 2 b, 3 c; 4, a separator, blanks. State 9 is every rule's error state.
book_a() {
    printf '\1\0\1\0\2\0\3\11\4\1\4\3\5\0a\1\5\1b\2\5\2c\3\7' >book.bin
    printf '\1\0\2\0\2\0\3\11\4\1\5\0b\1\7' >>book.bin
    printf '\1\0\3\0\2\0\3\11\4\1\5\0c\1\7' >>book.bin
    printf '\1\0\4\1\2\0\3\11\4\1\5\0 \1\5\1 \1\7\10' >>book.bin
}

# so many times the letter
letters() { # COUNT LETTER
    head -c "$1" /dev/zero | tr '\0' "$2"
}

# document 01's book whose one rule matches a
printf '\1\0\1\0\2\0\3\2\4\1\5\0a\1\7\10' >book.bin
printf 'aab' >text.bin
expect 'the book of 16 bytes' <<'END'
0 1 0 1
1 1 1 1
rest 2 1
END

book_a
printf 'a  c' >text.bin
expect 'blanks between' <<'END'
0 1 0 1
1 4 1 2
2 3 3 1
rest 4 0
END

book_a
printf 'abdab' >text.bin
expect 'a rest in the middle' <<'END'
0 1 0 1
1 2 1 1
rest 2 3
END

# the book's second rule has the tag of its first
book_a
head -c 25 book.bin >twice.bin
head -c 25 book.bin >>twice.bin
mv twice.bin book.bin
printf 'ab' >text.bin
expect 'a refused book' <<'END'
refused 7 25
END

letters 65537 x >book.bin
expect 'a book that is too long' <<'END'
refused 1 0
END

expect 'no book and no text' <<'END'
refused 2 0
END

printf 'ab' >text.bin
expect 'no book' <<'END'
refused 2 0
END

book_a
expect 'no text' <<'END'
rest 0 0
END

book_a
letters 6000 b >text.bin
awk 'BEGIN { for (i = 0; i < 6000; i++) print i, 2, i, 1; print "rest 6000 0" }' >"$tmp/lines"
expect '6,000 tokens' <"$tmp/lines"

book_a
letters 6001 b >text.bin
expect '6,001 tokens' <<'END'
refused 15 6001
END

book_a
letters 65536 b >text.bin
expect 'a text of 65,536 bytes' <<'END'
refused 15 65536
END

book_a
letters 65537 b >text.bin
expect 'a text of 65,537 bytes' <<'END'
refused 14 0
END

echo "cutlist: $runs runs print what they should"
