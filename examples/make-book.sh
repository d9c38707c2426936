#!/bin/sh
# Makes a book from text: bytes as two hexadecimal digits each, with blanks or line ends between them; what follows a # in a
# line is left out.
#
#   make-book.sh <TEXT >BOOK
escapes=$(awk '
    function digit(c) { return index("0123456789abcdef", c) - 1 }
    {
        sub(/#.*/, "")
        for (i = 1; i <= NF; i++) {
            byte = tolower($i)
            if (length(byte) != 2 || digit(substr(byte, 1, 1)) < 0 || digit(substr(byte, 2, 1)) < 0) {
                print "make-book.sh: line " NR ": not a byte of two hexadecimal digits: " $i | "cat >&2"
                exit 1
            }
            printf "\\%03o", digit(substr(byte, 1, 1)) * 16 + digit(substr(byte, 2, 1))
        }
    }') || exit 1
# shellcheck disable=SC2059
printf "$escapes"
