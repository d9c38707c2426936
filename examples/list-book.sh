#!/bin/sh
# Lists a book: a line for each command, with its place in the book, and after a CLOSE the moves of the rule that leave one
# state at the same byte, which refusal 9 is for. States and places are decimal, bytes of a text hexadecimal.
#
#   list-book.sh BOOK
od -An -v -tu1 "$1" | awk '
    BEGIN {
        split("RULE START ERROR FINAL STEP SPAN CLOSE END START ERROR FINAL SPAN", names, " ")
        split("3 1 1 1 3 4 0 0 2 2 2 6", operands, " ")
    }
    # a state of one byte or of two
    function state(place) { return code < 9 ? bytes[place] : bytes[place] * 256 + bytes[place + 1] }
    function move(place, source, low, high, target) {
        printf " from %d at %s to %d", source, range(low, high), target
        at[moves] = place; from[moves] = source; lows[moves] = low; highs[moves] = high
        leaving[source, ++left[source]] = moves++
    }
    function range(low, high) { return low == high ? sprintf("%02X", low) : sprintf("%02X-%02X", low, high) }
    # the moves of each state are compared with those before them
    function overlaps(   i, j, k, low, high) {
        for (i = 0; i < moves; i++)
            for (j = 1; (k = leaving[from[i], j]) < i; j++) {
                low = lows[i] > lows[k] ? lows[i] : lows[k]
                high = highs[i] < highs[k] ? highs[i] : highs[k]
                if (low <= high)
                    printf "       overlap: the moves at %d and %d leave state %d at %s\n", at[k], at[i], from[i], range(low, high)
            }
    }
    { for (i = 1; i <= NF; i++) bytes[count++] = $i }
    END {
        for (place = 0; place < count; place += 1 + operands[code]) {
            code = bytes[place]
            if (code < 1 || code > 12) { printf "%5d  %02X is no command\n", place, code; exit 1 }
            if (place + operands[code] >= count) { printf "%5d  %s, cut off\n", place, names[code]; exit 1 }
            a = bytes[place + 1]; b = bytes[place + 2]; c = bytes[place + 3]; d = bytes[place + 4]
            printf "%5d  %s", place, names[code]
            if (code == 1) {
                printf " tag %d, %s", a * 256 + b, c == 0 ? "plain" : c == 1 ? "separator" : "kind " c
                moves = 0
                split("", left)
            }
            if (code >= 2 && code <= 4 || code >= 9 && code <= 11) printf " %d", state(place + 1)
            if (code == 5) move(place, a, b, b, c)
            if (code == 6) move(place, a, b, c, d)
            if (code == 12) move(place, state(place + 1), c, d, state(place + 5))
            printf "\n"
            if (code == 7) overlaps()
        }
    }'
