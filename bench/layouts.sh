#!/bin/sh
# Measures an earlier library beside build/libzagvulem.a (make it first) in 16 programs that differ only in where the two lie:
# by 0 to 48 bytes before each. A loop's place in a line of the cache moves a figure by some hundredths, in either direction, so the
# median says what a change costs and the ends how much of a single run is chance.
#
#   bench/layouts.sh FILE      FILE is the earlier library: one whose cuts have no masks, as before 0.6.0; with OLD_MASKS=1 in
#                              the environment one whose cuts have them
set -eu
[ $# = 1 ] || { sed -n 's/^# \{0,1\}//p' "$0" | sed -n '2,$p'; exit 2; }
old=$(readlink -f "$1")
cd "$(dirname "$0")/.."
cc=${CC:-cc}
dir=build/bench
flags="-std=c99 -O2 -Iinclude -Ibench"

mkdir -p "$dir"
rm -f "$dir"/layout-*
ar p "$old" >"$dir/old.o"
for call in read_book read_book_strict rule rewrite_book compile lex lex_within lex_builtin print print_separated; do
    objcopy --redefine-sym "zgv_$call=old_zgv_$call" "$dir/old.o"
done
$cc $flags -DHAVE_OLD ${OLD_MASKS:+-DOLD_MASKS} -c bench/bench.c -o "$dir/earlier.o"
$cc $flags -c bench/books.c -o "$dir/books.o"
$cc $flags -c bench/chains.c -o "$dir/chains.o"
$cc $flags -c bench/dense.c -o "$dir/dense.o"
for gap in 0 16 32 48; do
    printf '.text\n.byte 0x90\n.balign 64\n.skip %s + 1, 0x90\n.balign 16\n' "$gap" | $cc -x assembler -c - -o "$dir/gap-$gap.o"
done
for before in 0 16 32 48; do
    for between in 0 16 32 48; do
        $cc "$dir/earlier.o" "$dir/books.o" "$dir/chains.o" "$dir/dense.o" "$dir/gap-$before.o" "$dir/old.o" "$dir/gap-$between.o" \
            build/libzagvulem.a -o "$dir/layout"
        "$dir/layout" examples/builtin.bin earlier | sed -n '/An earlier library/,$s/^| `/`/p' >"$dir/layout-$before-$between"
    done
done

echo '| this : earlier, 16 layouts | least | median | greatest |'
echo '|---|---:|---:|---:|'
cat "$dir"/layout-* | sed 's/ *| */|/g' | awk -F '|' '{ print $1 "|" $4 }' | sort -t '|' -k 1,1 -k 2,2n |
    awk -F '|' '{ n[$1]++; v[$1, n[$1]] = $2 } END { for (k in n) printf "| %s | %s | %s | %s |\n", k, v[k, 1], v[k, int((n[k] + 1) / 2)], v[k, n[k]] }' | sort
