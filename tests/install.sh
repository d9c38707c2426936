#!/bin/sh
# make install, used as a C programmer would, and make uninstall.
. "$(dirname "$0")/common"
needs build/libzagvulem.a build/cutlist build/zgvbook

make -s install PREFIX="$tmp/usr" >"$tmp/said" 2>&1 || fail "make install: $(cat "$tmp/said")"
awk -v LANG=c -f tests/blocks.awk README.md >"$tmp/cut.c"
if command -v pkg-config >/dev/null; then
    flags=$(PKG_CONFIG_PATH=$tmp/usr/lib/pkgconfig pkg-config --cflags --libs zagvulem) || fail 'pkg-config does not find zagvulem'
    version=$(PKG_CONFIG_PATH=$tmp/usr/lib/pkgconfig pkg-config --modversion zagvulem)
    grep -q "^#define ZGV_VERSION  *\"$version\"" include/zagvulem.h || fail "zagvulem.pc says version $version"
else
    flags="-I$tmp/usr/include -L$tmp/usr/lib -lzagvulem"
fi
examples=$tmp/usr/share/doc/zagvulem/examples
(cd "$tmp" && $CC -std=c99 cut.c $flags -o cut && for program in player modernize zgvbook; do
    $CC -std=c99 "$examples/$program.c" $flags -o "$program" || exit 1
done) || fail 'compiling by what is installed'
"$tmp/cut" <examples/sheet.txt >/dev/null || fail 'the program of README.md does not run'
"$tmp/player" "$examples/builtin.bin" "$examples/sheet.txt" 2>/dev/null | cmp - examples/sheet.txt || fail 'the player does not run'
mkdir "$tmp/try"
"$examples/make-book.sh" <<'END' >"$tmp/try/book.bin"
01 00 01 00 02 00 03 02 04 01 05 00 61 01 07 08
END
[ "$(cd "$tmp/try" && "$tmp/usr/bin/cutlist")" = 'rest 0 0' ] || fail 'cutlist does not run'
"$tmp/modernize" "$tmp/try/book.bin" "$tmp/try/spans.bin" 2>/dev/null || fail 'modernize does not run'
[ "$("$examples/list-book.sh" "$tmp/try/spans.bin" | grep -c ' SPAN ')" -eq 1 ] || fail 'modernize does not rewrite'
for program in "$tmp/zgvbook" "$tmp/usr/bin/zgvbook"; do
    "$program" make "$examples/builtin.rules" -o "$tmp/try/made.bin" 2>/dev/null || fail "$program does not run"
    "$program" check "$tmp/try/made.bin" | grep -q 'accepted: 5 rules' || fail "$program makes another book"
done

# each document that the header names is there, and points to nothing that is not
for document in $(grep -o '[A-Z][A-Z]*\.md' "$tmp/usr/include/zagvulem.h" | sort -u); do
    [ -f "$tmp/usr/share/doc/zagvulem/$document" ] || fail "the header names $document, which is not installed"
    for link in $(sed 's/](/\n](/g' "$tmp/usr/share/doc/zagvulem/$document" | sed -n 's/^](\([^)#]*\).*/\1/p'); do
        [ -e "$tmp/usr/share/doc/zagvulem/$link" ] || fail "$document points to $link, which is not installed"
    done
done

# below DESTDIR, and away again; what others have put there stays
make -s install DESTDIR="$tmp/stage" PREFIX=/opt/z >"$tmp/said" 2>&1 || fail "make install: $(cat "$tmp/said")"
grep -q '^prefix=/opt/z$' "$tmp/stage/opt/z/lib/pkgconfig/zagvulem.pc" || fail 'zagvulem.pc has another prefix'
installed=$(cd "$tmp/stage/opt/z" && find . -type f | wc -l)
[ "$installed" -eq "$(cd "$tmp/usr" && find . -type f | wc -l)" ] || fail 'DESTDIR changes what is installed'
: >"$tmp/stage/opt/z/lib/other.a"
make -s uninstall DESTDIR="$tmp/stage" PREFIX=/opt/z >"$tmp/said" 2>&1 || fail "make uninstall: $(cat "$tmp/said")"
[ "$(cd "$tmp/stage/opt/z" && find . -type f)" = ./lib/other.a ] || fail "make uninstall leaves: $(find "$tmp/stage" -type f)"
[ ! -e "$tmp/stage/opt/z/share/doc/zagvulem" ] || fail 'make uninstall leaves the folder of the documents'

echo "install: $installed files; programs compile by them and run; uninstall leaves none"
