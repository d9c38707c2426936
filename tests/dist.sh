#!/bin/sh
# make dist: the tarball is unpacked and used with a C compiler alone, without rt on the path.
. "$(dirname "$0")/common"
needs build/libzagvulem.a build/cutlist build/zgvbook

tarball=$(make -s dist | tail -n 1) || fail 'make dist'
tar -C "$tmp" -xzf "$tarball" || fail "unpacking $tarball"
version=$(sed -n 's/^#define ZGV_VERSION  *"\(.*\)"/\1/p' include/zagvulem.h)
top=$tmp/zagvulem-$version
[ -d "$top" ] || fail "$tarball has no folder zagvulem-$version"
awk -v LANG=c -f tests/blocks.awk README.md >"$top/cut.c"
awk -v LANG=sh -f tests/blocks.awk "$top/README.md" | grep -v '^echo @@' >"$tmp/commands"
command -v pkg-config >/dev/null || sed -i '/pkg-config/d' "$tmp/commands"
awk -v LANG=sh -f tests/blocks.awk "$top/docs/FORMAT.md" | grep -v '^make$' >"$tmp/format"
awk -v LANG=text -f tests/blocks.awk "$top/docs/FORMAT.md" >"$tmp/wanted"
sheet=$PWD/examples/sheet.txt

cd "$top" || exit 1
PATH=/usr/bin:/bin
! command -v rt >/dev/null || fail "rt is in $PATH"
sh -e "$tmp/commands" >"$tmp/written" 2>"$tmp/said" || fail "the commands of the tarball's README.md: $(cat "$tmp/said")"
grep -q 'ships' "$tmp/written" || fail 'the player of the tarball writes no changed sheet'
cmp saved.txt "$sheet" || fail 'the player of the tarball saves another sheet'
[ -s spans.bin ] || fail 'modernize of the tarball writes no book'
grep -q '^made.bin: accepted: 5 rules' "$tmp/written" || fail 'zgvbook of the tarball makes no book'
cc -std=c99 -Wall -Wextra -Werror -pedantic -Iinclude cut.c lib/libzagvulem.a -o cut || fail 'compiling the program of README.md'
[ "$(./cut <"$sheet" | wc -l)" -eq 168 ] || fail 'the program of README.md does not run'
sh "$tmp/format" >"$tmp/printed" 2>&1
diff "$tmp/wanted" "$tmp/printed" || fail 'the commands of docs/FORMAT.md print something else in the tarball'
for link in $(sed 's/](/\n](/g' README.md docs/*.md | sed -n 's/^](\([^)#]*\).*/\1/p'); do
    [ -e "docs/$link" ] || fail "a document of the tarball points to $link, which is not there"
done

echo "dist: $(basename "$tarball"), its examples, README's program and FORMAT.md's commands work without rt"
