#!/bin/sh
# The Makefile, with a stand-in for rt: one run of rt at a time, little output, logs, and failures that show why.
. "$(dirname "$0")/common"
needs build/libzagvulem.a build/cutlist
top=$tmp/top
mkdir -p "$top/bin" "$top/crates/zagvulem_c" "$top/crates/cutlist" "$top/built"
cp build/libzagvulem.a build/cutlist "$top/built/"
cp -R Makefile crates.txt zagvulem.pc.in tools include examples docs bench "$top/"
cp tests/stand-in-rt "$top/bin/rt"
PATH=$top/bin:$PATH
cd "$top" || exit 1
unset MAKEFLAGS MFLAGS MAKELEVEL

make -j4 all >said 2>&1 || fail "make -j4 on a fresh clone: $(cat said)"
[ ! -e overlap ] || fail "two runs of rt at once: $(cat overlap)"
[ -s build/libzagvulem.a ] || fail 'make -j4 leaves the library unbuilt'
for program in cutlist zgvbook player modernize; do
    [ -x "build/$program" ] || fail "make -j4 leaves $program unbuilt"
done
grep -q '^rt: reader proved (4 s)$' said || fail "no line for a crate: $(cat said)"
! grep -q 'fn reader\|logic=\|is kept' said || fail "make prints proofs: $(cat said)"
[ "$(wc -l <said)" -lt 13 ] || fail "make prints $(wc -l <said) lines"
for log in build/library.log build/cutlist.log; do
    grep -q '^fn reader::read: proved$' "$log" || fail "$log has not all that rt printed"
done

# a failure: the status, the errors cut to 100 lines, the log; nothing is built
rm -rf build
echo proof >fail
! make build/libzagvulem.a >said 2>&1 || fail 'make builds what is not proved'
grep -q '^  crates/lexer/proofs/lex/Proof.antt:0:1: error: line 0 of the errors$' said || fail "make does not show the errors: $(cat said)"
grep -q '^rt: lexer NOT PROVED (exit 1, 3 s)$' said || fail "make does not show what failed: $(cat said)"
grep -q 'the log is build/library.log' said || fail 'make does not name the log'
[ "$(wc -l <said)" -lt 120 ] || fail "make prints $(wc -l <said) lines of errors"
! grep -q 'fn lexer::rest' said || fail 'make shows what is proved among the errors'
[ ! -e build/libzagvulem.a ] || fail 'make leaves a library'
rm fail

# without rt
PATH=/usr/bin:/bin make build/libzagvulem.a >said 2>&1 && fail 'make builds without rt'
grep -q 'rt is not on the path' said || fail "without rt make says: $(cat said)"

# make help names every target; a benchmark without its tools says what it needs and installs nothing
make help >said || fail 'make help'
for target in $(sed -n 's/^\.PHONY: all//p' Makefile); do
    grep -q "^  make $target  " said || fail "make help does not name $target"
done
make build/libzagvulem.a >/dev/null || fail 'make'
printf '#!/bin/sh\necho "$*" >>apt-get-ran\n' >bin/apt-get
chmod +x bin/apt-get
for tool in cc sh sed awk grep mkdir dirname cat head command env; do
    path=$(command -v "$tool") && ln -sf "$path" "bin/$tool"
done
PATH=$top/bin bench/run.sh >said 2>&1 && fail 'the benchmark runs without flex and re2c'
grep -q 'flex' said && grep -q 're2c' said && grep -q 'INSTALL=1' said || fail "without flex and re2c the benchmark says: $(cat said)"
[ ! -e apt-get-ran ] || fail 'the benchmark installs something unasked'
INSTALL=1 PATH=$top/bin bench/run.sh >said 2>&1
grep -q 'install.* flex re2c' apt-get-ran || fail 'INSTALL=1 does not install flex and re2c'

echo 'make: one run of rt at a time, little output, errors and logs; help, and a benchmark that installs nothing unasked'
