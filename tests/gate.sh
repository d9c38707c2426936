#!/bin/sh
# .ci/run, with stand-ins for rt and make: its last line and its status where all passes, and where each part fails.
. "$(dirname "$0")/common"
top=$tmp/top
mkdir -p "$top/bin" "$top/tests" "$top/built"
cp -R .ci tools "$top/"
: >"$top/built/libzagvulem.a"
: >"$top/built/cutlist"
cp tests/stand-in-rt "$top/bin/rt"
printf '#!/bin/sh\necho "make $*"\n[ ! -e make-fails ] || { echo an error of make; exit 2; }\n' >"$top/bin/make"
printf '#!/bin/sh\necho a script\n[ ! -e script-fails ] || { echo an error of the script; exit 1; }\n' >"$top/tests/one.sh"
printf '#!/bin/sh\necho another script\n' >"$top/tests/two.sh"
chmod +x "$top/bin/make" "$top/tests/one.sh" "$top/tests/two.sh"
PATH=$top/bin:$PATH
cd "$top" || exit 1
runs=0

# gate STATUS LAST-LINE WHAT
gate() {
    .ci/run >said 2>&1
    status=$?
    runs=$((runs + 1))
    [ "$status" -eq "$1" ] || fail "$3: status $status: $(cat said)"
    [ "$(tail -n 1 said)" = "$2" ] || fail "$3: the last line is '$(tail -n 1 said)'"
}
says() {
    grep -qF -- "$1" said || fail "the gate does not say '$1' but: $(cat said)"
}

gate 0 '3 passed, 0 failed' 'all passes'
says 'rt: reader proved (4 s)'
says 'make harness CASES=20000 passed'
says 'tests/one.sh passed'
says 'another script'
! grep -q '^fn ' said || fail 'the gate prints proofs'
grep -q '^fn reader::read: proved$' build/ci.log || fail 'build/ci.log has not all that rt printed'
[ "$(grep -c 'passed, . failed' said)" -eq 1 ] || fail 'the tally is there more than once'

echo proof >fail
gate 1 '2 passed, 1 failed' 'a crate is not proved'
says 'crates/lexer/proofs/lex/Proof.antt:0:1: error: line 0 of the errors'
says 'rt: lexer NOT PROVED (exit 1, 3 s)'
[ "$(wc -l <said)" -lt 120 ] || fail "the gate prints $(wc -l <said) lines of errors"
! grep -q 'one.sh' said || fail 'the gate goes on although a crate is not proved'
echo edit >fail
gate 1 '3 passed, 2 failed' 'an edit is not refused'
says 'rt: must-fail lexer/wrong: NOT REFUSED'
says 'what the compiler said'
echo bad >fail
gate 1 '0 passed, 1 failed' 'an edit is bad'
says 'an edit of must-fail/ is bad'
! grep -q 'one.sh' said || fail 'the gate goes on although an edit is bad'
echo dies >fail
gate 1 '0 passed, 1 failed' 'rt ci has no tally'
says 'crates.txt: line 3'
rm fail

sed -i 's/^status=0 /status=1 /' bin/rt
gate 1 '0 passed, 1 failed' 'rt ci fails with a tally that says otherwise'
sed -i 's/^status=1 /status=0 /' bin/rt
: >make-fails
gate 1 '0 passed, 1 failed' 'make fails'
says 'an error of make'
rm make-fails
: >script-fails
gate 1 '0 passed, 1 failed' 'a script fails'
says 'an error of the script'
says 'tests/one.sh FAILED'
rm script-fails
rm bin/rt
PATH=$top/bin:/usr/bin:/bin
gate 1 '0 passed, 1 failed' 'there is no rt'

echo "gate: $runs runs with stand-ins end as they should"
