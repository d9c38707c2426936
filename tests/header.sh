#!/bin/sh
# The header: compiles without a warning as C and as C++, its book, texts, masks, turns, modes, rewriting and expressions hold, and its
# stack is more than calls take.
. "$(dirname "$0")/common"
needs build/libzagvulem.a

printf '#include <zagvulem.h>\n#include <zagvulem.h>\nint unit;\n' >"$tmp/alone.c"
warnings='-Wall -Wextra -Werror -pedantic -Wunused-function -Wunused-const-variable -Wconversion -Wshadow'
compilers=$(for c in "$CC" gcc clang; do command -v "$c"; done | sort -u)
runs=0
echo 'int unit;' >"$tmp/unit.cc"
for compiler in $compilers; do
    languages='c:c99 c:c11'
    ! $compiler -c "$tmp/unit.cc" -o "$tmp/unit.o" 2>/dev/null || languages="$languages c++:c++11 c++:c++17"
    for language in $languages; do
        flags="-x ${language%:*} -std=${language#*:} $warnings -Iinclude"
        $compiler $flags -c "$tmp/alone.c" -o "$tmp/alone.o" || fail "$compiler $flags"
        runs=$((runs + 1))
    done
done

languages=c:c99
! $CC -c "$tmp/unit.cc" -o "$tmp/unit.o" 2>/dev/null || languages="$languages c++:c++11"
for language in $languages; do
    $CC -x "${language%:*}" -std="${language#*:}" -Wall -Wextra -Werror -pedantic -O2 -Iinclude -c tests/header.c -o "$tmp/header.o" &&
        $CC "$tmp/header.o" build/libzagvulem.a -o "$tmp/header" || fail "compiling tests/header.c as $language"
    "$tmp/header" examples/builtin.bin <examples/sheet.txt || fail "what the header says, as $language"
done

$CC -std=c99 -O2 -Wall -Wextra -Werror -Iinclude bench/stack.c build/libzagvulem.a -lpthread -Wl,-z,lazy -o "$tmp/stack" ||
    fail 'compiling bench/stack.c'
"$tmp/stack" examples/builtin.bin include/zagvulem.h || fail 'the stack that the header states'

echo "header: $runs compilations without a warning; version, texts, book, cuts, masks, turns, modes, rewriting, expressions and stack hold"
