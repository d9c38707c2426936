#!/bin/sh
# Expressions: random ones match what the C library's regcomp matches, and damaged ones are refused at the first byte that is wrong.
. "$(dirname "$0")/common"
needs build/libzagvulem.a

$CC -std=c99 -Wall -Wextra -Werror -pedantic -O2 -Iinclude tests/posix.c build/libzagvulem.a -o "$tmp/posix" || fail 'compiling tests/posix.c'
said=$("$tmp/posix") || fail "expressions: $said"

echo "expressions: $said"
