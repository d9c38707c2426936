#!/bin/sh
# The archive wants from outside what the header says, memset() and memcpy(), and no other name.
. "$(dirname "$0")/common"
needs build/libzagvulem.a
wanted=$(nm -u build/libzagvulem.a | awk '$1 == "U" { print $2 }' | sort -u | tr '\n' ' ')
[ "$wanted" = 'memcpy memset ' ] || fail "the archive wants from outside: $wanted"
echo "the archive wants memcpy and memset alone"
