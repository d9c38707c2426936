#!/bin/sh
# Builds and runs the benchmark over build/libzagvulem.a (make it first) and prints its tables. It needs flex and re2c, which
# NO_FLEX=1 and NO_RE2C=1 leave out; it installs them by apt-get with INSTALL=1 alone. OLD=FILE measures an earlier library
# beside this one: one whose cuts have no masks, as before 0.6.0; with OLD_MASKS=1 one whose cuts have them.
set -eu
cd "$(dirname "$0")/.."
cc=${CC:-cc}
dir=build/bench
flags="-std=c99 -O2 -Wall -Wextra -Iinclude -Ibench"

missing=
[ -n "${NO_FLEX:-}" ] || command -v flex >/dev/null || missing="$missing flex"
[ -n "${NO_RE2C:-}" ] || command -v re2c >/dev/null || missing="$missing re2c"
if [ -n "$missing" ] && [ "${INSTALL:-}" = 1 ]; then
    apt-get update >&2 && apt-get install -y $missing >&2
elif [ -n "$missing" ]; then
    echo "The benchmark measures the library beside flex and re2c, and has not:$missing." >&2
    echo "Install the packages of these names, or have make bench INSTALL=1 do it by apt-get; NO_FLEX=1 and NO_RE2C=1 leave them out." >&2
    exit 2
fi

mkdir -p "$dir"
set --
if [ -z "${NO_FLEX:-}" ]; then
    for scanner in sheet hostile; do
        flex -o "$dir/$scanner.flex.c" "bench/$scanner.l"
        $cc $flags -w -c "$dir/$scanner.flex.c" -o "$dir/$scanner.flex.o"
        set -- "$@" "$dir/$scanner.flex.o"
    done
    set -- "$@" -DHAVE_FLEX
fi
if [ -z "${NO_RE2C:-}" ]; then
    for scanner in sheet hostile; do
        re2c -o "$dir/$scanner.re2c.c" "bench/$scanner.re"
        $cc $flags -c "$dir/$scanner.re2c.c" -o "$dir/$scanner.re2c.o"
        set -- "$@" "$dir/$scanner.re2c.o"
    done
    set -- "$@" -DHAVE_RE2C
fi
if [ -n "${OLD:-}" ]; then
    ar p "$OLD" >"$dir/old.o"
    for call in read_book read_book_strict rule rewrite_book compile lex lex_within lex_builtin print print_separated; do
        objcopy --redefine-sym "zgv_$call=old_zgv_$call" "$dir/old.o"
    done
    set -- "$@" -DHAVE_OLD ${OLD_MASKS:+-DOLD_MASKS} "$dir/old.o"
fi
$cc $flags -c bench/books.c -o "$dir/books.o"
$cc $flags -c bench/chains.c -o "$dir/chains.o"
$cc $flags -c bench/dense.c -o "$dir/dense.o"
$cc $flags bench/bench.c "$dir/books.o" "$dir/chains.o" "$dir/dense.o" "$@" build/libzagvulem.a -o "$dir/bench"
$cc $flags bench/stack.c build/libzagvulem.a -lpthread -Wl,-z,lazy -o "$dir/stack"

echo "Compiler of the C contenders: $($cc --version | head -n 1), -O2."
[ -n "${NO_FLEX:-}" ] || echo "$(flex --version)."
[ -n "${NO_RE2C:-}" ] || echo "$(re2c --version)."
"$dir/bench" examples/builtin.bin
"$dir/stack" examples/builtin.bin
