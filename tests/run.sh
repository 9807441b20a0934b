#!/bin/sh
# The tests of the C border, of the examples, of the program broken and of the card tool; `make test` builds what they need and runs them.
# Prints a line for each check, and last "N passed, M failed" over all of them.
# CC, CXX, NM: the tools for x86-64; EMULATOR: what runs its programs, empty where the processor does.
set -u
cd "$(dirname "$0")/.."
work=$(mktemp -d)
trap 'rm -rf "$work"' EXIT
passed=0 failed=0
strict='-Wall -Wextra -Wpedantic -Werror -Iinclude'

# A check by its name, and the command that must succeed.
try() {
    name=$1
    shift
    if "$@" >"$work/said" 2>&1; then
        echo "ok $name"
        passed=$((passed + 1))
    else
        echo "FAILED $name"
        head -n 20 "$work/said"
        failed=$((failed + 1))
    fi
}

# A program that counts its own checks: its last line is "N passed, M failed".
suite() {
    name=$1
    shift
    "$@" >"$work/said" 2>&1
    status=$?
    sed '$d' "$work/said"
    last=$(tail -n 1 "$work/said")
    case $last in
    *[0-9]' passed, '[0-9]*' failed')
        passed=$((passed + ${last%% passed*}))
        more=${last#* passed, }
        failed=$((failed + ${more%% failed*}))
        ;;
    *)
        echo "$last"
        echo "FAILED $name: it ended with status $status before its last line"
        failed=$((failed + 1))
        ;;
    esac
}

# An example's lines are those that were derived from the paper.
example() {
    # shellcheck disable=SC2086
    $EMULATOR "target/bin/$1" >"$work/lines" && diff "$work/lines" "examples/$1.out"
}

# shellcheck disable=SC2086
try 'header: compiles alone as C99' $CC -std=c99 $strict -c tests/c/header.c -o "$work/header.o"
# shellcheck disable=SC2086
try 'header: compiles alone as C++17' $CXX -std=c++17 $strict -c tests/c/header.cpp -o "$work/headerpp.o"
suite 'header and library' tests/c/symbols.sh include/isc.h target/staticlib/libisc.a "$NM"
# shellcheck disable=SC2086
suite border $EMULATOR target/bin/border
for source in examples/*.c; do
    name=$(basename "$source" .c)
    try "example: $name" example "$name"
done
suite 'broken' tests/broken/run.sh
suite 'card tool' tests/card/run.sh "$EMULATOR target/bin/card" "$EMULATOR target/bin/card_cut"

echo "$passed passed, $failed failed"
[ "$failed" -eq 0 ]
