#!/bin/sh
# Runs the program `broken` on the card crates/broken/stdin, damaged as the table tests/broken/cases says, and compares its lines with the table's;
# and once on a longer card that comes as one message of a socket. EMULATOR: what runs target/bin/message, empty where the processor does.
# Prints a line for each case and last "N passed, M failed"; exit 1 if any failed.
set -u
cd "$(dirname "$0")/../.."
work=$(mktemp -d)
trap 'rm -rf "$work"' EXIT
passed=0 failed=0

# Makes the damaged card from the words of a case.
damage() {
    cp crates/broken/stdin "$work/card"
    if [ "$1" = length ]; then
        head -c "$2" crates/broken/stdin >"$work/card"
        return
    fi
    for change in "$@"; do
        bytes=$(echo "${change#*=}" | sed 's/../\\x&/g')
        # shellcheck disable=SC2059
        env printf "$bytes" | dd of="$work/card" bs=1 seek="${change%%=*}" conv=notrunc 2>/dev/null
    done
}

# Runs a command that gives the card to the program, and compares the lines.
compared() {
    if "$@" <"$work/card" >"$work/lines" 2>&1 && diff "$work/wanted" "$work/lines" >"$work/said"; then
        echo "ok broken: $name"
        passed=$((passed + 1))
    else
        echo "FAILED broken: $name"
        cat "$work/said"
        failed=$((failed + 1))
    fi
}

verdict() {
    # shellcheck disable=SC2086
    damage $changes
    compared ./run broken
}

{ grep -v '^#' tests/broken/cases; echo; } >"$work/cases"
name='' changes=''
while IFS= read -r line; do
    if [ -z "$line" ]; then
        [ -z "$name" ] || verdict
        name='' changes=''
    elif [ -z "$name" ]; then
        name=$line
        : >"$work/wanted"
    elif [ -z "$changes" ]; then
        changes=$line
    else
        echo "$line" >>"$work/wanted"
    fi
done <"$work/cases"

# One byte too many for whole sectors, which a program that loses the message's end does not see: 1.
name='a card of 20,481 bytes in one message'
{ cat crates/broken/stdin && head -c 15361 /dev/zero; } >"$work/card"
echo 'refused=1' >"$work/wanted"
# shellcheck disable=SC2086
compared ${EMULATOR:-} target/bin/message "$work/card" ./run broken
echo "$passed passed, $failed failed"
[ "$failed" -eq 0 ]
