#!/bin/sh
# Compares the functions that the header declares with those that the library defines, and says what else the
# library needs. Use: symbols.sh HEADER LIB [NM]. Prints a line for each check and last "N passed, M failed"; exit 1
# if any failed.
set -u
export LC_ALL=C
header=$1 lib=$2 nm=${3:-nm}
work=$(mktemp -d)
trap 'rm -rf "$work"' EXIT
passed=0 failed=0

# A check by its name, and the file of what is wrong, one thing a line: none is as it should be.
check() {
    if [ -s "$2" ]; then
        while read -r wrong; do
            echo "FAILED $1: $wrong"
        done <"$2"
        failed=$((failed + 1))
    else
        echo "ok $1"
        passed=$((passed + 1))
    fi
}

# The names before the '(' of the header's declarations. Comments, directives and inline functions are left out, so
# that a name in a comment or a call inside an inline function is none.
declared() {
    awk '
        { text = text $0 "\n" }
        END {
            while ((start = index(text, "/*")) > 0) {
                rest = substr(text, start + 2)
                text = substr(text, 1, start - 1) " " substr(rest, index(rest, "*/") + 2)
            }
            count = split(text, lines, "\n")
            for (i = 1; i <= count; i++) {
                if (lines[i] ~ /^static inline/) inside = 1
                if (!inside && lines[i] !~ /^[ \t]*#/ && match(lines[i], /isc_[a-z_0-9]+\(/))
                    print substr(lines[i], RSTART, RLENGTH - 1)
                if (lines[i] ~ /^}/) inside = 0
            }
        }' "$header" | sort -u
}

declared >"$work/declared"
if ! { "$nm" -g --defined-only "$lib" >"$work/defined" && "$nm" -g -u "$lib" >"$work/needed"; } 2>"$work/said"; then
    echo "FAILED $lib cannot be read: $(head -n 1 "$work/said")"
    echo '0 passed, 1 failed'
    exit 1
fi
awk 'NF == 3 && $2 == "T" && $3 ~ /^isc_/ { print $3 }' "$work/defined" | sort -u >"$work/exported"
awk 'NF == 3 { print $3 }' "$work/defined" | sort -u >"$work/names"
awk 'NF == 2 && $1 == "U" { print $2 }' "$work/needed" | sort -u >"$work/wanted"

if [ ! -s "$work/declared" ]; then
    echo "$header declares no function" >"$work/none"
else
    : >"$work/none"
fi
comm -23 "$work/declared" "$work/exported" | sed 's/$/ is declared, and the library lacks it/' >"$work/lacking"
comm -13 "$work/declared" "$work/exported" | sed 's/$/ is in the library, and not declared/' >"$work/hidden"
comm -23 "$work/wanted" "$work/names" | grep -v -x -e memcpy -e memset |
    sed 's/$/ is needed by the library/' >"$work/foreign"

check 'the header declares functions' "$work/none"
check 'the library has each function of the header' "$work/lacking"
check 'the header has each function of the library' "$work/hidden"
check 'the library needs memcpy and memset alone' "$work/foreign"
echo "$passed passed, $failed failed"
[ "$failed" -eq 0 ]
