#!/bin/sh
# Tests of the card tool, from the repository root: tests/card/run.sh CARD CARD_CUT
# CARD is the command that runs the tool, CARD_CUT the one that runs it linked with tests/card/cut.c. Prints a line for
# each check and, last, how many passed and failed.

CARD=$1
CARD_CUT=$2
if [ -z "$CARD" ] || [ -z "$CARD_CUT" ]; then
    echo "usage: tests/card/run.sh CARD CARD_CUT" >&2
    exit 2
fi
# In memory where that can be had: the tool forces out all that it writes, which a disk takes its time for.
T=$(mktemp -d -p /dev/shm 2>/dev/null || mktemp -d) || exit 2
trap 'rm -rf "$T"' EXIT
trap 'exit 1' HUP INT TERM
DATE=2026-01-02T03:04
MIB=1048576
passed=0
failed=0

# --- what the checks are made of

# verdict STATUS NAME: a check passed if the status is 0.
verdict() {
    if [ "$1" -eq 0 ]; then
        passed=$((passed + 1))
        echo "ok $2"
    else
        failed=$((failed + 1))
        echo "FAILED $2"
        sed 's/^/    /' "$T/err" 2>/dev/null | head -5
    fi
}

# run ARGS: runs the tool; its output is in out and err, its status in $status.
run() {
    $CARD "$@" >"$T/out" 2>"$T/err"
    status=$?
}

# works NAME ARGS: the tool does it, and says nothing on standard error.
works() {
    name=$1
    shift
    run "$@"
    [ $status -eq 0 ] && [ ! -s "$T/err" ]
    verdict $? "$name"
}

# refused NUMBER NAME ARGS: refused with this number in the first line, and in words.
refused() {
    number=$1 name="refused by $1: $2"
    shift 2
    run "$@"
    command=$1
    [ "$1" != header ] || command="$1 $2"
    [ $status -eq 1 ] && head -1 "$T/err" | grep -q "^card: $command: [a-z].* ($number)\$"
    verdict $? "$name"
}

# fails TEXT NAME ARGS: status 1, and the text on standard error.
fails() {
    text=$1 name=$2
    shift 2
    run "$@"
    [ $status -eq 1 ] && grep -qF -e "$text" "$T/err"
    verdict $? "$name"
}

# misused NAME ARGS: status 2, one line, with a hint to the help.
misused() {
    name="usage: $1"
    shift
    run "$@"
    [ $status -eq 2 ] && [ "$(wc -l <"$T/err")" -eq 1 ] && grep -q -e '--help`$' "$T/err" && [ ! -s "$T/out" ]
    verdict $? "$name"
}

# prints TEXT NAME: the last run's standard output has this text.
prints() {
    grep -qF -e "$1" "$T/out"
    verdict $? "$2"
}

# bytes COUNT SEED: bytes that depend on both.
bytes() {
    seq "$2" 99999999 2>/dev/null | head -c "$1"
}

# padded FILE: the file with nulls up to a whole sector.
padded() {
    dd if="$1" bs=1024 conv=sync 2>/dev/null
}

# byte_at FILE PLACE; set_byte FILE PLACE VALUE
byte_at() {
    od -An -v -tu1 -j "$2" -N 1 "$1" | tr -d ' '
}
set_byte() {
    printf "\\$(printf %03o "$3")" | dd of="$1" bs=1 seek="$2" conv=notrunc 2>/dev/null
}

# sectors IMAGE FIRST COUNT: these sectors of an image.
sectors() {
    dd if="$1" bs=1024 skip="$2" count="$3" 2>/dev/null
}

# random MOST: the next number of a small generator, from 0 to MOST - 1, in $random.
seed=12345
random() {
    seed=$(((seed * 1103515245 + 12345) % 2147483648))
    random=$((seed / 8 % $1))
}

# --- a day at the bench

# all_equal: every file listed in `day` (id, file) comes out byte for byte.
all_equal() {
    while read -r id file; do
        $CARD get "$T/day.img" "$id" 2>"$T/err" | cmp -s - "$file" || return 1
    done <"$T/day"
}

# stored SIZE OPTIONS: stores a file of this size, which then has the next id.
stored() {
    size=$1
    shift
    day_id=$((day_id + 1))
    bytes "$size" "$day_id" >"$T/in"
    case "$*" in
    *--variable*) padded "$T/in" >"$T/day.$day_id" ;;
    *) cp "$T/in" "$T/day.$day_id" ;;
    esac
    run put "$T/day.img" "$T/in" --name "F$day_id" --date $DATE "$@"
    echo "$day_id $T/day.$day_id" >>"$T/day"
    [ $status -eq 0 ] && [ "$(cat "$T/out")" = $day_id ] && $CARD check "$T/day.img" >"$T/out" 2>"$T/err" && all_equal
    verdict $? "put $size bytes $*; it and all before come out the same"
}

a_day() {
    : >"$T/day"
    day_id=0
    works "format" format "$T/day.img" --zones 14 --indexes 64 --label "A DAY" --date $DATE
    for size in 1 1023 1024 1025 5000 65536 100000; do
        stored $size --types C
        stored $size --variable 4096
    done
    stored 1500000
    stored 5000 --types DE
    stored 65537 --types FC
    stored 100000 --types EDC --kind system
    stored 300000 --types GFEDC
    stored 1048577 --types H
    stored 1024 --variable 1024
    stored 70000 --variable 16384
    stored 100000 --variable 65536 --kind directory
    stored 300000 --variable 262144
    stored 1 --variable 1048576
    stored 0 --variable 1024
    run info "$T/day.img"
    prints "volume name        A DAY" "info has the label"
    prints "active             26" "info counts the files"
    prints "space              14336 sectors, 14680064 bytes" "info has the space in sectors and bytes"
    run ls "$T/day.img"
    grep -q "^   18     100000       -  fixed     system     --  $DATE  F18\$" "$T/out"
    verdict $? "ls has id, bytes, no header, size, kind, protection, date and name"
    [ "$(wc -l <"$T/out")" -eq 27 ]
    verdict $? "ls has every file"
}

a_day_goes_on() {
    space=$($CARD info "$T/day.img" | grep "space free")
    works "rm" rm "$T/day.img" F5 --date $DATE
    grep -v "^5 " "$T/day" >"$T/day.rest"
    cp "$T/day" "$T/day.all"
    cp "$T/day.rest" "$T/day"
    all_equal
    verdict $? "the other files after rm"
    refused 9 "get of a temporarily deleted file" get "$T/day.img" 5
    run ls "$T/day.img" --deleted
    grep -q " F5\$" "$T/out" && [ "$(wc -l <"$T/out")" -eq 2 ]
    verdict $? "ls --deleted has the deleted file, and no other"
    run info "$T/day.img"
    prints "$space" "a temporarily deleted file keeps its space"
    works "recover by name" recover "$T/day.img" F5 --date $DATE
    cp "$T/day.all" "$T/day"
    all_equal
    verdict $? "all files after recover"
    works "rm again" rm "$T/day.img" 15 --date $DATE
    works "purge by name" purge "$T/day.img" F15 --date $DATE
    grep -v "^15 " "$T/day.all" >"$T/day"
    all_equal
    verdict $? "the other files after purge"
    refused 8 "get of a purged file" get "$T/day.img" 15
    bytes 1500000 777 >"$T/day.15"
    works "the space is used again" put "$T/day.img" "$T/day.15" --name AGAIN --date $DATE
    [ "$(cat "$T/out")" = 15 ]
    verdict $? "and the id"
    echo "15 $T/day.15" >>"$T/day"
    all_equal
    verdict $? "all files after that"
    run info "$T/day.img"
    prints "$space" "no space was lost"
    works "check at the end of the day" check "$T/day.img"
}

# --- headers

# has_header NAME FILE: its header comes out byte for byte.
has_header() {
    $CARD header get "$img" "$1" 2>"$T/err" | cmp -s - "$2"
}

# first_bytes SECTOR: the four bytes of the image at a sector's start.
first_bytes() {
    od -An -v -tu1 -j $((1024 * $1)) -N 4 "$img" | tr -s ' ' | sed 's/^ //'
}

# zone_line NUMBER TEXT NAME: map's line of a zone begins with this text.
zone_line() {
    run map "$img"
    sed -n "$(($1 + 1))p" "$T/out" | grep -q "^ *$1  $2"
    verdict $? "$3"
}

# Z is 4: zone 2 is of type C, with five sectors each of X and Y, zone 3 is open until there is a header.
headers() {
    img=$T/headers.img
    run format "$img" --zones 4 --indexes 8 --date $DATE
    bytes 5000 1 >"$T/in"
    run put "$img" "$T/in" --name X --types C --date $DATE
    run put "$img" "$T/in" --name Y --types C --date $DATE
    refused 14 "header get without one" header get "$img" X "$T/none"
    grep -qF "the file has no header" "$T/err" && [ ! -e "$T/none" ]
    verdict $? "in these words, and makes no file"
    for size in 0 1 1018 1019 5000 32762; do
        bytes $size $size >"$T/head"
        works "header put, $size bytes" header put "$img" X "$T/head" --date $DATE
        has_header X "$T/head" && $CARD check "$img" >"$T/out" 2>"$T/err" && $CARD get "$img" X | cmp -s - "$T/in"
        verdict $? "they come out the same, and the file's bytes too"
        run ls "$img"
        grep -q "^    1       5000 $(printf %7s $size)  fixed .* X\$" "$T/out"
        verdict $? "ls has its length"
    done
    cp "$T/head" "$T/head.x"
    bytes 32763 1 >"$T/head"
    cp "$img" "$T/before.img"
    refused 7 "a header of 32,763 bytes" header put "$img" X "$T/head" --date $DATE
    grep -q "at most 32762 bytes" "$T/err" && cmp -s "$img" "$T/before.img" && has_header X "$T/head.x"
    verdict $? "it says the most, and changes no byte of the image"
    refused 7 "more than any header" header put "$img" X /dev/zero --date $DATE
    echo "a header" | $CARD header put "$img" Y - --date $DATE 2>"$T/err"
    verdict $? "header put from standard input"
    works "header get to a file" header get "$img" Y "$T/out.y"
    [ "$(cat "$T/out.y")" = "a header" ]
    verdict $? "which has exactly its bytes"
}

# X's header of 32 sectors stands where the places before it were freed: 2048 (0 bytes), 2049 (1), 2048 (1,018), 2049 and
# 2050 (1,019), 2051 to 2055 (5,000), 2056 to 2087. Y's then has the lowest sector.
headers_placed() {
    zone_line 3 "B     33   991" "map has zone B, its sectors in use and free"
    [ "$(first_bytes 2056)" = "0 0 0 1" ] && [ "$(first_bytes 2048)" = "0 0 0 2" ] && [ "$(first_bytes 2051)" = "0 0 0 0" ]
    verdict $? "a header begins with its file's id, a replaced one with 0"
    run map "$img" --svg "$T/pic.svg"
    grep -q '<title>1 X, header: sectors 2056 to 2087</title>' "$T/pic.svg" &&
        grep -q '<title>2 Y, header: sectors 2048 to 2048</title>' "$T/pic.svg"
    verdict $? "the picture has the headers as their files'"
    drawn=$(sed -n 's/.*: sectors \([0-9]*\) to \([0-9]*\)<.*/\1 \2/p' "$T/pic.svg" | awk '{ n += $2 - $1 + 1 } END { print n }')
    run info "$img"
    prints "used               $((drawn + 2048))" "and every sector in use once"
    works "rm of a file with a header" rm "$img" X --date $DATE
    [ "$(first_bytes 2056)" = "255 255 255 255" ]
    verdict $? "the header has minus the id"
    refused 9 "header get of a temporarily deleted file" header get "$img" 1
    refused 9 "header put for a temporarily deleted file" header put "$img" 1 "$T/in"
    run ls "$img" --deleted
    grep -q "^    1       5000   32762  fixed .* X\$" "$T/out"
    verdict $? "ls --deleted has its length"
    works "its recover" recover "$img" X --date $DATE
    [ "$(first_bytes 2056)" = "0 0 0 1" ] && has_header X "$T/head.x"
    verdict $? "the header has the id again, and all its bytes"
    run rm "$img" X --date $DATE
    works "its purge" purge "$img" X --date $DATE
    [ "$(first_bytes 2056)" = "0 0 0 0" ]
    verdict $? "the header has 0"
    zone_line 3 "B      1  1023" "and its sectors are free"
    run rm "$img" Y --date $DATE
    run purge "$img" Y --date $DATE
    zone_line 3 "\.      -     -" "without a header the zone is open"
    works "check after all that" check "$img"
}

headers_refused() {
    bytes 5000 1 >"$T/in"
    bytes 1000 2 >"$T/head"
    run put "$img" "$T/in" --name X --types C --date $DATE
    run header put "$img" X "$T/head" --date $DATE
    refused 8 "header put, an id without a file" header put "$img" 5 "$T/head"
    refused 8 "header get, an id without a file" header get "$img" 5
    fails "no active file has the name 'Z' (8)" "header get, a name without a file" header get "$img" Z
    refused 7 "header put in month 13" header put "$img" X "$T/head" --date 2026-13-01T00:00
    run protect "$img" X --write --date $DATE
    refused 10 "header put, write-protected" header put "$img" X "$T/head"
    has_header X "$T/head"
    verdict $? "header get, write-protected"
    run protect "$img" X --read --date $DATE
    refused 10 "header get, read-protected" header get "$img" X
    works "header put, read-protected" header put "$img" X "$T/head" --date $DATE
    run protect "$img" X --date $DATE
    fails "is the image itself" "header put of the image" header put "$img" X "$img"
    fails "is the image itself" "header get to the image" header get "$img" X "$img"
    fails "No such file" "header put of a file that is not there" header put "$img" X "$T/nowhere"
    # X, which has the id that was freed last, 2, has its second header in sector 2049. A length of 3 x 256 + 251 bytes is
    # one more than the sector holds.
    [ "$(first_bytes 2049)" = "0 0 0 2" ]
    verdict $? "the second header of X"
    cp "$img" "$T/odd.img"
    set_byte "$T/odd.img" $((1024 * 2049 + 5)) 251
    fails "more than its sectors hold" "header get of a length that is not there" header get "$T/odd.img" X
    run ls "$T/odd.img"
    grep -q "^    2       5000       ?  fixed .* X\$" "$T/out"
    verdict $? "ls shows it as ?"
    img=$T/one.img
    run format "$img" --zones 3 --indexes 8 --date $DATE
    run put "$img" "$T/in" --name X --types C --date $DATE
    cp "$img" "$T/before.img"
    refused 12 "header put without a zone for it" header put "$img" X "$T/in"
    grep -q "a header of 5000 bytes takes 5 sectors in a row" "$T/err" && cmp -s "$img" "$T/before.img"
    verdict $? "it says what is needed, and changes no byte of the image"
}

# --- worn sectors

# set_both PLACE VALUE: a byte of the tables of worn.img, in zone 1 and in the backup, zone 4.
set_both() {
    set_byte "$img" "$1" "$2"
    set_byte "$img" $((3 * MIB + $1)) "$2"
}

# Z is 4 and N is 8: the zone table stands in sector 2, the sector table in 3. Zone 2 becomes one of type D with X, whose
# two blocks begin at 1024; then its fourth block, 1036 to 1039, is withheld by hand: the low half of byte 129 of the
# sector table is set, and 253 blocks are free instead of 254.
worn_image() {
    img=$T/worn.img
    list=$T/worn.list
    printf '# a card with a worn spot\n\n\t1036  # in zone 2, 12 sectors behind its start\n#1040\n' >"$list"
    bytes 5000 1 >"$T/in"
    run format "$img" --zones 4 --indexes 8 --label WORN --date $DATE
    run put "$img" "$T/in" --name X --types D --date $DATE
    [ "$(byte_at "$img" $((2 * 1024 + 9)))" = 254 ] && [ "$(byte_at "$img" $((3 * 1024 + 129)))" = 0 ]
    verdict $? "a card without worn spots"
    cp "$img" "$T/unworn.img"
    set_both $((2 * 1024 + 9)) 253
    set_both $((3 * 1024 + 129)) 15
}

worn_checks() {
    refused 4 "a card with a withheld block, without its list" check "$img"
    grep -q "rule R7 is broken, first at sector 1036: " "$T/err" && grep -q "list is needed: --withheld LIST" "$T/err"
    verdict $? "check names the sector and the list"
    works "check with its list" check "$img" --withheld "$list"
    works "the list before the command" --withheld "$list" check "$img"
    works "the list as one word" check --withheld="$list" "$img"
    works "and that before the command" --withheld="$list" check "$img"
    printf '1036' >"$T/short.list"
    works "a list that ends without a line feed" check "$img" --withheld "$T/short.list"
    printf '1036\r\n\r\n' >"$T/short.list"
    works "a list with carriage returns" check "$img" --withheld "$T/short.list"
    : >"$T/empty.list"
    works "an empty list for a card without worn spots" check "$T/unworn.img" --withheld "$T/empty.list"
    refused 4 "an empty list for this one" check "$img" --withheld "$T/empty.list"
    refused 4 "its list for a card without it" check "$T/unworn.img" --withheld "$list"
    grep -q "rule R7 is broken, first at sector 1036: " "$T/err" && ! grep -q "list is needed" "$T/err"
    verdict $? "check names the sector, and no list"
    printf '1028 1036' >"$T/owned.list"
    refused 4 "a list with a block that a file has" check "$img" --withheld "$T/owned.list"
    grep -q "rule R7 is broken, first at sector 1028: " "$T/err"
    verdict $? "check names its sector"
}

# refused_list TEXT NAME NUMBERS: a list of these numbers is refused by 7, and a line has this text.
refused_list() {
    text=$1 name=$2
    shift 2
    printf '%s\n' "$@" >"$T/bad.list"
    refused 7 "a list $name" check "$img" --withheld "$T/bad.list"
    head -1 "$T/err" | grep -q "the list of withheld blocks" && tail -n 1 "$T/err" | grep -qF -e "$text"
    verdict $? "in words: $text"
}

worn_lists() {
    refused_list "sector 1036 comes after 1040: the list has to ascend" "that does not ascend" 1040 1036
    refused_list "sector 1036 comes after 1036: the list has to ascend" "with a block twice" 1036 1036
    refused_list "sector 1037 starts no block: those of zone 2, of type D, have 4 sectors" "within a block" 1037
    refused_list "sector 2048 lies in zone 3, which is of no type from C to H" "in an open zone" 1036 2048
    refused_list "sector 0 lies in zone 1" "in zone 1" 0
    refused_list "sector 4095 lies in zone 4" "in the backup" 4095
    refused_list "sector 4096 is past the volume's end" "past the volume" 1036 4096
    refused_list "sector 4294967295 is past the volume's end" "with the largest number" 4294967295
    # shellcheck disable=SC2046
    refused_list "it has more than 512 blocks" "of 513 blocks" $(seq 1024 4 3072)
    cp "$img" "$T/b.img"
    set_byte "$T/b.img" $((1024 + 7)) 9
    refused 7 "a list before a broken rule" check "$T/b.img" --withheld "$T/bad.list"
    set_byte "$T/b.img" 0 0
    refused 2 "no mark before a list" check "$T/b.img" --withheld "$T/bad.list"
    cp "$img" "$T/before.img"
    refused 7 "a put with a list that is not allowed" put "$img" "$T/in" --types D --withheld "$T/bad.list"
    refused 7 "a repair with it" repair "$img" --withheld "$T/bad.list"
    refused 7 "a repair from the backup with it" repair "$img" --from-backup --withheld "$T/bad.list"
    cmp -s "$img" "$T/before.img"
    verdict $? "they change no byte of the image"
}

# bad_text LINE NAME TEXT: a list with this text is wrong usage, and the line is named.
bad_text() {
    printf %b "$3" >"$T/bad.list"
    misused "a list $2" check "$img" --withheld "$T/bad.list"
    grep -qF -e "bad.list, line $1: " "$T/err"
    verdict $? "line $1 is named"
}

worn_texts() {
    bad_text 1 "with a word" 'abc\n'
    bad_text 3 "with a number that goes on" '# list\n1036\n1040x\n'
    bad_text 2 "with a sign" '1036\n-1\n'
    bad_text 2 "with commas" '\n1036,1040\n'
    bad_text 1 "of nulls" '1036\0\n'
    bad_text 2 "with a number beyond any" '1036\n4294967296\n'
    bad_text 1 "with a number far beyond any" '99999999999999999999999999\n'
    misused "the image as a list" check "$img" --withheld "$img"
    fails "No such file" "a list that is not there" check "$img" --withheld "$T/nowhere"
    fails "Is a directory" "a directory as a list" check "$img" --withheld "$T"
    misused "--withheld without a list" check "$img" --withheld
    misused "--withheld alone" --withheld "$list"
    misused "--withheld before and after" --withheld "$list" check "$img" --withheld "$list"
    misused "format with a list" format "$T/u.img" --zones 3 --indexes 8 --withheld "$list"
    grep -qF -e "--withheld is not for format" "$T/err" && [ ! -e "$T/u.img" ]
    verdict $? "it says why, and makes no image"
}

# Y of 20,000 bytes has five blocks of four sectors: 1032, and from 1040 on.
worn_files() {
    bytes 20000 2 >"$T/y"
    works "put beside a withheld block" put "$img" "$T/y" --name Y --types D --date $DATE --withheld "$list"
    $CARD get "$img" Y --withheld "$list" | cmp -s - "$T/y" && $CARD get "$img" X --withheld "$list" | cmp -s - "$T/in"
    verdict $? "it and the other file come out the same"
    works "map with a list" map "$img" --svg "$T/pic.svg" --withheld "$list"
    grep -q '^   2  D      7   248         1  x#\.*$' "$T/out" && grep -q '^   3  \.      -     -         -  \.*$' "$T/out" &&
        head -1 "$T/out" | grep -q 'free  withheld .* x withheld, ' && tail -n 1 "$T/out" | grep -qx 'withheld blocks: 1, sectors: 4'
    verdict $? "it counts the withheld block apart, marks it, and explains the mark"
    grep -q '<title>2 Y: sectors 1032 to 1035</title>' "$T/pic.svg" && grep -q '<title>2 Y: sectors 1040 to 1055</title>' "$T/pic.svg"
    verdict $? "the file lies around the withheld block"
    grep -q 'fill="black"><title>withheld: sectors 1036 to 1039</title>' "$T/pic.svg" &&
        grep -q '>withheld blocks: 1, sectors: 4</text>' "$T/pic.svg" && grep -q 'black: withheld<' "$T/pic.svg"
    verdict $? "the picture has it, in a colour of its own, and a legend"
    run map "$T/unworn.img"
    ! grep -q withheld "$T/out"
    verdict $? "without a list map says nothing of withheld blocks"
    run info "$img" --withheld "$list"
    prints "space in use       2080 sectors" "info counts them as in use"
    prints "space withheld     4 sectors, 4096 bytes" "and apart"
    # 248 blocks are free, and the open zone 3 has 256.
    bytes $((4096 * 504 + 1)) 3 >"$T/big"
    refused 12 "put of one block more than are free" put "$img" "$T/big" --types D --withheld "$list"
}

# Every command but format: 4 without the list, done with it. At the end no file is left, and zone 2 keeps its type.
worn_commands() {
    for words in info "ls --deleted" map "get 1 $T/x" "put $T/in --types D" "header:put 1 $T/in" "header:get 1 $T/x" \
        "protect 1 --read" "protect 1" "rm 1" "recover 1" "rm 1" "purge 1" "rm 2" "purge 2" "rm 3" "purge 3" check; do
        # shellcheck disable=SC2086
        set -- $words
        command=$(echo "$1" | tr : ' ')
        shift
        cp "$img" "$T/before.img"
        # shellcheck disable=SC2086
        refused 4 "$command without the list" $command "$img" "$@"
        cmp -s "$img" "$T/before.img"
        verdict $? "it changes no byte of the image"
        # shellcheck disable=SC2086
        works "$command with the list" $command "$img" "$@" --withheld "$list"
    done
    run map "$img" --withheld "$list"
    grep -q '^   2  D      0   255         1  x\.*$' "$T/out" && grep -q '^   3  \.      -     -         -  \.*$' "$T/out"
    verdict $? "without a file the zone of a withheld block keeps its type, and another zone is open"
}

worn_repairs() {
    cp "$img" "$T/w.img"
    set_byte "$T/w.img" 0 0
    refused 2 "repair without the list" repair "$T/w.img"
    grep -qF "neither zone 1 nor the backup (4)" "$T/err"
    verdict $? "it takes neither copy"
    works "repair with the list" repair "$T/w.img" --withheld "$list"
    cmp -s "$T/w.img" "$img"
    verdict $? "the card is as it was"
    set_byte "$T/w.img" $((1024 + 31)) 1
    works "repair of a volume left mounted, with the list" repair "$T/w.img" --withheld "$list"
    cmp -s "$T/w.img" "$img"
    verdict $? "it is dismounted"
}

# --- names and patterns

names() {
    img=$T/names.img
    run format "$img" --zones 3 --indexes 16 --date $DATE
    for file in "CURVE 60A" "CURVE 100A" RELAY 123 "=X" TWICE TWICE; do
        echo "$file" | $CARD put "$img" - --name "$file" --types C --date $DATE >/dev/null 2>"$T/err"
    done
    run ls "$img" "CURVE?"
    [ "$(wc -l <"$T/out")" -eq 3 ] && grep -q " CURVE 60A\$" "$T/out" && grep -q " CURVE 100A\$" "$T/out"
    verdict $? "ls: ? is any string"
    run ls "$img" "CURVE *0A"
    [ "$(wc -l <"$T/out")" -eq 2 ] && grep -q " CURVE 60A\$" "$T/out"
    verdict $? "ls: * is one character"
    run ls "$img" "?"
    [ "$(wc -l <"$T/out")" -eq 8 ]
    verdict $? "ls: ? alone is every file"
    run ls "$img" "NONE"
    [ $status -eq 0 ] && [ "$(wc -l <"$T/out")" -eq 1 ]
    verdict $? "ls of a pattern that nothing matches"
    [ "$($CARD get "$img" "CURVE 60A")" = "CURVE 60A" ]
    verdict $? "get by name"
    [ "$($CARD get "$img" "=123")" = 123 ] && [ "$($CARD get "$img" "==X")" = "=X" ]
    verdict $? "get by a name of digits, and one that begins with ="
    fails "no active file has the name 'CURVE?' (8)" "a name is no pattern" get "$img" "CURVE?"
    fails "2 files have the name 'TWICE'; give one of the ids 6 7" "a name that two files have" rm "$img" TWICE
    works "its id will do" rm "$img" 7 --date $DATE
    works "then the name will do" rm "$img" TWICE --date $DATE
    fails "2 files have the name 'TWICE'" "a name that two deleted files have" purge "$img" TWICE
    fails "no temporarily deleted file has the name 'RELAY' (8)" "recover looks among the deleted" recover "$img" RELAY
    bytes 10 1 >"$T/in"
    name=$(printf 'A\001B\\\303\204')
    run put "$img" "$T/in" --name "$name" --types C --date $DATE
    run ls "$img"
    prints 'A\x01B\\\xc3\x84' "ls shows bytes that are not printable by their number"
    # Position 1 of the name of file 3, RELAY, in both copies: a name that another maker may have written.
    index=$(((4 * 1024) + 2 * 128 + 5))
    set_byte "$img" $index 42
    set_byte "$img" $((2 * MIB + index)) 42
    [ "$($CARD get "$img" 'R*LAY' 2>"$T/err")" = RELAY ]
    verdict $? "a name on the volume that holds a * is found as it is"
}

# --- refusals and usage
# 5 cannot come from the tool, which mounts each volume in memory before it asks anything; 11 cannot, since it grows no
# fixed file; 14 comes only for a file without a header, since the tool moves no byte past a file's end.

refusals() {
    img=$T/r.img
    refused 3 "format with 2 zones" format "$img" --zones 2 --indexes 8
    refused 3 "format with 257 zones" format "$img" --zones 257 --indexes 8
    refused 3 "format with too many index tables" format "$img" --zones 3 --indexes 100000
    refused 7 "format with a long label" format "$img" --zones 3 --indexes 8 --label 123456789012345678901234567890123
    refused 7 "format on 31 of month 13" format "$img" --zones 3 --indexes 8 --date 2026-13-31T00:00
    [ ! -e "$img" ]
    verdict $? "a refused format makes no image"
    works "format" format "$img" --zones 3 --indexes 2 --date $DATE
    fails "exists already" "format of an image that exists" format "$img" --zones 3 --indexes 2
    fails "not 4194304 bytes long" "format --force with another size" format "$img" --zones 4 --indexes 2 --force
    works "format --force" format "$img" --zones 3 --indexes 2 --force --date $DATE
    bytes 5000 1 >"$T/in"
    cp "$img" "$T/empty.img"
    refused 12 "5,000 bytes of all types on one zone" put "$img" "$T/in" --name A
    refused 12 "more than the body" put "$img" /dev/zero --name A --types C
    refused 12 "more than the body, variable" put "$img" /dev/zero --name A --variable 1024
    refused 7 "a name of 25 bytes" put "$img" "$T/in" --name 1234567890123456789012345 --types C
    refused 7 "a name with *" put "$img" "$T/in" --name 'A*' --types C
    refused 7 "a cell of 1025" put "$img" "$T/in" --variable 1025
    refused 7 "an empty fixed file" put "$img" /dev/null --types C
    refused 7 "put in year 0" put "$img" "$T/in" --types C --date 0000-01-01T00:00
    refused 7 "a pattern of 25 bytes" ls "$img" 1234567890123456789012345
    cmp -s "$img" "$T/empty.img"
    verdict $? "a refused put changes no byte of the image"
    works "a name of 24 bytes" put "$img" "$T/in" --name 123456789012345678901234 --types C --date $DATE
    works "a second file" put "$img" "$T/in" --name B --types C --date $DATE
    refused 13 "a third file with 2 index tables" put "$img" "$T/in" --name C --types C
    refused 8 "an id without a file" get "$img" 3 "$T/none"
    refused 8 "an id beyond all" get "$img" 99999999999999999999
    refused 8 "id 0" rm "$img" 0
    refused 9 "recover of an active file" recover "$img" 1
    refused 9 "purge of an active file" purge "$img" 1
    [ ! -e "$T/none" ]
    verdict $? "a refused get makes no file"
}

protection() {
    works "protect --write" protect "$img" B --write --date $DATE
    refused 10 "rm of a write-protected file" rm "$img" B
    $CARD get "$img" B | cmp -s - "$T/in"
    verdict $? "a write-protected file can be read"
    works "protect --read" protect "$img" B --read --date $DATE
    echo kept >"$T/kept"
    refused 10 "get of a read-protected file" get "$img" B "$T/kept"
    [ "$(cat "$T/kept")" = kept ]
    verdict $? "a refused get leaves the file as it was"
    works "protect with both" protect "$img" 2 --read --write --date $DATE
    run ls "$img"
    prints "  RW  $DATE  B" "ls shows the protection"
    works "protection lifted" protect "$img" 2 --date $DATE
    works "get to a file" get "$img" B "$T/kept"
    cmp -s "$T/kept" "$T/in"
    verdict $? "which has exactly the bytes, and nothing of what was there"
    works "rm after that" rm "$img" B --date $DATE
    refused 9 "protect of a deleted file" protect "$img" 2 --read
}

space_again() {
    full=$T/full.img
    run format "$full" --zones 3 --indexes 8 --date $DATE
    bytes $MIB 5 >"$T/big"
    works "a file that fills the body" put "$full" "$T/big" --name BIG --date $DATE
    refused 12 "a byte more" put "$full" "$T/in" --name SMALL --types C
    run rm "$full" BIG --date $DATE
    refused 12 "a byte more after rm" put "$full" "$T/in" --name SMALL --types C
    run purge "$full" BIG --date $DATE
    works "the same after purge, in another type" put "$full" "$T/in" --name SMALL --types C --date $DATE
    $CARD get "$full" SMALL | cmp -s - "$T/in"
    verdict $? "it comes out the same"
}

broken_images() {
    works "check of a good image" check "$img"
    cp "$img" "$T/b.img"
    set_byte "$T/b.img" 0 0
    refused 2 "no mark" check "$T/b.img"
    grep -q 'zone 1 is not whole: `card repair .*` makes it from the backup' "$T/err"
    verdict $? "and repair is named"
    cp "$img" "$T/b.img"
    set_byte "$T/b.img" 141 3
    refused 3 "tables out of place" check "$T/b.img"
    cp "$img" "$T/b.img"
    set_byte "$T/b.img" $((1024 + 7)) 9
    refused 4 "a wrong count" check "$T/b.img"
    cp "$img" "$T/b.img"
    set_byte "$T/b.img" $((1024 + 31)) 1
    refused 6 "a volume left mounted" ls "$T/b.img"
    grep -q '`card repair .*` dismounts it' "$T/err"
    verdict $? "and repair is named"
    head -c 5000 "$img" >"$T/b.img"
    refused 1 "an image of 5,000 bytes" info "$T/b.img"
    head -c $((2 * MIB)) "$img" >"$T/b.img"
    refused 15 "an image of 2 zones" map "$T/b.img"
    refused 15 "its repair" repair "$T/b.img"
    cp "$img" "$T/b.img"
    set_byte "$T/b.img" $((3 * MIB - 1)) 1
    fails "the backup is not equal" "a backup that is not equal" put "$T/b.img" "$T/in" --types C
}

# breaks PLACE VALUE TEXT NAME: zone 1 with this byte is refused by 4, and check says this text and the rule's words; no
# other line names a rule.
breaks() {
    cp "$img" "$T/b.img"
    set_byte "$T/b.img" "$1" "$2"
    refused 4 "$4" check "$T/b.img"
    grep -q "^card: check: $3: [a-z]" "$T/err" && [ "$(grep -c 'is broken, \|is broken: ' "$T/err")" -eq 1 ]
    verdict $? "and check says: $3"
}

# Z is 3 and N is 2: the zone table stands in sector 2, the sector table in 3, the index tables in 4. File 1 has the
# sectors 1024 to 1028, file 2 those from 1029 to 1033, and zone 2 has 1014 free blocks of one sector. A bit is flipped:
broken_rules() {
    # R1: the first byte behind the three entries of the zone table.
    breaks $((2 * 1024 + 18)) 1 "rule R1 is broken, first at sector 2" "a tail that is not null"
    # R2: the type of zone 3, the last, -1 no more.
    breaks $((2 * 1024 + 12)) 127 "rule R2 is broken, first at zone 3" "a zone's type"
    # R3: sector 1031 clear, so 1015 blocks are.
    breaks $((3 * 1024 + 128)) 254 "rule R3 is broken, first at zone 2" "a sector's bit"
    # R4: table 2 begins with 3; then the first free table, none, is table 1.
    breaks $((4 * 1024 + 128 + 3)) 3 "rule R4 is broken, first at index table 2" "a table's number"
    breaks $((1024 + 29)) 1 "rule R4 is broken" "the free chain's start"
    # R5: the link of table 1 is table 2, a file.
    breaks $((4 * 1024 + 127)) 2 "rule R5 is broken, first at index table 1" "a link to a file"
    # R6: the second byte of the header pointer of table 2.
    breaks $((4 * 1024 + 128 + 59)) 1 "rule R6 is broken, first at index table 2" "a header pointer"
    # R7: file 2 from 1028, which is file 1's last sector, to 1032.
    breaks $((4 * 1024 + 128 + 67)) 4 "rule R7 is broken, first at sector 1028" "a pointer's start"
    # R8: the month of the creation of file 1, January 2026, is 129.
    breaks $((4 * 1024 + 30)) 129 "rule R8 is broken, first at index table 1" "a date"
    # R9: nine active files instead of one.
    breaks $((1024 + 7)) 9 "rule R9 is broken" "a count of files"
    grep -qxF "card: check: rule R9 is broken: the counts of sector 1 are true, and the flag is 0 or 1" "$T/err"
    verdict $? "in words, and for a count without a place"
}

# Where no rule is broken, or the tables are not asked for one, none is named.
no_broken_rules() {
    run check "$img"
    [ $status -eq 0 ] && [ ! -s "$T/err" ] && ! grep -q "is broken" "$T/out"
    verdict $? "check of a good image names no rule"
    cp "$img" "$T/b.img"
    set_byte "$T/b.img" 141 3
    refused 3 "tables out of place" check "$T/b.img"
    ! grep -q "is broken" "$T/err"
    verdict $? "and names no rule"
    cp "$img" "$T/b.img"
    set_byte "$T/b.img" $((2 * MIB + 1024 + 7)) 9
    fails "the backup is not equal" "a wrong count in the backup alone" check "$T/b.img"
    ! grep -q "is broken" "$T/err"
    verdict $? "and names no rule, since zone 1 breaks none"
}

system_errors() {
    fails "No such file" "an image that is not there" ls "$T/nowhere.img"
    fails "No such file" "an input that is not there" put "$img" "$T/nowhere" --types C
    fails "$T: " "an input that is a directory" put "$img" "$T" --name D --types C
    fails "neither a file nor a card" "a directory as an image" ls "$T"
    fails "No such file" "an output that cannot be made" get "$img" 1 "$T/nowhere/x"
    fails "is the image itself" "get to the image" get "$img" 1 "$img"
    fails "is the image itself" "put of the image" put "$img" "$img" --types C
    fails "is the image itself" "a picture on the image" map "$img" --svg "$img"
    works "the image after that" check "$img"
    if [ -e /dev/full ]; then
        fails "No space left" "an output that is full" get "$img" 1 /dev/full
        fails "No space left" "a picture on a full disk" map "$img" --svg /dev/full
        $CARD ls "$img" >/dev/full 2>"$T/err"
        [ $? -eq 1 ] && grep -q "No space left" "$T/err"
        verdict $? "standard output that is full"
    fi
}

usage() {
    misused "no command"
    misused "a command that is none" frobnicate
    misused "no image" ls
    misused "an option that is none" ls "$img" --frob
    misused "an option of another command" ls "$img" --zones 3
    misused "a word too many" check "$img" x
    misused "a word missing" get "$img"
    misused "a value missing" format "$T/u.img" --zones
    misused "format without sizes" format "$T/u.img"
    misused "zones that are no number" format "$T/u.img" --zones 3x --indexes 8
    misused "zones beyond any number" format "$T/u.img" --zones 99999999999 --indexes 8
    misused "a date of another form" rm "$img" 1 --date 2026-01-02
    misused "types that are none" put "$img" "$T/in" --types CX
    misused "no types" put "$img" "$T/in" --types ""
    misused "types of a variable file" put "$img" "$T/in" --types C --variable 1024
    misused "a cell that is no number" put "$img" "$T/in" --variable C
    misused "a kind that is none" put "$img" "$T/in" --kind x
    misused "standard input without a name" put "$img" -
    misused "an option given twice" protect "$img" 1 --read --read
    misused "a pattern with --deleted" ls "$img" A --deleted
    misused "header alone" header
    misused "header with a word that is none" header frob "$img" A
    misused "header put without a file" header put "$img" A
    misused "header get with an option of header put" header get "$img" A --date $DATE
    grep -qF 'see `card header get --help`' "$T/err"
    verdict $? "its hint has both words"
    works "--help" --help
    prints "card repair IMAGE" "--help names the commands"
    prints "--withheld LIST" "--help names the list of withheld blocks"
    for command in format info ls put get "header put" "header get" rm recover purge protect check map repair; do
        run $command --help
        [ $status -eq 0 ] && grep -q "^card $command IMAGE" "$T/out" && [ ! -s "$T/err" ]
        verdict $? "$command --help"
    done
    run ls --help
    prints "* is one character, ? is any string" "ls --help has the meaning of patterns"
    works "--version" --version
    grep -q '^card [0-9]*\.[0-9]*$' "$T/out"
    verdict $? "--version prints it"
}

# --- map and picture

pictures() {
    pic=$T/pic.img
    run format "$pic" --zones 4 --indexes 16 --label 'A&B' --date $DATE
    bytes 5000 1 >"$T/in"
    run put "$pic" "$T/in" --name 'X<&">Y' --date $DATE
    run put "$pic" "$T/in" --name GONE --types C --date $DATE
    run rm "$pic" GONE --date $DATE
    works "map" map "$pic" --svg "$T/pic.svg"
    grep -q '^   2  D      1   255  +\.*$' "$T/out" && grep -q '^   3  C      6  1018  +\.*$' "$T/out"
    verdict $? "map has types, blocks in use and free, and a bar"
    [ "$(wc -l <"$T/out")" -eq 5 ]
    verdict $? "map has a line for each zone"
    rects=$(grep -c '<rect' "$T/pic.svg")
    [ "$rects" -eq "$(grep '<rect' "$T/pic.svg" | grep -c -e '/>$' -e '</rect>$')" ] &&
        head -1 "$T/pic.svg" | grep -q '^<?xml' && tail -1 "$T/pic.svg" | grep -q '^</svg>$'
    verdict $? "the picture begins, ends, and closes its elements"
    grep -q '<title>1 X&lt;&amp;&quot;&gt;Y: sectors 1024 to 1027</title>' "$T/pic.svg" &&
        grep -q '<title>1 X&lt;&amp;&quot;&gt;Y: sectors 2048 to 2048</title>' "$T/pic.svg" &&
        grep -q '<title>2 GONE: sectors 2049 to 2053</title>' "$T/pic.svg"
    verdict $? "the picture has each run of sectors"
    grep -q '>2 GONE (deleted)</text>' "$T/pic.svg" && grep -q 'volume A&amp;B<' "$T/pic.svg"
    verdict $? "the picture has a legend"
    if command -v python3 >/dev/null 2>&1; then
        python3 -c 'import sys, xml.dom.minidom; xml.dom.minidom.parse(sys.argv[1])' "$T/pic.svg" 2>"$T/err"
        verdict $? "the picture is well-formed"
    fi
    run map "$T/day.img" --svg "$T/pic.svg"
    drawn=$(sed -n 's/.*: sectors \([0-9]*\) to \([0-9]*\)<.*/\1 \2/p' "$T/pic.svg" | awk '{ n += $2 - $1 + 1 } END { print n }')
    $CARD info "$T/day.img" >"$T/out" 2>"$T/err"
    prints "used               $((drawn + 2048))" "the picture of a day has every sector in use once"
}

# --- locks

locks() {
    run format "$T/lock.img" --zones 3 --indexes 8 --date $DATE
    mkfifo "$T/pipe"
    $CARD put "$T/lock.img" - --name L --types C --date $DATE <"$T/pipe" >"$T/put.out" 2>"$T/put.err" &
    writer=$!
    exec 3>"$T/pipe"
    # More than a pipe holds: when it is written the tool is reading, and has its lock.
    bytes 200000 3 >&3
    fails "another program is using the image" "a reader beside a writer" ls "$T/lock.img"
    fails "another program is using the image" "a writer beside a writer" rm "$T/lock.img" 1
    fails "another program is using the image" "repair beside a writer" repair "$T/lock.img"
    exec 3>&-
    wait $writer
    verdict $? "the writer then ends well"
    bytes 200000 3 >"$T/in"
    $CARD get "$T/lock.img" L | cmp -s - "$T/in"
    verdict $? "with all that it was given"
    $CARD get "$T/lock.img" L >"$T/pipe" 2>"$T/err" &
    reader=$!
    exec 4<"$T/pipe"
    dd bs=1 count=1 <&4 >"$T/first" 2>/dev/null
    works "a reader beside a reader" check "$T/lock.img"
    fails "another program is using the image" "a writer beside a reader" rm "$T/lock.img" L
    cat <&4 >>"$T/first"
    exec 4<&-
    wait $reader
    verdict $? "the reader then ends well"
    cmp -s "$T/first" "$T/in"
    verdict $? "with all bytes"
    $CARD put "$T/lock.img" - --name M --types C <"$T/pipe" >"$T/put.out" 2>"$T/put.err" &
    writer=$!
    exec 3>"$T/pipe"
    bytes 200000 3 >&3
    : >"$T/lock.img"
    exec 3>&-
    wait $writer
    [ $? -eq 1 ] && grep -q "the image cannot be read" "$T/put.err"
    verdict $? "an image that becomes empty under the tool"
}

# --- images of any content

# any_command IMAGE: every command takes the image without a crash: the status is 0 or 1.
any_command() {
    cp "$1" "$T/any.img"
    for words in info ls "ls --deleted" check "map --svg $T/any.svg" "get 1 $T/any.out" "put $T/in --types C" \
        "header:get 1 $T/any.out" "header:put 1 $T/in" "rm 1" "recover 1" "protect 2 --read" "repair --from-backup" \
        repair; do
        set -- $words
        command=$(echo "$1" | tr : ' ')
        shift
        run $command "$T/any.img" "$@"
        [ $status -le 1 ] || return 1
    done
}

short_images() {
    bytes 5000 9 >"$T/in"
    for length in 0 1 3 4 1023 1024 2047 2048 5119 5120 5121 6144 10240 65536 1048575 1048576 1048577 2097152 3145727 \
        3145729 4194304; do
        cp "$T/old.img" "$T/short.img"
        truncate -s $length "$T/short.img"
        run check "$T/short.img"
        [ $status -eq 1 ] && [ -s "$T/err" ] && any_command "$T/short.img"
        verdict $? "an image of $length bytes"
    done
}

# A byte changed in one copy is noticed.
changed_bytes() {
    bad=0
    for i in $(seq 1 60); do
        random $((5 * 1024))
        [ $((i % 4)) -ne 0 ] || random $MIB
        place=$random
        [ $((i % 2)) -eq 0 ] || place=$((place + 2 * MIB))
        random 255
        cp "$T/old.img" "$T/changed.img"
        set_byte "$T/changed.img" $place $((($(byte_at "$T/old.img" $place) + 1 + random) % 256))
        run check "$T/changed.img"
        [ $status -eq 1 ] || bad=1
        run repair "$T/changed.img"
        [ $status -le 1 ] || bad=1
    done
    verdict $bad "60 bytes changed in one copy are noticed"
}

# Bytes changed alike in both copies: here the library must find what is wrong, or nothing is.
changed_books() {
    bad=0
    for i in $(seq 1 50); do
        cp "$T/old.img" "$T/changed.img"
        for j in 1 2 3; do
            random $((5 * 1024))
            place=$random
            [ $((i % 3)) -ne 0 ] || place=$((4 * 1024 + place % 1024))
            [ $((i % 3)) -ne 1 ] || place=$((place % 160 + 1024 * (j % 2)))
            random 256
            set_byte "$T/changed.img" $place $random
            set_byte "$T/changed.img" $((2 * MIB + place)) $random
            [ $((i % 2)) -eq 0 ] || break
        done
        any_command "$T/changed.img" || bad=1
    done
    verdict $bad "50 images with bytes changed in both copies, every command"
}

garbage() {
    for i in 1 2 3; do
        bytes $((3 * MIB)) "$i" >"$T/garbage.img"
        any_command "$T/garbage.img"
        verdict $? "garbage $i, every command"
        head -c 8 "$T/old.img" | dd of="$T/garbage.img" conv=notrunc 2>/dev/null
        any_command "$T/garbage.img"
        verdict $? "garbage $i with a mark, every command"
    done
}

# --- power cuts

# cut MODE K ARGS: runs the tool on w.img until its event after the K-th.
cut() {
    mode=$1 k=$2
    shift 2
    case $mode in
    plain) CUT_AFTER=$k $CARD_CUT "$@" >"$T/out" 2>"$T/err" ;;
    *) CUT_AFTER=$k CUT_MODE=reverse CUT_KEEP=$mode $CARD_CUT "$@" >"$T/out" 2>"$T/err" ;;
    esac
    status=$?
}

same_zone_1() {
    cmp -s -n $MIB "$T/w.img" "$1"
}

files_stand() {
    $CARD get "$T/w.img" A 2>"$T/err" | cmp -s - "$T/a" && $CARD get "$T/w.img" B 2>"$T/err" | cmp -s - "$T/b"
}

# Each judge looks at w.img after a cut, repairs it where check asks for it, and says whether it is the old state or the
# new one. $listed is the option with the list, if w.img has withheld blocks.
listed=
# shellcheck disable=SC2086
repaired() {
    run check "$T/w.img" $listed
    [ $status -eq 0 ] && return 0
    run repair "$T/w.img" $listed
    [ $status -eq 0 ] || return 1
    run check "$T/w.img" $listed
    [ $status -eq 0 ]
}
judge_change() {
    repaired || return 1
    same_zone_1 "$T/was.img" || same_zone_1 "$T/new.img" || return 1
    files_stand
}
judge_put() {
    judge_change || return 1
    same_zone_1 "$T/was.img" || $CARD get "$T/w.img" D 2>"$T/err" | cmp -s - "$T/d"
}
judge_force() {
    repaired || return 1
    same_zone_1 "$T/new.img" || { same_zone_1 "$T/was.img" && files_stand; }
}
# Before the format of a blank card ends there may be no volume; then neither copy has its mark.
judge_blank() {
    if repaired; then
        same_zone_1 "$T/new.img"
    else
        [ "$(byte_at "$T/w.img" 0)" = 0 ] && [ "$(byte_at "$T/w.img" $((2 * MIB)))" = 0 ]
    fi
}
judge_repair() {
    repaired && same_zone_1 "$T/new.img" && files_stand
}
judge_from_backup() {
    run repair "$T/w.img" --from-backup
    [ $status -eq 0 ] && judge_repair
}

# Of the old state those sectors of zone 3 that its books have, of the new one all: headers with their ids.
judge_header() {
    repaired || return 1
    if same_zone_1 "$T/was.img"; then
        sectors "$T/was.img" 2048 3 >"$T/run"
        sectors "$T/w.img" 2048 3 | cmp -s - "$T/run" || return 1
    else
        same_zone_1 "$T/new.img" || return 1
        sectors "$T/new.img" 2048 1024 >"$T/run"
        sectors "$T/w.img" 2048 1024 | cmp -s - "$T/run" || return 1
    fi
    files_stand && $CARD header get "$T/w.img" A 2>"$T/err" | cmp -s - "$T/h.a"
}
judge_worn() {
    repaired || return 1
    same_zone_1 "$T/was.img" || same_zone_1 "$T/new.img"
}
judge_headed() {
    repaired && cmp -s "$T/w.img" "$T/headed.img"
}

# cuts JUDGE NAME ARGS: from was.img on, the power is cut at every event of the command, in order and out of order.
cuts() {
    judge=$1 what=$2
    shift 2
    cp "$T/was.img" "$T/w.img"
    run "$@"
    [ $status -eq 0 ] || { verdict 1 "$what, uncut"; return; }
    cp "$T/w.img" "$T/new.img"
    for mode in plain 1 2; do
        at=0
        bad=0
        while cp "$T/was.img" "$T/w.img" && cut $mode $at "$@" && [ $status -eq 99 ]; do
            $judge || { bad=1; echo "    $what, $mode: cut after $at"; }
            at=$((at + 1))
        done
        [ $status -eq 0 ] && [ $at -gt 0 ] && cmp -s "$T/w.img" "$T/new.img" || bad=1
        verdict $bad "$what: $at cuts, writes $([ $mode = plain ] && echo in order || echo "held back but for the last $mode")"
    done
}

# old.img: a volume of 3 zones with the files A, B and C.
old_image() {
    bytes 3000 1 >"$T/a"
    bytes 4096 2 >"$T/b"
    bytes 1500 3 >"$T/c"
    bytes 4500 4 >"$T/d.fixed"
    bytes 5120 5 >"$T/d.variable"
    run format "$T/old.img" --zones 3 --indexes 8 --label OLD --date $DATE
    run put "$T/old.img" "$T/a" --name A --types C --date $DATE
    run put "$T/old.img" "$T/b" --name B --variable 1024 --date $DATE
    run put "$T/old.img" "$T/c" --name C --types C --date $DATE
    works "a volume for what follows" check "$T/old.img"
}

cut_changes() {
    later="--date 2026-05-06T07:08"
    truncate -s $((3 * MIB)) "$T/was.img"
    cuts judge_blank "format of a blank card" format "$T/w.img" --zones 3 --indexes 8 --force $later
    cp "$T/old.img" "$T/was.img"
    cuts judge_force "format of a volume" format "$T/w.img" --zones 3 --indexes 20 --force --label NEW $later
    cp "$T/d.fixed" "$T/d"
    cuts judge_put "put" put "$T/w.img" "$T/d" --name D --types C $later
    cp "$T/d.variable" "$T/d"
    cuts judge_put "put --variable" put "$T/w.img" "$T/d" --name D --variable 1024 $later
    cuts judge_change "protect" protect "$T/w.img" C --read $later
    cuts judge_change "rm" rm "$T/w.img" C $later
    cp "$T/new.img" "$T/was.img"
    cuts judge_change "recover" recover "$T/w.img" C $later
    cuts judge_change "purge" purge "$T/w.img" C $later
}

# headed.img: a volume of 4 zones with the files A, B and C. The header of A is sector 2048, that of C 2049 and 2050.
headed_image() {
    bytes 700 6 >"$T/h.a"
    bytes 1500 7 >"$T/h.c"
    bytes 3000 8 >"$T/h.new"
    run format "$T/headed.img" --zones 4 --indexes 8 --label HEADED --date $DATE
    for file in A B C; do
        run put "$T/headed.img" "$T/$(echo $file | tr A-Z a-z)" --name $file --types C --date $DATE
    done
    run header put "$T/headed.img" A "$T/h.a" --date $DATE
    run header put "$T/headed.img" C "$T/h.c" --date $DATE
    works "a volume with headers" check "$T/headed.img"
}

cut_headers() {
    cp "$T/headed.img" "$T/was.img"
    cuts judge_header "header put in another's place" header put "$T/w.img" C "$T/h.new" $later
    cuts judge_header "rm, with a header" rm "$T/w.img" C $later
    cp "$T/new.img" "$T/was.img"
    cuts judge_header "recover, with a header" recover "$T/w.img" C $later
    cuts judge_header "purge, with a header" purge "$T/w.img" C $later
}

# worn.img has no file, and one withheld block.
cut_worn() {
    listed="--withheld $list"
    cp "$T/worn.img" "$T/was.img"
    # shellcheck disable=SC2086
    for words in "put $T/w.img $T/y --name Y --types D" "rm $T/w.img Y" "purge $T/w.img Y"; do
        cuts judge_worn "${words%% *}, with a withheld block" $words $listed $later
        cp "$T/new.img" "$T/was.img"
    done
    listed=
}

# The id in C's header has been changed by rm, the backup has been written, zone 1 not yet.
cut_header_repairs() {
    cp "$T/headed.img" "$T/was.img"
    run rm "$T/was.img" C $later
    head -c $MIB "$T/headed.img" | dd of="$T/was.img" conv=notrunc 2>/dev/null
    cuts judge_headed "repair of a header's id" repair "$T/w.img"
    prints_repair "the backup was made from zone 1"
    prints_repair "headers whose id was put right: 1"
    # 77 in A's header is no request's work.
    set_byte "$T/was.img" $((1024 * 2048 + 3)) 77
    prints_repair "headers whose id was put right: 1"
    [ "$(byte_at "$T/w.img" $((1024 * 2048 + 3)))" = 77 ] && [ "$(byte_at "$T/w.img" $((1024 * 2049 + 3)))" = 3 ]
    verdict $? "it leaves what no request puts there"
}

cut_repairs() {
    cp "$T/old.img" "$T/was.img"
    printf '\0\0\0\0' | dd of="$T/was.img" conv=notrunc 2>/dev/null
    set_byte "$T/was.img" 4100 77
    cuts judge_repair "repair of zone 1" repair "$T/w.img"
    prints_repair "zone 1 was made from the backup"
    set_byte "$T/was.img" $((2 * MIB + 1024 + 31)) 1
    cuts judge_repair "repair of zone 1 from a mounted backup" repair "$T/w.img"
    cp "$T/old.img" "$T/was.img"
    printf '\0\0\0\0' | dd of="$T/was.img" bs=1 seek=$((2 * MIB)) conv=notrunc 2>/dev/null
    set_byte "$T/was.img" $((2 * MIB + 4100)) 77
    cuts judge_repair "repair of the backup" repair "$T/w.img"
    prints_repair "the backup was made from zone 1"
    cp "$T/old.img" "$T/was.img"
    set_byte "$T/was.img" $((1024 + 31)) 1
    set_byte "$T/was.img" $((2 * MIB + 1024 + 31)) 1
    cuts judge_repair "repair of a mounted volume" repair "$T/w.img"
    prints_repair "the volume had been left mounted, and was dismounted"
    cp "$T/old.img" "$T/was.img"
    set_byte "$T/was.img" $((1024 + 7)) 9
    cuts judge_from_backup "repair --from-backup" repair "$T/w.img" --from-backup
}

# A disk that is full: the tool says so, and the volume is as after a power cut.
full_disks() {
    cp "$T/old.img" "$T/was.img"
    cp "$T/d.fixed" "$T/d"
    cp "$T/was.img" "$T/w.img"
    run put "$T/w.img" "$T/d" --name D --types C $later
    cp "$T/w.img" "$T/new.img"
    bad=0
    for at in 0 2 6 8 14 16 20 22; do
        cp "$T/was.img" "$T/w.img"
        CUT_MODE=full CUT_AFTER=$at $CARD_CUT put "$T/w.img" "$T/d" --name D --types C $later >"$T/out" 2>"$T/err"
        [ $? -eq 1 ] && [ ! -s "$T/out" ] && grep -q "^card: put: .*: No space left" "$T/err" && judge_put || bad=1
    done
    verdict $bad "put on a disk that is full after 0 to 22 events"
    CUT_MODE=full CUT_AFTER=5 $CARD_CUT format "$T/fresh.img" --zones 3 --indexes 8 >"$T/out" 2>"$T/err"
    [ $? -eq 1 ] && [ ! -e "$T/fresh.img" ]
    verdict $? "a new image that could not be written is removed"
}

# prints_repair TEXT: what repair says of was.img.
prints_repair() {
    cp "$T/was.img" "$T/w.img"
    run repair "$T/w.img"
    [ $status -eq 0 ] && grep -qxF -e "$1" "$T/out"
    verdict $? "repair says: $1"
}

repairs() {
    cp "$T/old.img" "$T/w.img"
    works "repair of a good volume" repair "$T/w.img"
    prints "nothing was to be done" "and says so"
    cmp -s "$T/w.img" "$T/old.img"
    verdict $? "and changes nothing"
    set_byte "$T/w.img" $((1024 + 7)) 9
    refused 4 "repair of unlawful tables that have their mark" repair "$T/w.img"
    grep -q -e '--from-backup` takes the backup' "$T/err" && cmp -s -n $MIB --ignore-initial=$((2 * MIB)):$((2 * MIB)) \
        "$T/w.img" "$T/old.img"
    verdict $? "it names --from-backup, and leaves the backup alone"
    cp "$T/old.img" "$T/w.img"
    set_byte "$T/w.img" $((2 * MIB + 1024 + 7)) 9
    refused 4 "--from-backup of an unlawful backup" repair "$T/w.img" --from-backup
    set_byte "$T/w.img" 0 0
    refused 2 "repair where neither is whole" repair "$T/w.img"
    grep -q "neither zone 1 nor the backup" "$T/err"
    verdict $? "and says so"
}

a_day
a_day_goes_on
headers
headers_placed
headers_refused
worn_image
worn_checks
worn_lists
worn_texts
worn_files
worn_commands
worn_repairs
names
refusals
protection
space_again
broken_images
broken_rules
no_broken_rules
system_errors
usage
pictures
locks
old_image
short_images
changed_bytes
changed_books
garbage
repairs
cut_changes
headed_image
cut_headers
cut_worn
cut_header_repairs
cut_repairs
full_disks
echo "$passed passed, $failed failed"
[ $failed -eq 0 ]
