#!/bin/sh
# Ships lines with the native program of crates/ship_example. What it writes has to be what it read, and its memory at the peak
# the same however many lines there are: the medians of 9 runs on 10,000 and on 1,000,000 lines, with a slack of 256 KiB, a
# quarter of a byte a line. (Single runs on the same lines differ by some 300 KiB, by what the system maps of the program, and
# the medians by 40 KiB.)
# Then lines that are too long, and output that can't be written.
# It needs the program, which `rt ci` leaves in crates/ship_example/out, and gcc.
set -eu
cd "$(dirname "$0")/../.."
. tests/program.sh
begin ship_example
gcc -O1 -Wall -Wextra -Werror -o "$work/peak" tests/ship/peak.c
failures=0

# The KiB by which the two medians may differ, and how many runs each is made of.
SLACK=256
RUNS=9

# fault WHAT
fault() {
    echo "$row: $1"
    failures=$((failures + 1))
}

# same FILE FILE WHAT
same() {
    cmp "$1" "$2" >"$work/cmp" 2>&1 || fault "$3: $(cat "$work/cmp")"
}

# ships NAME LONGEST: ships $work/in. It must write $work/want, the length of the longest line on standard error, and end with status 0.
ships() {
    row=$1
    status=0
    "$program" <"$work/in" >"$work/out" 2>"$work/err" || status=$?
    [ "$status" -eq 0 ] || fault "status $status"
    same "$work/want" "$work/out" 'standard output'
    printf 'the longest line has %s bytes\n' "$2" >"$work/said"
    same "$work/said" "$work/err" 'standard error'
}

# ended NAME LINE: a run that has ended with $status was to end with status 1, and this line alone on standard error.
ended() {
    row=$1
    [ "$status" -eq 1 ] || fault "status $status"
    printf '%s\n' "$2" >"$work/said"
    same "$work/said" "$work/err" 'standard error'
}

# bytes COUNT: a text of so many bytes.
bytes() {
    head -c "$1" /dev/zero | tr '\0' x
}

# median FILE: the KiB at the peak of shipping it, of the run in the middle.
median() {
    run=0
    while [ "$run" -lt "$RUNS" ]; do
        "$work/peak" "$work/KiB" "$program" <"$1" >"$work/out" 2>"$work/err" || echo 0
        cat "$work/KiB"
        run=$((run + 1))
    done | sort -n | sed -n "$(((RUNS + 1) / 2))p"
}

# Many lines, and the memory that they take.
seq 1000000 >"$work/in"
cp "$work/in" "$work/want"
ships '1,000,000 lines' 7
seq 10000 >"$work/few"
few=$(median "$work/few")
many=$(median "$work/in")
row='memory at the peak'
[ "$few" -gt 0 ] || fault 'it is not known'
[ "$many" -le "$((few + SLACK))" ] || fault "$few KiB of 10,000 lines, and $many KiB of 1,000,000"

# Few lines, and their bytes.
: >"$work/in"
: >"$work/want"
ships 'no line' 0
printf 'x\ny' >"$work/in"
printf 'x\ny\n' >"$work/want"
ships 'no line feed at the end' 1
printf '\n\n \000\r\n\377\n' >"$work/in"
cp "$work/in" "$work/want"
ships 'empty lines, and bytes that are no text' 3
{
    printf 'x\n' && bytes 4096 && printf '\n' && bytes 4096
} >"$work/in"
{
    cat "$work/in" && printf '\n'
} >"$work/want"
ships 'lines of 4,096 bytes' 4096

# A line that is too long is named, and those before it are shipped.
for count in 4097 4098 100000; do
    {
        printf 'x\n' && bytes "$count" && printf '\nz\n'
    } >"$work/in"
    status=0
    "$program" <"$work/in" >"$work/out" 2>"$work/err" || status=$?
    ended "a line of $count bytes" 'Error: line 2 has more than 4096 bytes'
    printf 'x\n' >"$work/want"
    same "$work/want" "$work/out" 'standard output'
done

# Output that can't be written: one line, which is held back up to the end, and many.
[ -c /dev/full ] || fault 'no /dev/full'
for file in "$work/want" "$work/few"; do
    lines=$(wc -l <"$file")
    status=0
    "$program" <"$file" 2>"$work/err" >/dev/full || status=$?
    ended "a full disk, $lines lines" 'Error: a line could not be written'
    status=0
    "$program" <"$file" 2>"$work/err" >&- || status=$?
    ended "a closed standard output, $lines lines" 'Error: a line could not be written'
done
status=0
"$program" </ >"$work/out" 2>"$work/err" || status=$?
row='a folder as standard input'
[ "$status" -eq 1 ] || fault "status $status"
[ -s "$work/err" ] || fault 'no word of what is wrong'

[ "$failures" -eq 0 ] || exit 1
echo "all lines are shipped as they are; at the peak $few KiB for 10,000 lines, and $many KiB for 1,000,000"
