#!/bin/sh
# Plays scripts on the native program, and compares whole outputs and the status.
# It needs the program, which `rt ci` and `./play --build` leave in crates/lines_demo/out.
set -eu
cd "$(dirname "$0")/../.."
. tests/program.sh
begin lines_demo
failures=0

# fault WHAT
fault() {
    echo "$row: $1"
    failures=$((failures + 1))
}

# same FILE FILE WHAT
same() {
    cmp "$1" "$2" >"$work/cmp" 2>&1 || fault "$3: $(cat "$work/cmp")"
}

# row NAME: plays $work/in, again on a subscriber that keeps nothing, and again with what explains it. Each time the program must
# write $work/want, nothing on standard error unless it explains, and end with status 0.
row() {
    for flag in '' --forget --explain; do
        row="$1${flag:+, with $flag}"
        status=0
        "$program" script ${flag:+"$flag"} <"$work/in" >"$work/out" 2>"$work/err" || status=$?
        [ "$status" -eq 0 ] || fault "status $status"
        same "$work/want" "$work/out" 'standard output'
        [ "$flag" = --explain ] || [ ! -s "$work/err" ] || fault "standard error: $(cat "$work/err")"
    done
}

# ended NAME STATUS LINE: a run that has ended with $status was to end so, with this line alone on standard error.
ended() {
    row=$1
    [ "$status" -eq "$2" ] || fault "status $status"
    printf '%s\n' "$3" >"$work/want"
    same "$work/want" "$work/err" 'standard error'
}

# bytes COUNT BYTE: this byte so often.
bytes() {
    head -c "$1" /dev/zero | tr '\0' "$2"
}

# The scripts that stand beside their outputs, and the example. Each output needs its script.
for wanted in tests/scripts/*.expected; do
    row=$wanted
    [ -f "${wanted%.expected}.script" ] || fault 'no script of this name'
done
for script in tests/scripts/*.script; do
    cp "$script" "$work/in"
    cp "${script%.script}.expected" "$work/want"
    row "$script"
done
cp examples/first.script "$work/in"
cp examples/first.expected "$work/want"
row 'the example'

# What explains a script. A fault of standard error changes neither the answers nor the status.
for wanted in tests/scripts/*.explained; do
    row=$wanted
    "$program" script --explain <"${wanted%.explained}.script" >"$work/out" 2>"$work/err" || fault "status $?"
    same "$wanted" "$work/err" 'standard error'
    "$program" script --explain --forget <"${wanted%.explained}.script" >"$work/out" 2>"$work/err" || fault "status $?"
    same "$wanted" "$work/err" 'standard error, with --forget'
    "$program" script --explain <"${wanted%.explained}.script" >"$work/out" 2>&- || fault "status $? with a closed standard error"
    same "${wanted%.explained}.expected" "$work/out" 'standard output'
    if [ -c /dev/full ]; then
        "$program" script --explain <"${wanted%.explained}.script" >"$work/out" 2>/dev/full || fault "status $? with a full one"
        same "${wanted%.explained}.expected" "$work/out" 'standard output'
    fi
done

# Nothing at all.
: >"$work/in"
: >"$work/want"
row 'an empty script'

# A line may have 4,200 bytes, its line feed and the carriage return before it not counted.
{
    bytes 4200 x && printf '\n'
    bytes 4200 x && printf '\r\n'
    bytes 4201 x && printf '\n'
    bytes 4200 x && printf '\r\r\n'
    bytes 4201 x
} >"$work/in"
printf 'refused 12 command\nrefused 12 command\nrefused 6 line\nrefused 6 line\nrefused 6 line\n' >"$work/want"
row 'lines of 4,200 and 4,201 bytes'

# A text may have 4,096 bytes.
{
    printf 'sub a 9\n'
    printf 'offer ' && bytes 4096 x && printf '\n'
    printf 'offer ' && bytes 4097 x && printf '\n'
    printf 'offer ' && bytes 4194 x && printf '\n'
    printf 'offer ' && bytes 4195 x && printf '\n'
    printf 'run\n'
} >"$work/in"
{
    printf 'sub a\noffer 1\nrefused 6 line\nrefused 6 line\nrefused 6 line\na subscribed\na next '
    bytes 4096 x && printf '\nidle\n'
} >"$work/want"
row 'texts of 4,096 and 4,097 bytes'

# A script may have 16 MiB; one byte more is too many, and then nothing is played.
bytes 16777216 '\n' >"$work/in"
: >"$work/want"
row '16 MiB of line feeds'
{
    printf 'run\n'
    bytes 16777213 '\n'
} >"$work/in"
status=0
"$program" script <"$work/in" >"$work/out" 2>"$work/err" || status=$?
ended 'one byte more' 1 'lines_demo: the input has more than 16,777,216 bytes'
[ ! -s "$work/out" ] || fault 'something was written'

# Each byte may stand in a text. A line feed ends the line, and a carriage return at its end is dropped.
printf 'sub a 300\nrun\n' >"$work/in"
printf 'sub a\na subscribed\nidle\n' >"$work/want"
byte=0
while [ "$byte" -le 255 ]; do
    octal=$(printf '%03o' "$byte")
    case $byte in
    10)
        printf 'offer \\%s\nrun\n' "$octal"
        printf 'refused 12 command\nidle\n' >>"$work/want"
        ;;
    13)
        printf 'offer \\%s\nrun\n' "$octal"
        printf 'refused 12 command\nidle\n' >>"$work/want"
        ;;
    *)
        printf 'offer \\%s\nrun\n' "$octal"
        printf "offer 1\na next \\$octal\nidle\n" >>"$work/want"
        ;;
    esac
    byte=$((byte + 1))
done >"$work/format"
# shellcheck disable=SC2059
printf "$(cat "$work/format")\n" >>"$work/in"
row 'each byte as a text'
printf 'sub a 9\noffer x\ry\noffer \rz\nrun\n' >"$work/in"
printf 'sub a\noffer 1\noffer 2\na subscribed\na next x\ry\na next \rz\nidle\n' >"$work/want"
row 'a carriage return in a text'

# One carriage return before the line feed is dropped, and no other.
printf 'sub a 9\r\noffer x\r\noffer y\r\r\nrun\r\n\r\n' >"$work/in"
printf 'sub a\noffer 1\noffer 2\na subscribed\na next x\na next y\r\nidle\n' >"$work/want"
row 'a carriage return before the line feed'

# The last line may lack its line feed, with or without a carriage return.
printf 'sub a 9\noffer x\nrun' >"$work/in"
printf 'sub a\noffer 1\na subscribed\na next x\nidle\n' >"$work/want"
row 'no line feed at the end'
printf 'sub a 9\noffer x\nrun\r' >"$work/in"
row 'a carriage return at the end'

# A script has 1,024 subscribers. A second subscription of a live name takes none of them.
{
    count=0
    while [ "$count" -lt 1024 ]; do
        printf 'sub a 0\nsub a 0\nrun\n' >&3
        printf 'sub a\nrefused 3 duplicate\na subscribed\na error state\nidle\n' >&4
        count=$((count + 1))
    done
    printf 'sub a 0\n' >&3
    printf 'refused 4 many\n' >&4
} 3>"$work/in" 4>"$work/want"
row 'the subscriber after 1,024 of one name'

# Faults of writing and of reading. An empty output can be written anywhere.
printf 'run\n' >"$work/in"
status=0
"$program" script <"$work/in" >&- 2>"$work/err" || status=$?
ended 'a closed standard output' 1 'lines_demo: write fault'
if [ -c /dev/full ]; then
    status=0
    "$program" script <"$work/in" >/dev/full 2>"$work/err" || status=$?
    ended 'a full standard output' 1 'lines_demo: write fault'
    status=0
    "$program" script --explain <"$work/in" >/dev/full 2>"$work/err" || status=$?
    printf 'line 1: after this run\n' >"$work/said"
    [ "$status" -eq 1 ] || fault "status $status with --explain"
    printf 'lines_demo: write fault\n' >>"$work/said"
    same "$work/said" "$work/err" 'standard error with --explain'
fi
status=0
"$program" script </ >"$work/out" 2>"$work/err" || status=$?
ended 'a folder as standard input' 1 'lines_demo: read fault'
[ ! -s "$work/out" ] || fault 'something was written'

# line NAME STATUS STREAM WORD..: with these words it ends with this status, writes on this stream alone, and plays nothing.
line() {
    row=$1 wanted=$2 stream=$3
    shift 3
    status=0
    "$program" "$@" <"$work/in" >"$work/out" 2>"$work/err" || status=$?
    [ "$status" -eq "$wanted" ] || fault "status $status"
    [ -s "$work/$stream" ] || fault 'no word of what is wrong'
    case $stream in
    err) [ ! -s "$work/out" ] || fault 'something on standard output' ;;
    out) [ ! -s "$work/err" ] || fault 'something on standard error' ;;
    esac
}

line 'no subcommand' 2 err
line 'an unknown subcommand' 2 err scripts
line 'one word too many' 2 err script more
line 'an unknown option' 2 err script --more
line 'an option with a word too many' 2 err script --forget=more
line '--help' 0 out --help
line 'script --help' 0 out script --help
grep -q -e --forget "$work/out" || fault 'no word of --forget'
grep -q -e --explain "$work/out" || fault 'no word of --explain'

[ "$failures" -eq 0 ] || exit 1
echo 'all rows are as they should be'
