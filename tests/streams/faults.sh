#!/bin/sh
# Runs a short script, and the program on threads, with streams that move one byte at a time, that interrupt each call, and that
# fail at each place: after a fault of reading nothing is written, and after one of writing what was written is a prefix of
# the output, exactly what the stream had taken. Where the stream fails once and then takes more, the prefix may be longer, up to all.
# It needs the program, which `rt ci` and `./play --build` leave in crates/lines_demo/out, and gcc.
set -eu
cd "$(dirname "$0")/../.."
. tests/program.sh
begin lines_demo
gcc -shared -fPIC -O1 -Wall -Wextra -Werror -o "$work/streams.so" tests/streams/streams.c
faults_of_reading=0
faults_of_writing=0

# fault WHAT: ends the test.
fault() {
    echo "$words: $row: $1"
    cat "$work/err"
    exit 1
}

# play ROW SETTING..: runs the program with $words on $work/in, behind these streams.
play() {
    row=$1
    shift
    rm -f "$work/log"
    status=0
    # shellcheck disable=SC2086
    timeout 600 env "$@" STREAMS_LOG="$work/log" LD_PRELOAD="$work/streams.so" "$program" $words \
        <"$work/in" >"$work/out" 2>"$work/err" || status=$?
}

# calls LETTER COUNT: the stream saw at least so many such calls.
calls() {
    [ "$(tr -cd "$1" <"$work/log" | wc -c)" -ge "$2" ] || fault "fewer than $2 calls $1"
}

# is_whole: the run ended well, with the whole output.
is_whole() {
    [ "$status" -eq 0 ] || fault "status $status"
    [ ! -s "$work/err" ] || fault 'standard error'
    cmp "$work/want" "$work/out" || fault 'another output'
    calls r "$read_bytes"
    calls w "$written_bytes"
}

# is_cut WORD BYTES: the run ended by this fault, with so many bytes of the output.
is_cut() {
    [ "$status" -eq 1 ] || fault "status $status"
    echo "lines_demo: $1 fault" | cmp - "$work/err" || fault 'standard error'
    head -c "$2" "$work/want" | cmp - "$work/out" || fault 'another output'
}

# is_begun BYTES: the run ended by a fault of writing, with a beginning of the output, at least so many bytes.
is_begun() {
    is_cut_at=$(wc -c <"$work/out")
    [ "$is_cut_at" -ge "$1" ] || fault "fewer than $1 bytes"
    is_cut write "$is_cut_at"
}

# each_fault WORD..: runs the program with these words on $work/in, which it answers by $work/want.
each_fault() {
    words=$*
    read_bytes=$(wc -c <"$work/in")
    written_bytes=$(wc -c <"$work/want")
    play 'one byte at a time' A=1
    is_whole
    play 'each call is interrupted' INTERRUPTED=1
    is_whole
    calls R "$read_bytes"
    calls W "$written_bytes"
    at=0
    while [ "$at" -le "$read_bytes" ]; do
        play "reading fails after $at bytes" READ_FAILS="$at"
        is_cut read 0
        at=$((at + 1))
    done
    at=0
    while [ "$at" -lt "$written_bytes" ]; do
        play "writing stops after $at bytes" WRITE_STOPS="$at"
        is_cut write "$at"
        play "one write fails after $at bytes" WRITE_FAILS_ONCE="$at"
        is_begun "$at"
        play "writing fails after $at bytes" WRITE_FAILS="$at"
        is_cut write "$at"
        play "writing fails after $at bytes, each call interrupted" WRITE_FAILS="$at" INTERRUPTED=1
        is_cut write "$at"
        at=$((at + 1))
    done
    faults_of_reading=$((faults_of_reading + read_bytes + 1))
    faults_of_writing=$((faults_of_writing + 4 * written_bytes))
}

printf 'sub a 1\noffer x\nrun\n' >"$work/in"
printf 'sub a\noffer 1\na subscribed\na next x\nidle\n' >"$work/want"
each_fault script
printf '2 p\n1 q\n2 r\n' >"$work/in"
printf 'a 1 q\na 2 p\na 2 r\na complete 3\ndrained 1\n' >"$work/want"
each_fault threads --workers 2 --cap 1 a:3

# A longer output than is held back at a time.
words=script
yes run | head -n 4000 >"$work/in"
yes idle | head -n 4000 >"$work/want"
for at in 0 1 4 5 4095 4096 8191 8192 8193 16384 19999; do
    play "one write fails after $at bytes of many" WRITE_FAILS_ONCE="$at"
    is_begun "$at"
    faults_of_writing=$((faults_of_writing + 1))
done
echo "$faults_of_reading faults of reading and $faults_of_writing of writing are told as they are"
