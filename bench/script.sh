#!/bin/sh
# Measures how long the native program takes to play scripts of 1, 4 and 16 MiB, made of offers, requests and runs, and
# how much memory it has at its peak, both for each byte of the script, and prints each as a ratio to the script of 1 MiB.
# Each script is played twice: on a subscriber that keeps all that it is told, and with --forget on one that keeps nothing.
# Then it measures the kinds of script that cost most for each byte, at 1 MiB each: lines that are all `run`, lines of two bytes, and
# offers with CR LF.
# Last it measures the time for each delivery, which is an item that one subscriber is told: with 1, 8 and 64 subscribers, and with 8 of
# them after 1,000 others that have come and gone, beside that with 1; all with --forget. A script has 1,024 subscriptions at most.
# It sets no bounds. The script is read whole, so memory grows with it even where the subscriber keeps nothing.
# It needs the program, which `rt ci` and `./play --build` leave in crates/lines_demo/out, and GNU time or Python 3.
# Usage: bench/script.sh [RUNS]; each figure is the median of RUNS runs (5).
set -eu
cd "$(dirname "$0")/.."
. tests/program.sh
begin lines_demo
runs=${1:-5}

# make MIB: a script of at most this many MiB. 64 texts of 24 bytes are offered, requested and told, again and again.
make() {
    awk -v most="$(($1 * 1048576))" 'BEGIN {
        line = "sub a 0\nrun\n"
        printf "%s", line
        size = length(line)
        for (block = 0; ; block++) {
            text = ""
            for (i = 0; i < 64; i++) text = text sprintf("offer line %08d of %06d x\n", block, i)
            text = text "request a 64\nrun\n"
            size += length(text)
            if (size > most) exit
            printf "%s", text
        }
    }'
}

# lines LINE: 1 MiB of this line, as printf writes it, after a subscriber that asks for more than there is.
lines() {
    printf 'sub a 9000000\n'
    awk -v line="$(printf "$1.")" 'BEGIN {
        line = substr(line, 1, length(line) - 1)
        for (size = 16; size + length(line) <= 1048576; size += length(line)) printf "%s", line
    }'
}

# peak FILE: the KiB at the peak of one run. As Python measures it (peak.py), that is at least what Python has itself, some 14,000 KiB.
# Each run has the flag $flag, if there is one.
flag=
if [ -x /usr/bin/time ] && /usr/bin/time -f %M true >/dev/null 2>&1; then
    peak() {
        /usr/bin/time -o "$work/time" -f %M "$program" script ${flag:+"$flag"} <"$1" >"$work/out"
        cat "$work/time"
    }
else
    peak() {
        python3 bench/peak.py "$1" "$work/out" "$program" script ${flag:+"$flag"}
    }
fi

# spent FILE: the nanoseconds of one run, that of starting the program among them.
spent() {
    rm -f "$work/out"
    start=$(date +%s%N)
    "$program" script ${flag:+"$flag"} <"$1" >"$work/out"
    echo $(($(date +%s%N) - start))
}

# median WHAT FILE: the run in the middle.
median() {
    run=0
    while [ "$run" -lt "$runs" ]; do
        "$1" "$2"
        run=$((run + 1))
    done | sort -n | sed -n "$(((runs + 1) / 2))p"
}

# figures NAME: a row of the script in $work/script, beside the first one.
figures() {
    bytes=$(wc -c <"$work/script")
    time=$(median spent "$work/script")
    memory=$(median peak "$work/script")
    first=${first:-"$bytes $time $memory"}
    echo "$first $bytes $time $memory" | awk -v name="$1" '{
        base_time = $2 / $1
        base_memory = $3 * 1024 / $1
        time = $5 / $4
        memory = $6 * 1024 / $4
        printf "%-14s %8d %7.3f %11.1f %5.2f %8d %19.2f %5.2f\n",
            name, $4, $5 / 1e9, time, time / base_time, $6, memory, memory / base_memory
    }'
}

printf 'script            bytes seconds ns_per_byte ratio peak_KiB peak_bytes_per_byte ratio\n'
first=
for size in 1 4 16; do
    make "$size" >"$work/script"
    for flag in '' --forget; do
        figures "${size}MiB${flag:+ $flag}"
    done
done
flag=
lines 'run\n' >"$work/script"
figures runs
lines 'x\n' >"$work/script"
figures short
lines 'offer x\r\n' >"$work/script"
figures crlf

# deliveries COUNT GONE: a script for COUNT subscribers, after GONE others that have ended. In all they are told the same number of items.
deliveries() {
    awk -v count="$1" -v gone="$2" 'BEGIN {
        for (i = 0; i < gone; i++) printf "sub gone 0\nsub gone 0\nrun\n"
        for (i = 0; i < count; i++) printf "sub s%d 9000000\n", i
        printf "run\n"
        for (i = 0; i < 262144 / count; i++) printf "offer line %08d of %06d x\n%s", i / 64, i % 64, i % 64 == 63 ? "run\n" : ""
    }'
}

printf '\nsubscribers    deliveries seconds ns_per_delivery ratio\n'
flag=--forget
first=
for who in '1 0' '8 0' '64 0' '8 1000'; do
    count=${who% *}
    gone=${who#* }
    deliveries "$count" "$gone" >"$work/script"
    time=$(median spent "$work/script")
    told=$(grep -c ' next ' "$work/out")
    first=${first:-"$told $time"}
    echo "$first $told $time" | awk -v name="$count$([ "$gone" -eq 0 ] || echo " after $gone")" '{
        printf "%-14s %10d %7.3f %15.1f %5.2f\n", name, $3, $4 / 1e9, $4 / $3, $4 / $3 / ($2 / $1)
    }'
done
