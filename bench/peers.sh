#!/bin/sh
# Measures this publisher beside the JDK's SubmissionPublisher (bench/java), and beside a plain fan-out in Rust (bench/rust/fan_out.rs): the
# threads program on 4 sources of 50,000 lines with 4 subscribers, whose reports have to be the same to the byte; deliveries in one process;
# how long one item takes to a subscriber at rest; and the rows of fanout.sh. Runs are interleaved, and a row has the medians and the ratios
# of this one's time to the others'. A JVM that answers for itself alone is warmed up by earlier rounds; the threads program begins cold, as a
# program does. A run beside which the machine's host took more than 2.5 % of the processors says nothing, and is made again. What isn't there
# (javac, rustc) is left out. The tables and a picture of the ratios go to bench/results, with the machine's name.
# Usage: PROGRAM=FILE DELIVERIES=FILE FANOUT=FILE bench/peers.sh [RUNS [ITEMS]] (5 and 400,000). The files are the native programs of
# lines_demo, deliveries_bench and fanout; without a name they are those that `rt ci` leaves in crates/*/out.
set -eu
cd "$(dirname "$0")/.."
. tests/program.sh
begin lines_demo
deliveries=${DELIVERIES:-crates/deliveries_bench/out/deliveries_bench}
[ -x "$deliveries" ] || { echo "$deliveries isn't there: run .ci/run"; exit 1; }
fanout=${FANOUT:-crates/fanout/out/fanout}
need fanout "$fanout"
runs=${1:-5}
items=${2:-400000}
peers=
if command -v javac >/dev/null; then
    javac -d "$work" bench/java/*.java
    peers="$peers java"
fi
if command -v rustc >/dev/null; then
    rustc -O --edition 2021 -o "$work/fan_out" bench/rust/fan_out.rs
    peers="$peers rust"
fi
awk 'BEGIN { for (k = 0; k < 50000; k++) for (s = 0; s < 4; s++) printf "%d the line %d of source %d\n", s, k, s }' >"$work/lines"
printf '0 one line\n' >"$work/line"

# nanoseconds COMMAND..: how long a command takes, with the input $in; its output goes to $work/out, which is a new file: to empty one of
# 26 MB takes the system some 40 ms.
nanoseconds() {
    rm -f "$work/out"
    from=$(date +%s%N)
    "$@" <"$in" >"$work/out"
    echo $(($(date +%s%N) - from))
}

# ticks: the time that the machine's host took from the processors, and all of their time.
ticks() {
    awk '$1 == "cpu" { print $9, $2 + $3 + $4 + $5 + $6 + $7 + $8 + $9 }' /proc/stat
}

# quietly COMMAND..: what a command printed, of a run beside which the host took little.
quietly() {
    while :; do
        before=$(ticks)
        said=$("$@")
        if echo "$before $(ticks)" | awk '{ exit ($3 - $1) * 40 > $4 - $2 }'; then
            break
        fi
    done
    echo "$said"
}

# workers NUMBER: so many workers, in words.
workers() {
    [ "$1" -eq 1 ] && echo '1 worker' || echo "$1 workers"
}

# threads NAME INPUT WORKERS CAPACITY DEMAND: a row of the threads program.
threads() {
    rm -f "$work"/*.times "$work/want"
    in=$work/$2
    for _ in $(seq "$runs"); do
        quietly nanoseconds "$program" threads --workers "$3" --cap "$4" "a:$5" "b:$5" "c:$5" "d:$5" >>"$work/this.times"
        mv "$work/out" "$work/want"
        case $peers in
        *java*)
            quietly nanoseconds java -cp "$work" Lines "$3" "$4" "a:$5" "b:$5" "c:$5" "d:$5" >>"$work/java.times"
            cmp "$work/out" "$work/want"
            ;;
        esac
    done
    row "$1, $(workers "$3"), capacity $4"
}

# fast NAME WORKERS SUBMITTERS SUBSCRIBERS CAPACITY BYTES: a row of deliveries in one process.
fast() {
    rm -f "$work"/*.times
    for _ in $(seq "$runs"); do
        quietly "$deliveries" fast "$2" "$3" "$4" "$5" "$6" "$items" >>"$work/this.times"
        case $peers in *java*) quietly java -cp "$work" Deliveries "$2" "$3" "$4" "$5" "$6" "$items" >>"$work/java.times" ;; esac
        case $peers in *rust*) quietly "$work/fan_out" "$3" "$4" "$5" "$6" "$items" >>"$work/rust.times" ;; esac
    done
    row "$1, $(workers "$2"), capacity $5, $6 bytes"
}

# batches NAME WORKERS SUBMITTERS SUBSCRIBERS CAPACITY BYTES BATCH: such a row by calls that publish so many texts, beside Java's, which publish
# one each: its class has no others.
batches() {
    rm -f "$work"/*.times
    for _ in $(seq "$runs"); do
        quietly "$deliveries" fast "$2" "$3" "$4" "$5" "$6" "$items" "$7" >>"$work/this.times"
        case $peers in *java*) quietly java -cp "$work" Deliveries "$2" "$3" "$4" "$5" "$6" "$items" >>"$work/java.times" ;; esac
    done
    row "$1 by $7, $(workers "$2"), capacity $5, $6 bytes"
}

# alone NAME WORKERS PAUSE: a row of one item at a time to one subscriber at rest, with a pause before each, in microseconds.
alone() {
    rm -f "$work"/*.times
    for _ in $(seq "$runs"); do
        quietly "$deliveries" alone "$2" 2000 "$3" >>"$work/this.times"
        case $peers in *java*) quietly java -cp "$work" Alone "$2" 2000 "$3" >>"$work/java.times" ;; esac
    done
    row "$1, $(workers "$2"), a pause of $3 us"
}

# median NAME: the number in the middle of its times, or 0.
median() {
    if [ -f "$work/$1.times" ]; then
        sort -n "$work/$1.times" | sed -n "$(((runs + 1) / 2))p"
    else
        echo 0
    fi
}

# row NAME: prints the medians of what was measured, in milliseconds, and the ratios.
row() {
    printf '%s\t%s\t%s\t%s\n' "$1" "$(median this)" "$(median java)" "$(median rust)" >>"$work/rows"
    tail -n 1 "$work/rows" | bench/picture.py --line
}

bench/picture.py --head
threads 'one line' line 1 256 1
threads 'lines from threads' lines 1 256 200000
threads 'lines from threads' lines 4 256 200000
threads 'lines from threads' lines 4 4 200000
fast '1 submitter to 1' 1 1 1 256 16
fast '1 submitter to 1' 1 1 1 256 64
fast '1 submitter to 4' 4 1 4 256 16
fast '4 submitters to 4' 4 4 4 256 16
fast '4 submitters to 4' 4 4 4 256 256
fast '4 submitters to 4' 4 4 4 4 16
batches '1 submitter to 1' 1 1 1 256 16 16
batches '1 submitter to 4' 4 1 4 256 16 16
batches '4 submitters to 4' 4 4 4 256 16 16
batches '4 submitters to 4' 4 4 4 256 16 64
alone 'one item at a time, 2,000 of them' 1 10
alone 'one item at a time, 2,000 of them' 1 1000
alone 'one item at a time, 2,000 of them' 4 10
alone 'one item at a time, 2,000 of them' 4 1000
echo
PROGRAM=$fanout bench/fanout.sh "$runs" 1000000 "$work/fanout"
mkdir -p bench/results
machine="$(uname -m), $(nproc) processors, $(sed -n 's/^model name[^:]*: //p' /proc/cpuinfo | head -n 1)"
bench/picture.py --results "$work/rows" "$work/fanout" "$(date +%F)" "$machine" "$runs"
