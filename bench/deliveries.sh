#!/bin/sh
# Measures how many deliveries a second a publisher makes, and how often one of its threads goes to sleep meanwhile (its voluntary context
# switches). A delivery is an item that one subscriber is told. There are 1 and 4 submitters, each a thread, and 1 and 4 subscribers that
# count what they are told and request all of it; capacities of 4, 16 and 256; texts of 16 and 256 bytes, whose bytes are made before; 1 and 4
# workers. A run is from the start of the submitters' threads to the end of `finish`, and counts only if each subscriber was told every item.
# Then it measures the same at capacities of 4 and 256 with texts of 16 bytes that are published by `submit`, and 16 and 64 by one `submit_all`.
# Last it measures with 1, 2 and 4 workers how long two subscribers that sleep for 10 ms over each item take for 64 items each, which wait
# when the items are requested, and the longest call of `number_of_subscribers` meanwhile.
# With OTHER_CHECKOUT, another clone of this repository, the same program (crates/deliveries_bench) runs over the publisher of that
# clone, too, in turns with this one's. A row has the figures of both, and their ratios, this one's to the other's.
# Usage: bench/deliveries.sh [OTHER_CHECKOUT [RUNS [ITEMS]]]; '' for no other checkout. Each figure is the median of RUNS runs of ITEMS items
# (5 and 400,000). The programs are proved and built in a temporary folder, each in some eight minutes of a processor over what its checkout
# has proved already (what is in crates/*/out), and else in half an hour more. KEEP names a file in which the program over this checkout is
# kept; such a file may stand for a checkout: as OTHER_CHECKOUT, and as PROGRAM for this one. It needs GNU time.
set -eu
other=${1:-}
[ -z "$other" ] || other=$(realpath -e "$other")
[ -z "${PROGRAM-}" ] || PROGRAM=$(realpath -e "$PROGRAM")
[ -z "${KEEP-}" ] || KEEP=$(realpath "$KEEP")
cd "$(dirname "$0")/.."
runs=${2:-5}
items=${3:-400000}
work=$(mktemp -d)
trap 'rm -rf "$work"' EXIT
. bench/build.sh

# build_or_copy CHECKOUT NAME: the program over the publisher of this checkout, or one that was built before, as $work/NAME.
build_or_copy() {
    if [ -f "$1" ]; then
        cp "$1" "$work/$2"
    else
        build deliveries_bench "$1" "$work/$2" size
    fi
}

# measure WORD..: the nanoseconds of each run with these words, and how often it went to sleep, in $work/NAME.times and $work/NAME.sleeps.
measure() {
    rm -f "$work"/*.times "$work"/*.sleeps
    run=0
    while [ "$run" -lt "$runs" ]; do
        for name in $names; do
            /usr/bin/time -a -o "$work/$name.sleeps" -f %w "$work/$name" "$@" >>"$work/$name.times"
        done
        run=$((run + 1))
    done
    for name in $names; do
        # A run that failed printed nothing.
        if [ "$(wc -l <"$work/$name.times")" -ne "$runs" ]; then
            echo "a run of $name failed: $*"
            exit 1
        fi
    done
}

# median FILE COLUMN: the number in the middle of this column of $work/FILE.
median() {
    cut -d ' ' -f "$2" "$work/$1" | sort -n | sed -n "$(((runs + 1) / 2))p"
}

# fast WORKERS SUBMITTERS SUBSCRIBERS CAPACITY BYTES: a row of subscribers that count.
fast() {
    measure fast "$@" "$items"
    for name in $names; do
        median "$name.times" 1
        median "$name.sleeps" 1
    done | xargs | awk -v row="$1 $2 $3 $4 $5" -v items="$items" '{
        split(row, at, " ")
        told = items * at[3] * 1e9
        printf "%7d %10d %11d %8d %5d %12.0f %7d", at[1], at[2], at[3], at[4], at[5], told / $1, $2
        if (NF > 2) printf " %12.0f %12d %5.2f %6.2f", told / $3, $4, $3 / $1, ($2 + 1) / ($4 + 1)
        print ""
    }'
}

# by_call WORKERS SUBMITTERS SUBSCRIBERS CAPACITY: a row of deliveries a second by submit, and by submit_all of 16 and of 64 texts.
by_call() {
    for batch in 0 16 64; do
        measure fast "$@" 16 "$items" "$batch"
        for name in $names; do
            median "$name.times" 1
        done
    done | xargs | awk -v row="$1 $2 $3 $4" -v items="$items" '{
        split(row, at, " ")
        told = items * at[3] * 1e9
        printf "%7d %10d %11d %8d", at[1], at[2], at[3], at[4]
        step = NF / 3
        for (i = 1; i <= NF; i += step) printf " %12.0f", told / $i
        if (step > 1) for (i = 1; i <= NF; i += step) printf " %5.2f", $(i + 1) / $i
        print ""
    }'
}

# slow WORKERS: a row of subscribers that sleep.
slow() {
    measure slow "$1"
    for name in $names; do
        median "$name.times" 1
        median "$name.times" 2
    done | xargs | awk -v workers="$1" '{
        printf "%7d %8.3f %12.4f", workers, $1 / 1e9, $2 / 1e9
        if (NF > 2) printf " %13.3f %18.4f %5.2f %12.4f", $3 / 1e9, $4 / 1e9, $1 / $3, $2 / $4
        print ""
    }'
}

items=$((items / 4 * 4))
names=this
build_or_copy "${PROGRAM:-.}" this
[ -z "${KEEP-}" ] || cp "$work/this" "$KEEP"
if [ -n "$other" ]; then
    names='this other'
    build_or_copy "$other" other
fi
# if_other TEXT: the text, if there is another checkout.
if_other() {
    [ -z "$other" ] || printf ' %s' "$1"
}

echo "workers submitters subscribers capacity bytes deliveries/s  sleeps$(if_other 'other_del./s other_sleeps ratio sleeps')"
for workers in 1 4; do
    for submitters in 1 4; do
        for subscribers in 1 4; do
            for capacity in 4 16 256; do
                for bytes in 16 256; do
                    fast "$workers" "$submitters" "$subscribers" "$capacity" "$bytes"
                done
            done
        done
    done
done
echo
echo "workers submitters subscribers capacity       submit submit_all16 submit_all64$(if_other 'ratio ratio ratio')"
for workers in 1 4; do
    for submitters in 1 4; do
        for subscribers in 1 4; do
            for capacity in 4 256; do
                by_call "$workers" "$submitters" "$subscribers" "$capacity"
            done
        done
    done
done
echo
echo "workers  seconds longest_call$(if_other 'other_seconds other_longest_call ratio longest_call')"
for workers in 1 2 4; do
    slow "$workers"
done
