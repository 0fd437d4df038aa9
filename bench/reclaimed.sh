#!/bin/sh
# Measures what subscriptions cost a publisher that came, ended by a cancel and were reclaimed, 64 of them at a time, before anything was
# published: the time of an item after 0, 1,000 and 100,000 of them, and of `finish`, which has a place for each; the time of a `reclaim` after
# 100 to 100,000; and the bytes that stay of each, at the peak of the run and before `finish`.
# What publishes and who subscribes is as in deliveries.sh, with capacity 256 and texts of 16 bytes. An item's time is from the start of the
# submitters' threads until all subscribers were told all, by the number of items. A `reclaim` is the average of the last 64.
# Without a subscriber nobody subscribes after the reclaims, so that these alone leave out the numbers of the last 64. With one worker and one
# submitter all threads share a processor, since it makes more of a difference than what is measured on how many the system puts them.
# Usage: bench/reclaimed.sh [RUNS [ITEMS]]. Each figure is the median of RUNS runs in turns, of ITEMS items (7 and 400,000); beside an item's
# time is the least, which other work on the machine disturbs less, and each has its ratio to that after 0. The program
# (crates/deliveries_bench) is proved and built as for deliveries.sh, and PROGRAM names one that was built before. It needs GNU time
# and taskset.
set -eu
[ -z "${PROGRAM-}" ] || PROGRAM=$(realpath -e "$PROGRAM")
cd "$(dirname "$0")/.."
runs=${1:-7}
items=$((${2:-400000} / 4 * 4))
work=$(mktemp -d)
trap 'rm -rf "$work"' EXIT
. bench/build.sh
if [ -n "${PROGRAM-}" ]; then
    cp "$PROGRAM" "$work/this"
else
    build deliveries_bench . "$work/this" size
fi

# measure WORD..: the figures of the runs with these words after each number $counts of reclaimed subscriptions, in $work/NUMBER.times.
# $pinned is the command that pins them to a processor, or nothing.
measure() {
    rm -f "$work"/*.times
    run=0
    while [ "$run" -lt "$runs" ]; do
        for count in $counts; do
            $pinned "$work/this" left "$count" "$@" >>"$work/$count.times"
        done
        run=$((run + 1))
    done
    for count in $counts; do
        # A run that failed printed nothing.
        if [ "$(wc -l <"$work/$count.times")" -ne "$runs" ]; then
            echo "a run failed: left $count $*"
            exit 1
        fi
    done
}

# place NUMBER COLUMN PLACE: the figure at this place of those in this column of $work/NUMBER.times, from the least on.
place() {
    cut -d ' ' -f "$2" "$work/$1.times" | sort -n | sed -n "$3p"
}
middle=$(((runs + 1) / 2))

# publishing WORKERS SUBMITTERS SUBSCRIBERS: a row for each number of reclaimed subscriptions.
publishing() {
    measure "$@" 256 16 "$items"
    first="$(place 0 1 "$middle") $(place 0 1 1)"
    for count in $counts; do
        echo "$* $count $(place "$count" 1 "$middle") $(place "$count" 1 1) $(place "$count" 2 "$middle") $first"
    done | awk -v items="$items" '{
        printf "%7d %10d %11d %9d %8.1f %5.3f %7.1f %5.3f %9.3f\n", $1, $2, $3, $4, $5 / items, $5 / $8, $6 / items, $6 / $9, $7 / 1e6
    }'
}

# reclaims CAPACITY: a row of a `reclaim` after each number of subscriptions. It frees a buffer, and whether the C library gives that memory
# back to the system at once depends on what lies behind it; so it is measured also with a C library that keeps all.
reclaims() {
    measure 1 1 1 "$1" 16 1
    for count in $counts; do
        echo "$1 $count $(place "$count" 3 "$middle") $(place "$count" 3 1)"
    done >"$work/reclaims"
    (
        export MALLOC_TRIM_THRESHOLD_=2000000000 MALLOC_TOP_PAD_=100000000
        measure 1 1 1 "$1" 16 1
    )
    for count in $counts; do
        echo "$(place "$count" 3 "$middle") $(place "$count" 3 1)"
    done | paste -d ' ' "$work/reclaims" - | awk '{ printf "%8d %7d %10d %7d %10d %7d\n", $1, $2, $3, $4, $5, $6 }'
}

# peak COUNT SUBMITTERS: the KiB at the peak of a run of one item. One submitter more than there may be ends it after the reclaims.
peak() {
    /usr/bin/time -o "$work/peak" -f %M "$work/this" left "$1" 1 "$2" 1 16 16 1 >"$work/out"
    cat "$work/peak"
}

# stay WHAT SUBMITTERS: a row of the bytes that stay of each reclaimed subscription.
stay() {
    few=$(peak 1000 "$2")
    many=$(peak 100000 "$2")
    echo "$few $many" | awk -v what="$1" '{ printf "%-14s %10d %12d %10.1f\n", what, $1, $2, ($2 - $1) * 1024 / 99000 }'
}

echo 'workers submitters subscribers reclaimed  ns/item ratio   least ratio finish_ms'
counts='0 1000 100000'
pinned='taskset -c 0'
publishing 1 1 0
publishing 1 1 1
publishing 1 1 4
pinned=
publishing 4 4 4

echo
echo 'capacity entries ns/reclaim   least ns_if_kept   least'
counts='100 1000 10000 100000'
reclaims 16
reclaims 256

echo
echo 'peak           KiB, 1,000 KiB, 100,000 bytes_each'
stay 'before finish' 257
stay 'of the run' 1
