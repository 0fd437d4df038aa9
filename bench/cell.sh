#!/bin/sh
# Measures the time for each item that one thread puts into a subscription of feed_cell and that turns in another thread give to its
# subscriber, at several capacities (crates/cell_bench). All items are requested before. Beside it stand peers: the same steps on bare
# words in C (bench/cell_bare.c), which lie as in the cell; apart, each word in lines of its own; and apart with a task that frees many places
# at a time (late), which the cell's doesn't; and the kit's crossbeam_queue::ArrayQueue, through which the items go
# with no subscriber, no demand and no task. It prints the time of each, and the ratios. A task that a put starts goes to the other thread
# through a queue of one place, in C too. Both threads try again at once, and the order is checked. The runs alternate.
# The program is proved and built in a temporary folder, or is PROGRAM, one that was built before. Usage: bench/cell.sh [ITEMS [RUNS [CAPACITY..]]]; each figure is the median of RUNS
# runs of ITEMS items (1,000,000 and 5; 1, 4, 256 and 65,536). It needs a C compiler, and two processors that are free.
set -eu
[ -z "${PROGRAM-}" ] || PROGRAM=$(realpath -e "$PROGRAM")
cd "$(dirname "$0")/.."
items=${1:-1000000}
runs=${2:-5}
shift "$(($# < 2 ? $# : 2))"
capacities=${*:-1 4 256 65536}
work=$(mktemp -d)
trap 'rm -rf "$work"' EXIT
. bench/build.sh

cc -O2 -pthread -o "$work/bare" bench/cell_bare.c
cc -O2 -pthread -DAPART -o "$work/apart" bench/cell_bare.c
cc -O2 -pthread -DAPART -DFREES_LATE -o "$work/late" bench/cell_bare.c
program=${PROGRAM:-$work/cell_bench}
[ -n "${PROGRAM-}" ] || build cell_bench . "$program" size
slot=$("$program" size)

# once KIND CAPACITY: the nanoseconds of one run.
once() {
    case $1 in
    bare | apart | late) "$work/$1" "$2" "$items" "$slot" ;;
    *) "$program" "$1" "$2" "$items" ;;
    esac
}

# median FILE: the nanoseconds for each item, of the run in the middle.
median() {
    sort -n "$1" | sed -n "$(((runs + 1) / 2))p" | awk -v items="$items" '{ printf "%.1f", $1 / items }'
}

printf 'a slot has %s bytes\n' "$slot"
printf 'capacity cell_ns bare_ns apart_ns late_ns queue_ns cell/bare apart/bare late/bare cell/queue\n'
for capacity in $capacities; do
    rm -f "$work"/times.*
    times=0
    while [ "$times" -lt "$runs" ]; do
        for kind in cell bare apart late queue; do
            once "$kind" "$capacity" >>"$work/times.$kind"
        done
        times=$((times + 1))
    done
    for kind in cell bare apart late queue; do
        # A run that failed printed nothing.
        [ "$(wc -l <"$work/times.$kind")" -eq "$runs" ] || {
            echo "a run of $kind failed"
            exit 1
        }
    done
    for kind in cell bare apart late queue; do median "$work/times.$kind"; echo; done | xargs |
        awk -v capacity="$capacity" '{ printf "%8d %7.1f %7.1f %8.1f %7.1f %8.1f %9.2f %10.2f %9.2f %10.2f\n", capacity, $1, $2, $3, $4, $5, $1 / $2, $3 / $2, $4 / $2, $1 / $5 }'
done
