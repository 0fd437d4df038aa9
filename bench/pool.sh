#!/bin/sh
# Measures how many short jobs a second a pool of async_pool runs, with 1, 2, 4 and 8 workers and with 1 and 4 callers of `execute`: jobs that
# run once, and jobs that run ten times each, which go back to the pool in between (crates/pool_bench). Beside it stand the same runs
# over a channel of Rust's std with as many threads (pool_channel.rs), and with OTHER_CHECKOUT, another clone of this repository, the same
# program over the pool of that clone, all in turns. A row has the runs a second of each, and the ratio of this pool's to each other's; and, of
# this pool, to one worker's.
# Usage: bench/pool.sh [OTHER_CHECKOUT [RUNS [JOBS]]]; '' for no other checkout. Each figure is the median of RUNS runs of JOBS runs of a job
# (5 and 1,000,000). The programs are proved and built in a temporary folder, each in about a minute of a processor over what its checkout has
# proved already, and else in some three more. It needs rustc.
set -eu
other=${1:-}
[ -z "$other" ] || other=$(realpath -e "$other")
cd "$(dirname "$0")/.."
runs=${2:-5}
jobs=${3:-1000000}
work=$(mktemp -d)
trap 'rm -rf "$work"' EXIT
. bench/build.sh

# median NAME: the nanoseconds of the run in the middle, of this program's.
median() {
    # A run that failed printed nothing.
    if [ "$(wc -l <"$work/$1.times")" -ne "$runs" ]; then
        echo "a run of $1 failed" >&2
        exit 1
    fi
    sort -n "$work/$1.times" | sed -n "$(((runs + 1) / 2))p"
}

# row AGAIN CALLERS WORKERS: a row.
row() {
    rm -f "$work"/*.times
    run=0
    while [ "$run" -lt "$runs" ]; do
        for name in $names; do
            "$work/$name" "$3" "$2" $((jobs / ($1 + 1))) "$1" >>"$work/$name.times"
        done
        run=$((run + 1))
    done
    for name in $names; do median "$name"; done >"$work/medians"
    spent=$(xargs <"$work/medians")
    [ "$3" != 1 ] || one=${spent%% *}
    echo "$spent" | awk -v again="$1" -v callers="$2" -v workers="$3" -v one="$one" -v jobs="$jobs" '{
        printf "%5d %7d %7d %11.0f %6.2f", again + 1, callers, workers, jobs * 1e9 / $1, one / $1
        for (i = 2; i <= NF; i++) printf " %12.0f %6.2f", jobs * 1e9 / $i, $i / $1
        print ""
    }'
}

rustc -O -o "$work/channel" bench/pool_channel.rs
build pool_bench . "$work/this" 1 1 1 0
names='this channel'
title='   channel/s  ratio'
if [ -n "$other" ]; then
    build pool_bench "$other" "$work/other" 1 1 1 0
    names='this other channel'
    title="     other/s  ratio$title"
fi
jobs=$((jobs / 40 * 40))
echo " runs callers workers      this/s of_one$title"
for again in 0 9; do
    for callers in 1 4; do
        for workers in 1 2 4 8; do
            row "$again" "$callers" "$workers"
        done
    done
done
