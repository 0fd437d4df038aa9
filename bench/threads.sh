#!/bin/sh
# Measures how many lines a second the native program publishes from 4 sources of 50,000 lines to 4 subscribers, at capacities of 4,
# 256 and 65,536 with 1, 2 and 4 workers, how much memory it has at its peak, and how often one of its threads went to
# sleep (its voluntary context switches); and prints the time as a ratio to one worker, and to the same work with no publisher:
# copy_lines.c copies each source's lines to a list of each subscriber in one thread, and writes the same report.
# All of that has the reading of the input and the writing of the report in it.
# It sets no bounds. It needs the program, which `rt ci` and `./play --build` leave in crates/lines_demo/out, gcc, and GNU time.
# Usage: bench/threads.sh [RUNS]; each figure is the median of RUNS runs (5).
set -eu
cd "$(dirname "$0")/.."
. tests/program.sh
begin lines_demo
runs=${1:-5}
gcc -O2 -Wall -Werror -o "$work/copy_lines" bench/copy_lines.c
awk 'BEGIN { for (k = 0; k < 50000; k++) for (s = 0; s < 4; s++) printf "%d the line %d of source %d\n", s, k, s }' >"$work/in"
lines=200000

# median COLUMN: the median of this column of $work/times.
median() {
    cut -d ' ' -f "$1" "$work/times" | sort -n | sed -n "$(((runs + 1) / 2))p"
}

# measure COMMAND..: sets seconds, KiB at the peak and switches to their medians. Each report has to be that of the first command.
measure() {
    : >"$work/times"
    for _ in $(seq "$runs"); do
        /usr/bin/time -a -o "$work/times" -f '%e %M %w' "$@" <"$work/in" >"$work/out"
        [ -f "$work/want" ] || cp "$work/out" "$work/want"
        cmp "$work/out" "$work/want" || exit 1
    done
    seconds=$(median 1) peak=$(median 2) switches=$(median 3)
}

# row NAME SECONDS_OF_ONE: prints what was measured.
row() {
    awk -v name="$1" -v lines=$lines -v s="$seconds" -v one="$2" -v copy="$copy" -v peak="$peak" -v switches="$switches" 'BEGIN {
        if (s <= 0) s = 0.01
        printf "%-32s %9.0f lines/s  %7.0f KiB  %8d sleeps  %5.2f of one worker  %6.2f of no publisher\n", name, lines / s, peak, switches, s / one, s / copy
    }'
}

measure "$work/copy_lines" a b c d
copy=$(awk -v s="$seconds" 'BEGIN { print (s > 0 ? s : 0.01) }')
row 'no publisher' "$copy"
for capacity in 4 256 65536; do
    for workers in 1 2 4; do
        measure "$program" threads --workers "$workers" --cap "$capacity" a:200000 b:200000 c:200000 d:200000
        [ "$workers" != 1 ] || one=$(awk -v s="$seconds" 'BEGIN { print (s > 0 ? s : 0.01) }')
        row "capacity $capacity, $workers workers" "$one"
    done
done
