#!/bin/sh
# Measures `fanout` beside `tee`, `tee | grep` and the JDK's SubmissionPublisher (bench/java/Fanout.java), each of which writes the same lines of 74
# bytes to new files, which are compared. A row has the medians of the clock, of the processors' time and of the peak memory of runs in turns,
# each of a new process. A run beside which the machine's host took more than 2.5 % of the processors says nothing, and is made again. The last
# row has a pipe that nobody reads: `tee` doesn't end there. Without javac Java is left out.
# These are the last rows of peers.sh, alone.
# Usage: PROGRAM=FILE bench/fanout.sh [RUNS [LINES [ROWS]]] (5 and 1,000,000). The file is the native program of fanout; without a name it is
# the one that `rt ci` leaves in crates/fanout/out. ROWS is a file to which the rows are added as picture.py reads them.
set -eu
cd "$(dirname "$0")/.."
. tests/program.sh
begin fanout
mkdir "$work/files" "$work/classes"
classes=
if command -v javac >/dev/null; then
    javac -d "$work/classes" bench/java/Fanout.java
    classes=$work/classes
fi
python3 bench/fanout.py "$program" "$work/files" "${3:-$work/rows}" "${1:-5}" "${2:-1000000}" ${classes:+"$classes"}
