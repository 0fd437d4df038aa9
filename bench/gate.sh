#!/usr/bin/env bash
# Measures what the gate costs for each crate, in seconds of the clock and of processors: its proof, its tests (proved from
# nothing, built and run), its wrong bodies (from nothing, over built crates below), and the native builds of a program by both
# compilers, over kept work. One command runs at a time, with one job, in a copy of the repository in a temporary folder, lowest
# crate first; so it takes longer by the clock than .ci/run, and sets no bounds.
# Usage: bench/gate.sh [NAME..]; without names all crates of crates.txt.
set -u
cd "$(dirname "${BASH_SOURCE[0]}")/.." || exit 1
work=$(mktemp -d) || exit 1
trap 'rm -rf "$work"' EXIT
tar -c --exclude=./.git --exclude='crates/*/out' . | tar -x -C "$work" || exit 1
cd "$work" || exit 1
. tests/program.sh
TIMEFORMAT='%R %U %S'

# spent FOLDER COMMAND..: runs it there, and adds its seconds to the row.
spent() {
    local folder=$1 wall user system
    shift
    { time (cd "$folder" && "$@" </dev/null >"$work/log" 2>&1); } 2>"$work/time" || {
        echo "$crate: failed: $*" >&2
        tail -n 5 "$work/log" >&2
    }
    read -r wall user system < <(tail -n 1 "$work/time")
    row="$row $wall $(echo "$user $system" | awk '{ print $1 + $2 }')"
}

# none: nothing to measure in this column.
none() {
    row="$row 0 0"
}

# from_nothing FOLDER COMMAND..: as spent, with the crate's kept work set aside.
from_nothing() {
    mv "$out/incremental" "$out/aside"
    spent "$@"
    rm -rf "$out/incremental"
    mv "$out/aside" "$out/incremental"
}

# measure: one row, for $crate.
measure() {
    row=$crate
    out=crates/$crate/out
    spent "crates/$crate" rt check --jobs 1
    if grep -rq '#\[test\]' "crates/$crate/src"; then
        from_nothing "crates/$crate" rt test --jobs 1
    else
        none
    fi
    if compgen -G "crates/$crate/wrong-bodies/*.edit" >/dev/null; then
        from_nothing . tools/wrong_bodies/try.py --all --jobs 1 --proved "$(tools/wrong_bodies/try.py --sum "$crate")" "$crate"
    else
        none
    fi
    if [ -f "crates/$crate/src/main.rt" ]; then
        spent "crates/$crate" sh -c 'rt run --jobs 1 -- --help && rt run --jobs 1 --backend rattle -- --help'
    else
        none
    fi
    echo "$row"
}

# table: the rows with their sums.
table() {
    awk 'BEGIN {
        printf "%-14s %15s %15s %15s %15s %15s\n", "", "proof", "tests", "wrong bodies", "native builds", "whole"
        printf "%-14s", "crate"
        for (i = 0; i < 5; i++) printf " %7s %7s", "clock", "proc."
        print ""
    }
    function line(name) {
        printf "%-14s", name
        for (i = 1; i <= 10; i++) printf " %7.0f", cell[i]
        print ""
    }
    {
        cell[9] = cell[10] = 0
        for (i = 1; i <= 8; i++) { cell[i] = $(i + 1); cell[9 + (i + 1) % 2] += cell[i] }
        for (i = 1; i <= 10; i++) sum[i] += cell[i]
        line($1)
    }
    END {
        for (i = 1; i <= 10; i++) cell[i] = sum[i]
        line("all")
    }'
}

wanted=" ${*:-$(sed -n 's/^\([a-z0-9_]*\)[ :].*/\1/p' crates.txt | tr '\n' ' ')} "
for crate in $(for name in $wanted; do below "$name" | tac; done | awk '!seen[$0]++'); do
    case $wanted in
    *" $crate "*) measure ;;
    esac
    # The crates above it take it built.
    if [ -f "crates/$crate/src/lib.rt" ]; then
        (cd "crates/$crate" && rt lib --jobs 1 </dev/null >"$work/log" 2>&1) || tail -n 5 "$work/log" >&2
    fi
done | tee "$work/rows" | sed -u 's/^\([^ ]*\) .*/measured: \1/' >&2
table <"$work/rows"
