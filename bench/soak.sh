#!/bin/sh
# Publishes from 8 threads to 8 subscribers at a time until this many deliveries were made, and checks each of them (bench/soak). A
# delivery is an item that one subscriber is told. Six sources submit, two offer. Eight more threads own the subscriptions, one slot each. The
# first subscriber requests everything; the second requests one item more in each callback; the owners of the next three request 1,000 or 64
# items whenever these were told, or 1 to 4,096 while some are left. The last three come and go: one cancels in its callback; one is
# cancelled by its owner, or gets a bad request, while items come, and is reclaimed then; and one is cancelled by its owner once its demand is
# used up.
# Every second one of those that end in their callbacks fails there. Each of the last three is reclaimed.
# It prints what was checked, how much, and the rate, and ends with status 1 if anything was not as it should be, or if the run has not
# ended after LIMIT seconds.
# Usage: bench/soak.sh [DELIVERIES [WORKERS [CAPACITY [LIMIT]]]]; 1,000,000, 4, 16 and 3,600. DELIVERIES are 4,000,000,000 at most.
# The program (bench/soak) is compiled in a temporary folder by `rt try`, with a check of each access to memory, and is not proved: the closures
# of its owners' threads are stated of all that a publisher and a subscription are made of, which is at the prover's limit of steps. So its
# files don't end in .rt, since the gate has each such file proved. It takes a minute or two to compile.
# With FAST=1 it is compiled by tools/unproved.sh in the place of that, optimised and without those checks, and its memory is printed each ten
# seconds, in KiB.
set -eu
cd "$(dirname "$0")/.."
deliveries=${1:-1000000}
workers=${2:-4}
capacity=${3:-16}
limit=${4:-3600}
work=$(mktemp -d)
trap 'rm -rf "$work"' EXIT
. bench/build.sh

soak_room "$work/room"
status=0
# fast WORD..: compiles the program optimised, and runs it with these words; its memory goes to standard error.
fast() {
    local child
    cp -r tools "$work/room/"
    mkdir "$work/room/tests"
    cp tests/program.sh "$work/room/tests/"
    "$work/room/tools/unproved.sh" soak 2>"$work/said" || return
    timeout "$limit" "$work/room/crates/soak/out/unproved/soak" "$@" &
    child=$!
    while sleep 10 && kill -0 "$child" 2>/dev/null; do
        sed -n 's/^VmRSS: *//p' "/proc/$(pgrep -P "$child" || echo "$child")/status" >&3
    done
    wait "$child"
}

if [ "${FAST-}" = 1 ]; then
    fast "$workers" "$capacity" "$deliveries" >"$work/sums" 3>&2 </dev/null || status=$?
else
    (cd "$work/room/crates/soak" && timeout "$limit" rt try soak --seconds "$limit" --steps 1000000000000000 -- \
        "$workers" "$capacity" "$deliveries") >"$work/sums" 2>"$work/said" </dev/null || status=$?
fi
if [ "$status" -eq 124 ]; then
    echo "it had not ended after $limit seconds, the minute or two of the compiler among them"
    exit 1
elif [ "$status" -ne 0 ] || [ "$(wc -w <"$work/sums")" -ne 10 ]; then
    echo "the program gave no sums, with status $status: is it the number of workers (1 to 8), the capacity, or the deliveries?"
    exit 1
fi
read -r published told lanes completed cancelled errored failed drops faults nanoseconds <"$work/sums"
cat <<TEXT
$workers workers, capacity $capacity, $(nproc) processors
8 sources published $published items; their offers were dropped $drops times
$lanes subscriptions were told $told items; $completed completed, $cancelled were cancelled, $errored had an error,
$failed failed
checked of each item: its subscriber was subscribed and had no end, and had requested it; its serial number is above those before, and its
number above those of its source before; its text is the one of its source and number; and nobody was told another item of this serial number
checked at the end: what each subscription accepted and dropped is what was published since, if it completed, and else no more; who completed
was told all that it accepted; each was told what its subscriber counted; what was published is what the sources counted, and so is
what was dropped; and every subscription has an end
TEXT
awk -v told="$told" -v spent="$nanoseconds" 'BEGIN { printf "%.0f deliveries a second, in %.1f s\n", told * 1e9 / spent, spent / 1e9 }'
if [ "$faults" -ne 0 ]; then
    echo "FAULTS: $faults"
    exit 1
fi
echo 'faults: 0'
