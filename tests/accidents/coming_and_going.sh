#!/bin/sh
# Has 64 subscriptions at a time come and go, 6,400 and then 102,400 in all, and compares the memory at the peak: what stays of each until the
# publisher is finished is bounded, and nothing else grows. Then it has 1,024 and 409,600 come, be told ten items by two threads, end in
# one way after the other, and be reclaimed: what stays of each is nothing.
# It needs the native tests, which `rt test` leaves in crates/publisher_tests/out, and gcc. TESTS names another folder in the place of
# crates.
set -eu
cd "$(dirname "$0")/../.."
. tests/program.sh
tests=${TESTS:-crates}/publisher_tests/out/publisher_tests_tests
need publisher_tests "$tests"
work=$(mktemp -d)
trap 'rm -rf "$work"' EXIT
gcc -O1 -Wall -Wextra -Werror -o "$work/peak" tests/ship/peak.c

# How many bytes may stay of a subscription of capacity 1: docs/GUIDE.md has what they are.
MOST=6752

# How many bytes may stay of one that was reclaimed: 2 are 798 KiB in all; runs of one kind differ by half of that, by the C library's memory.
MOST_RECLAIMED=2

# peak TEST ROUNDS: the KiB at the peak of so many rounds of 64 subscriptions.
peak() {
    ROUNDS="$2" timeout 600 "$work/peak" "$work/KiB" "$tests" "tests::$1" >"$work/out" 2>&1 || {
        cat "$work/out" >&2
        exit 1
    }
    grep -q '^test result: ok' "$work/out" || {
        echo 'no test was run' >&2
        exit 1
    }
    cat "$work/KiB"
}

few=$(peak coming::thousands_come_and_go 100)
many=$(peak coming::thousands_come_and_go 1600)
each=$(((many - few) * 1024 / 96000))
echo "$few KiB at the peak, and $many KiB: $each bytes stay of each subscription"
[ "$each" -gt 0 ] && [ "$each" -le "$MOST" ]

few=$(peak reclaiming::a_thousand_are_reclaimed 16)
many=$(peak reclaiming::a_thousand_are_reclaimed 6400)
each=$(((many - few) * 1024 / 408576))
echo "$few KiB at the peak, and $many KiB: $each bytes stay of each that was reclaimed"
[ "$each" -le "$MOST_RECLAIMED" ]
