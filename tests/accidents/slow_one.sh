#!/bin/sh
# Publishes a million items to four subscriptions of eight places, one of which is slow and may lose items: the other three are told all and
# have dropped nothing; the slow one was told and has dropped a million in all, and dropped what the answers told of.
# It needs the native tests, which `rt test` leaves in crates/publisher_tests/out. TESTS names another folder in the place of crates.
set -eu
cd "$(dirname "$0")/../.."
. tests/program.sh
tests=${TESTS:-crates}/publisher_tests/out/publisher_tests_tests
need publisher_tests "$tests"
out=$(mktemp)
trap 'rm -f "$out"' EXIT

ITEMS=1000000 timeout 600 "$tests" tests::policy::a_slow_one_loses_and_three_get_all >"$out" 2>&1 || {
    cat "$out" >&2
    exit 1
}
grep -q '^test result: ok' "$out" || {
    echo 'no test was run' >&2
    exit 1
}
echo '1000000 items: three were told all, and the slow one was told or dropped each'
