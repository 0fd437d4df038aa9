#!/bin/sh
# Runs native tests of texts, counts, pools, Hubs, cells, publishers and inboxes with the Nth request for memory refused, for N from 1 up to a run
# that meets none. Each run has to end by itself, within ten minutes, either well or with the error that a refusal gives.
#
# It fails, too, where a run does not say that its test was run, and where no request of a test was refused, as when the
# library that refuses is not loaded; and where a text asks for more memory than it has to.
#
# It needs the native tests, which `rt test` leaves in crates/NAME/out, and gcc. TESTS names another folder in the place of crates.
set -eu
cd "$(dirname "$0")/../.."
. tests/program.sh
for name in core_tests hub_tests publisher_tests day_tests inbox_tests; do
    need "$name" "${TESTS:-crates}/$name/out/${name}_tests"
done
core=${TESTS:-crates}/core_tests/out/core_tests_tests
hub=${TESTS:-crates}/hub_tests/out/hub_tests_tests
publisher=${TESTS:-crates}/publisher_tests/out/publisher_tests_tests
days=${TESTS:-crates}/day_tests/out/day_tests_tests
inboxes=${TESTS:-crates}/inbox_tests/out/inbox_tests_tests
work=$(mktemp -d)
trap 'rm -rf "$work"' EXIT
gcc -shared -fPIC -O1 -Wall -Werror -o "$work/refuse.so" tests/refused_memory/refuse.c

MOST=5000
tried=0
failures=0

# one PROGRAM TEST N: runs it, and prints `met`, `none`, or what went wrong.
one() {
    status=0
    timeout 600 env REFUSE="$3" LD_PRELOAD="$work/refuse.so" "$1" "$2" >"$work/out" 2>"$work/err" || status=$?
    if [ "$status" -eq 0 ]; then
        # A program that ran one test says so.
        if ! grep -q '^test result: ok' "$work/out"; then
            echo "no test was run"
            return
        fi
    elif ! { [ "$status" -eq 101 ] &&
        grep -qE '^error: (NoMemory|AllocError|AllocFailed|SpawnError|Refused \{ refusal: NoMemory,)' "$work/err"; }; then
        echo "status $status"
        return
    else
        grep '^error: ' "$work/err" >>"$work/errors"
    fi
    if grep -q '^request refused' "$work/err"; then
        echo met
    elif [ "$status" -ne 0 ]; then
        echo "an error with no refusal"
    else
        echo none
    fi
}

# each PROGRAM TEST: refuses its requests in turn.
each() {
    tried=$((tried + 1))
    n=1
    runs=1
    while [ "$n" -le "$MOST" ]; do
        answer=$(one "$1" "$2" "$n")
        case $answer in
        met)
            n=$((n + 1))
            runs=1
            ;;
        none)
            if [ "$n" -eq 1 ]; then
                echo "$2: no request was refused"
                failures=$((failures + 1))
            else
                echo "$2: $((n - 1)) requests, each refused in turn"
            fi
            return
            ;;
        *)
            # A day naps while its workers tell. If the host stops one for longer than that, the day ends otherwise; but not three times.
            if [ "$1" = "$days" ] && [ "$runs" -lt 3 ]; then
                runs=$((runs + 1))
                continue
            fi
            echo "$2: request $n refused: $answer"
            cat "$work/err"
            failures=$((failures + 1))
            return
            ;;
        esac
    done
    echo "$2: still refused at request $MOST"
    failures=$((failures + 1))
}

# asks_for MANY PROGRAM TEST: the last of its MANY requests is refused, and there are no more.
asks_for() {
    tried=$((tried + 1))
    last=met
    [ "$1" -eq 0 ] || last=$(one "$2" "$3" "$1")
    next=$(one "$2" "$3" $(($1 + 1)))
    if [ "$last" = met ] && [ "$next" = none ]; then
        echo "$3: requests: $1"
    else
        echo "$3: not $1 requests for memory: $last, then $next"
        failures=$((failures + 1))
    fi
}

asks_for 0 "$core" tests::texts::a_short_text_asks_for_no_memory
asks_for 1 "$core" tests::texts::a_text_of_111_bytes_asks_for_memory_once
each "$core" tests::texts::a_long_text_asks_for_memory
for name in a_refusal_is_answered the_last_of_three_is_true no_two_of_one_count_are_the_last of_all_one_is_the_last; do
    each "$hub" "tests::count::$name"
done
for name in alone::a_refusal_is_answered alone::a_full_pool_gives_the_job_back alone::a_shut_pool_gives_the_job_back \
    alone::stop_gives_the_jobs_left_in_order threads::each_job_of_two_workers_ran_twice \
    threads::a_job_need_not_be_sync sleepers::a_shut_ends_all_that_sleep; do
    each "$hub" "tests::pool::$name"
done
each "$hub" tests::hub::the_last_serial_number_is_given_once
each "$hub" tests::hub::a_hub_serves_three_subscriptions_until_it_is_closed
each "$core" tests::cells::a_life_is_whole_or_is_refused_memory
each "$days" tests::a_refusal_changes_nothing_else
for name in refusing::a_refused_call_changes_nothing errors::an_error_of_one_subscription_is_no_completion \
    ends::an_inbox_is_told_of_an_error_and_of_its_cancel queues::a_cut_queue_gives_nothing; do
    each "$inboxes" "tests::$name"
done
each "$publisher" tests::submitters::one_submitter_more_than_there_may_be_is_refused
# Whoever asks for one submitter too many is refused memory first, if that is short.
if ! grep -q ', of one submitter more$' "$work/errors"; then
    echo "no request of the last submitter was refused"
    failures=$((failures + 1))
fi
echo "$tried tests, $failures failed"
[ "$tried" -gt 0 ] && [ "$failures" -eq 0 ]
