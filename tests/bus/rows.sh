#!/bin/sh
# Runs the native program of crates/bus_example: as it is; with a full disk, so that its last flush fails; and with the Nth request for
# memory refused, for N from 1 up to a run that meets no refusal. Lines that were lost are no success: its status is 0 only if all was
# published and written.
# It needs the program, which `rt ci` leaves in crates/bus_example/out, and gcc.
set -eu
cd "$(dirname "$0")/../.."
. tests/program.sh
begin bus_example
program=$(realpath "$program")
wanted=$(realpath crates/bus_example/stdout)
gcc -shared -fPIC -O1 -Wall -Werror -o "$work/refuse.so" tests/refused_memory/refuse.c
cd "$work"
failures=0

# The most requests that are refused in turn.
MOST=5000

# fault WHAT
fault() {
    echo "$row: $1"
    failures=$((failures + 1))
}

# runs STATUS ERROR: a run has to end so, with this as its last line on standard error, if it is to fail.
runs() {
    status=0
    timeout 600 "$program" >out 2>err || status=$?
    [ "$status" -eq "$1" ] || fault "status $status"
    cmp "$wanted" out >cmp 2>&1 || fault "standard output: $(cat cmp)"
    [ "$1" -eq 0 ] || [ "$(tail -n 1 err)" = "$2" ] || fault "standard error: $(cat err)"
}

row='all lines'
runs 0
# Two of the three sources wait for room.
[ "$(wc -l <events.log)" -ge 200 ] || fault "$(wc -l <events.log) lines in events.log"

row='a full disk'
if [ -c /dev/full ]; then
    ln -sf /dev/full events.log
    runs 1 'Error: the last lines could not be written to events.log'
    rm events.log
fi

row='refused memory'
n=1
while [ "$n" -le "$MOST" ]; do
    status=0
    timeout 600 env REFUSE="$n" LD_PRELOAD="$work/refuse.so" "$program" >out 2>err || status=$?
    grep -q '^request refused' err || break
    case $status in
    0) cmp -s "$wanted" out || fault "request $n: status 0, and it printed: $(cat out)" ;;
    1) grep -q '^Error: ' err || fault "request $n: no word of what is wrong" ;;
    *) fault "request $n: status $status" ;;
    esac
    n=$((n + 1))
done
[ "$status" -eq 0 ] && [ "$n" -gt 1 ] || fault 'no request was refused, or a run with ample memory fails'

[ "$failures" -eq 0 ] || exit 1
echo "no line is lost with status 0; $((n - 1)) requests were refused in turn"
