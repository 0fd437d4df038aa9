#!/bin/sh
# Runs `fanout` with the Nth request for memory refused, with all from the Nth on, and with the Nth thread not started, for N from 1 up to a
# run that meets no refusal. Each has to end by itself within forty seconds, and as fanout.py says.
# It needs the native program, which `rt ci` leaves in crates/fanout/out, gcc, and Python 3.
set -eu
cd "$(dirname "$0")/../.."
. tests/program.sh
begin fanout
gcc -shared -fPIC -O1 -Wall -Werror -o "$work/refuse.so" tests/refused_memory/refuse.c
gcc -shared -fPIC -O1 -Wall -Wextra -Werror -o "$work/no_thread.so" tests/accidents/no_thread.c
python3 tests/refused_memory/fanout.py "$program" "$work/refuse.so" "$work/no_thread.so"
