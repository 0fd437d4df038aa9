#!/bin/sh
# Runs `lines_demo threads` with the Nth request for memory refused, for N from 1 up to a run that meets no refusal: two sources, and three
# with 4 workers and with 1, for two subscribers. Each run has to end by itself within ten seconds, and as threads.py says.
# It needs the program, which `rt ci` and `./play --build` leave in crates/lines_demo/out, gcc, and Python 3.
set -eu
cd "$(dirname "$0")/../.."
. tests/program.sh
begin lines_demo
gcc -shared -fPIC -O1 -Wall -Werror -o "$work/refuse.so" tests/refused_memory/refuse.c
python3 tests/refused_memory/threads.py "$program" "$work/refuse.so"
