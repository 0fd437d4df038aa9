#!/bin/sh
# Plays each script of this folder, and three rows of tests/scripts, on the native program with the Nth request for memory refused, for N
# from 1 up to a run that meets no refusal, and three of them also on subscribers that keep nothing. judge.py says what a run may do.
# It needs the program, which `rt ci` and `./play --build` leave in crates/lines_demo/out, gcc, and Python 3.
set -eu
cd "$(dirname "$0")/../.."
. tests/program.sh
begin lines_demo
gcc -shared -fPIC -O1 -Wall -Werror -o "$work/refuse.so" tests/refused_memory/refuse.c
python3 tests/refused_memory/judge.py "$program" "$work/refuse.so" tests/refused_memory/*.script \
    tests/scripts/items_below_the_demand.script tests/scripts/many_items_to_two.script \
    tests/scripts/second_subscriber_of_a_name.script
python3 tests/refused_memory/judge.py "$program" "$work/refuse.so" --forget tests/refused_memory/one_subscriber.script tests/refused_memory/many_subscribers.script tests/refused_memory/endings.script
