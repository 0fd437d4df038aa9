#!/bin/sh
# Plays two scripts cut after each of their bytes on the native program, and compares the answers with the definition of scripts.
# It needs the program, which `rt ci` and `./play --build` leave in crates/lines_demo/out, and Python 3.
set -eu
cd "$(dirname "$0")/../.."
. tests/program.sh
begin lines_demo
python3 tests/scripts/cut.py "$program" tests/scripts/items_below_the_demand.script examples/first.script
