#!/bin/sh
# Runs `lines_demo threads` with many sources, subscribers and lines, and checks each line of the reports, for half a minute.
# `tests/threads/soak.sh --whole` has 16 sources of 10,000 lines each for 64 subscribers in every run, with capacities of 1, 4 and 256 and
# 1 to 8 workers, and takes some ten minutes.
# It needs the native program, which `rt ci` and `./play --build` leave in crates/lines_demo/out, and Python 3.
set -eu
cd "$(dirname "$0")/../.."
. tests/program.sh
begin lines_demo
python3 tests/threads/soak.py "$program" "$@"
