#!/bin/sh
# Runs `lines_demo threads` on rows of command lines and inputs, and compares the output, standard error and the status.
# It needs the native program, which `rt ci` and `./play --build` leave in crates/lines_demo/out, and Python 3.
set -eu
cd "$(dirname "$0")/../.."
. tests/program.sh
begin lines_demo
python3 tests/threads/rows.py "$program"
