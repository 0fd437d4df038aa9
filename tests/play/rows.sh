#!/bin/sh
# Runs `./play` on files, pipes, terminals and wrong command lines, with the native program and with a stand-in for the command rt and for
# what compiles without proof.
# It needs the native program, which `rt ci` and `./play --build` leave in crates/lines_demo/out, and Python 3.
set -eu
cd "$(dirname "$0")/../.."
. tests/program.sh
begin lines_demo
python3 tests/play/rows.py "$program" "$work"
