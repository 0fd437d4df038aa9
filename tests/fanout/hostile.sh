#!/bin/sh
# Plays 200 drawn runs of the program fanout, or as many as asked for, with sources and sinks that fail, stall, close and are full, and judges
# each by what docs/FANOUT.md says.
# Usage: tests/fanout/hostile.sh [RUNS [FIRST]]
# It needs the native program, which `rt ci` leaves in crates/fanout/out, gcc, and Python 3.
set -eu
cd "$(dirname "$0")/../.."
. tests/program.sh
begin fanout
gcc -shared -fPIC -O1 -Wall -Wextra -Werror -o "$work/moody.so" tests/fanout/moody.c
python3 tests/fanout/hostile.py "$program" "$work" "${1:-200}" "${2:-1}"
