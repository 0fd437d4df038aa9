#!/bin/sh
# Runs the program fanout on files, pipes and devices, and looks at what it writes, at its report and at its status; and plays drawn runs.
# It needs the native program, which `rt ci` leaves in crates/fanout/out, gcc, and Python 3.
set -eu
cd "$(dirname "$0")/../.."
. tests/program.sh
begin fanout
gcc -shared -fPIC -O1 -Wall -Wextra -Werror -o "$work/moody.so" tests/fanout/moody.c
python3 -X utf8 tests/fanout/rows.py "$program" "$work"
