#!/bin/sh
# Drives the program console through pipes, line by line, and looks at what it prints.
# It needs the native program, which `rt ci` leaves in crates/console/out, and Python 3.
set -eu
cd "$(dirname "$0")/../.."
. tests/program.sh
begin console
python3 tests/console/rows.py "$program"
