#!/bin/sh
# Runs the native program as accidents and attackers do: names and texts of every byte, a standard output that is closed in the middle,
# signals, a stack of 256 KiB, no descriptor to open a file with, and threads that can't be started.
# It needs the program, which `rt ci` and `./play --build` leave in crates/lines_demo/out, gcc, and Python 3.
set -eu
cd "$(dirname "$0")/../.."
. tests/program.sh
begin lines_demo
gcc -shared -fPIC -O1 -Wall -Wextra -Werror -o "$work/no_thread.so" tests/accidents/no_thread.c
python3 tests/accidents/accidents.py "$program" "$work/no_thread.so"
