#!/bin/sh
# Holds each block of code of README.md, docs/GUIDE.md and docs/SCRIPTS.md to the repository: it stands in the source that it names, or the
# native programs print it. It needs these, which `rt ci` leaves in crates/lines_demo/out and crates/console/out, and Python 3.
set -eu
cd "$(dirname "$0")/../.."
. tests/program.sh
begin lines_demo
need console crates/console/out/console
python3 tests/documents/blocks.py "$program" "$work"
