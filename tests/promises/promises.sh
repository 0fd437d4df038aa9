#!/bin/sh
# Holds docs/PROMISES.md and docs/promises/ to the crates: the pages are what is printed from these, each edit stands in a row, and all that is
# named is there. With --write it writes the pages. It needs Python 3.
exec python3 "$(dirname "$0")/promises.py" "$@"
