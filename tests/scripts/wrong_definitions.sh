#!/bin/sh
# Compares the rows of scripts with the definition of scripts that judges them where memory is refused, and shows that they tell it from
# wrong ones. It needs no program, but Python 3.
set -eu
cd "$(dirname "$0")/../.."
exec python3 -B tests/scripts/wrong_definitions.py
