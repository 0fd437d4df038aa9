#!/bin/sh
# Holds docs/API.md to the sources of `publisher` and `inbox`: it is what is printed from these. With --write it writes the page. It needs
# Python 3.
exec python3 "$(dirname "$0")/api.py" "$@"
