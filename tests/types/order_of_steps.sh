#!/bin/sh
# Steps that may be taken in one order only don't compile in another: each body CRATE/*.edit beside this is refused by the compiler, and for no
# other reason. It needs the toolchain's command `rt` and Python 3, and takes ten seconds for each body.
exec python3 "$(dirname "$0")/order_of_steps.py" "$@"
