#!/usr/bin/env python3
"""Runs a console, and spoils what it prints of its first subscriber, s1: tck.sh --spoilt shows that the TCK notices.

usage: SPOILT=KIND CONSOLE=PROGRAM spoil.py WORD..

KIND is one of the kinds below. Without CONSOLE it prints them, a line each.
"""

import os
import subprocess
import sys
import threading

NEXT, COMPLETE, ERROR = b"s1 next ", b"s1 complete\n", b"s1 error "
EXTRA = NEXT + b"99\n"


class Seen:
    """What s1 requested and was given, and how many lines of each kind came of it."""

    def __init__(self):
        self.requested = self.given = 0
        self.is_over = False

    def typed(self, line):
        if line.startswith(b"request s1 "):
            self.requested += max(int(line.split()[2]), 0)

    def gives(self, line):
        """Whether this is an item of s1, which is counted."""
        self.given += line.startswith(NEXT)
        return line.startswith(NEXT)


def complete_twice(seen, line):
    return [line, line] if line == COMPLETE else [line]


def item_after_complete(seen, line):
    return [line, EXTRA] if line == COMPLETE else [line]


def error_twice(seen, line):
    return [line, line] if line.startswith(ERROR) else [line]


def no_demand(seen, line):
    return [line, EXTRA] if line == b"s1 subscribed\n" else [line]


def one_too_many(seen, line):
    return [line, EXTRA] if seen.gives(line) and seen.given == seen.requested else [line]


def order_swapped(seen, line):
    return [{NEXT + b"0\n": NEXT + b"1\n", NEXT + b"1\n": NEXT + b"0\n"}.get(line, line)]


def a_drop(seen, line):
    return [] if seen.gives(line) and seen.given == 1 else [line]


def subscribed_twice(seen, line):
    return [line, line] if line == b"s1 subscribed\n" else [line]


def no_complete(seen, line):
    return [] if line == COMPLETE else [line]


def complete_early(seen, line):
    if seen.is_over and line.startswith(b"s1 "):
        return []
    seen.is_over |= seen.gives(line)
    return [line, COMPLETE] if line.startswith(NEXT) else [line]


KINDS = (complete_twice, item_after_complete, error_twice, no_demand, one_too_many, order_swapped, a_drop, subscribed_twice, no_complete, complete_early)


def type_all(console, seen):
    """Hands on each line that is typed."""
    for line in sys.stdin.buffer:
        seen.typed(line)
        console.stdin.write(line)
        console.stdin.flush()
    console.stdin.close()


def main(words):
    if "CONSOLE" not in os.environ:
        print("\n".join(kind.__name__ for kind in KINDS))
        return 0
    spoil = next(kind for kind in KINDS if kind.__name__ == os.environ["SPOILT"])
    console = subprocess.Popen([os.environ["CONSOLE"], *words], stdin=subprocess.PIPE, stdout=subprocess.PIPE)
    seen = Seen()
    threading.Thread(target=type_all, args=(console, seen), daemon=True).start()
    for line in console.stdout:
        sys.stdout.buffer.write(b"".join(spoil(seen, line)))
        sys.stdout.buffer.flush()
    return console.wait()


if __name__ == "__main__":
    sys.exit(main(sys.argv[1:]))
