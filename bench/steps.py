#!/usr/bin/env python3
"""Counts the instructions that a program takes for each item, by function: a number that doesn't depend on what else the machine does, where
turns.py needs it quiet. It says nothing of waits, locks and memory.

usage: steps.py PROGRAM WORD..

The words are those of a run of deliveries_bench, as `fast 1 1 1 256 16 20000`; ITEMS is the seventh. The program runs once in valgrind, on one
processor at a time. What ran for less than half of the items, as the start and the end, is left out.
"""
import re
import subprocess
import sys
import tempfile
from collections import Counter
from pathlib import Path

ITEMS = 6
NAME = re.compile(r"c?fn=\((\d+)\)(?: (.*))?")
COST = re.compile(r"(\*|[+-]?(?:0x)?[0-9a-f]+) \S+ (\d+)")


def counts(lines):
    """How often each instruction ran, by its address and its function, of a report of callgrind."""
    names = {}
    found = Counter()
    function, address, of_a_call = None, 0, False
    for line in lines:
        if name := NAME.match(line):
            names.setdefault(name[1], name[2])
            if line.startswith("fn="):
                function = names[name[1]]
        elif line.startswith("calls="):
            of_a_call = True
        elif cost := COST.fullmatch(line.rstrip()):
            if cost[1][0] in "+-":
                address += int(cost[1], 0)
            elif cost[1] != "*":
                address = int(cost[1], 0)
            if not of_a_call:
                found[function, address] += int(cost[2])
            of_a_call = False
    return found


def report(command):
    """The lines of callgrind's report on a command."""
    with tempfile.TemporaryDirectory() as folder:
        file = Path(folder, "report")
        valgrind = ["valgrind", "-q", "--tool=callgrind", "--dump-instr=yes", f"--callgrind-out-file={file}"]
        try:
            subprocess.run([*valgrind, *command], check=True, stdout=subprocess.DEVNULL)
        except (OSError, subprocess.CalledProcessError) as fault:
            sys.exit(f"steps.py: {fault}")
        return file.read_text(errors="replace").splitlines()


def main():
    command = sys.argv[1:]
    if len(command) <= ITEMS + 1 or not command[ITEMS + 1].isdigit():
        sys.exit(__doc__)
    items = int(command[ITEMS + 1])
    steps = Counter()
    for (function, _), times in counts(report(command)).items():
        if 2 * times >= items:
            steps[function] += times
    for function, times in steps.most_common():
        print(f"{times / items:8.1f} {function}")
    print(f"{sum(steps.values()) / items:8.1f} in all")


main()
