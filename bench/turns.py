#!/usr/bin/env python3
"""Measures several programs in turns: crates/deliveries_bench over other checkouts, proved or compiled by `tools/unproved.sh --fast`, and the
JDK's class.

usage: turns.py RUNS NAME=PROGRAM.. <ROWS

A line of ROWS has the words of a run of deliveries_bench: `fast 1 4 4 256 16 200000`, or `alone 1 2000 10`. PROGRAM is a file, or the folder
with the classes of bench/java, which publish single texts only. In each round each program runs once, in an order that is drawn anew. A run
in which the machine's host took more than 2.5 % of the processors says nothing, and is made again. Each line that it prints has the median and
the lower quartile of every program, in nanoseconds for an item, and the ratio of the first program's median to this one's, with the bounds
in which 95 % of such ratios lie if runs and layouts are drawn again.

Two programs that do the same differ by some per cent for where their code and their memory happen to lie. If PROGRAM ends in `.*`, as
`out/unproved/deliveries_bench.*`, it is the layouts of one program (`tools/unproved.sh --layouts`): each run draws one, and one of four places of
its memory, which needs a C compiler (bench/shift.c).
"""
import glob
import os
import random
import subprocess
import sys
import tempfile
from pathlib import Path
from statistics import median, quantiles

MOST_TAKEN = 0.025
REDRAWN = 1000
HERE = Path(__file__).parent
# By the first word of a row: the JDK's class, how many of the words it takes, and which of them is the number of items.
CLASSES = {"fast": ("Deliveries", 7, 6), "alone": ("Alone", 4, 2)}


def ticks():
    """The time that the host took from all processors, and all their time, since the machine has started."""
    columns = [int(column) for column in Path("/proc/stat").read_text().split(maxsplit=9)[1:9]]
    return columns[7], sum(columns)


def is_quiet(before, after):
    """Whether the host took little of the processors' time between two such ticks."""
    return after[0] - before[0] <= (after[1] - before[1]) * MOST_TAKEN


def command_of(program, words):
    if not Path(program).is_dir():
        return [program, *words]
    name, taken, _ = CLASSES[words[0]]
    return ["java", "-cp", program, name, *words[1:taken]]


def layouts_of(program):
    """The files of a program: its layouts, if it has any."""
    files = sorted(glob.glob(program)) if program.endswith(".*") else [program]
    if not files:
        sys.exit(f"{program}: there is no such file")
    return files


def measure(program, words, shift):
    """A layout, and the nanoseconds of a run of it in which the host took little."""
    while True:
        layouts = layouts_of(program)
        layout, environment = random.choice(layouts), dict(os.environ)
        if len(layouts) > 1:
            environment.update(LD_PRELOAD=shift, SHIFT=str(random.randrange(4)))
        before = ticks()
        said = subprocess.run(command_of(layout, words), capture_output=True, text=True, check=True, env=environment).stdout
        if is_quiet(before, ticks()):
            return layout, int(said.split()[0])


def redrawn(runs):
    """The median of as many runs, of layouts and of runs of these that are drawn again."""
    of = {}
    for layout, nanoseconds in runs:
        of.setdefault(layout, []).append(nanoseconds)
    drawn = [of[layout] for layout in random.choices(list(of), k=len(of))]
    return median(nanoseconds for times in drawn for nanoseconds in random.choices(times, k=len(times)))


def row(rounds, programs, words, shift):
    """The line of a row. The first run of each program isn't counted."""
    runs = {name: [] for name in programs}
    for _ in range(rounds + 1):
        for name in random.sample(list(programs), len(programs)):
            runs[name].append(measure(programs[name], words, shift))
    items = int(words[CLASSES[words[0]][2]])
    first = next(iter(programs))
    figures = []
    for name in programs:
        times = [nanoseconds for _, nanoseconds in runs[name][1:]]
        lower = quantiles(times, n=4, method="inclusive")[0]
        figure = f"{name} {median(times) / items:.1f}, {lower / items:.1f}"
        if name != first:
            ratios = sorted(redrawn(runs[first][1:]) / redrawn(runs[name][1:]) for _ in range(REDRAWN))
            ratio = median(nanoseconds for _, nanoseconds in runs[first][1:]) / median(times)
            figure += f" ({ratio:.2f}, {ratios[REDRAWN // 40]:.2f} to {ratios[-REDRAWN // 40]:.2f})"
        figures.append(figure)
    return f"{' '.join(words)}: {'; '.join(figures)}"


def main():
    rounds, programs = int(sys.argv[1]), dict(word.split("=", 1) for word in sys.argv[2:])
    if rounds < 2 or not programs:
        sys.exit(__doc__)
    with tempfile.TemporaryDirectory() as work:
        shift = f"{work}/shift.so"
        if any(program.endswith(".*") for program in programs.values()):
            subprocess.run(["cc", "-shared", "-fPIC", "-o", shift, HERE / "shift.c"], check=True)
        for line in sys.stdin:
            if line.strip():
                print(row(rounds, programs, line.split(), shift), flush=True)


if __name__ == "__main__":
    main()
