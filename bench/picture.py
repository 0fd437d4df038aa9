#!/usr/bin/env python3
"""Prints the rows of bench/peers.sh, and writes them to bench/results as tables and as a picture.

usage: picture.py --head | --line <ROW | --results ROWS FANOUT_ROWS DATE MACHINE RUNS

A row is a name and the nanoseconds of this publisher, of Java's and of a plain fan-out, divided by tabs; 0 where there was none. A row of
fanout.py has three figures for each of PROGRAMS, the milliseconds, those of processors, and the KiB: 0 where there were none, and inf if a run
didn't end.
"""

import math
import sys
from html import escape
from pathlib import Path

RESULTS = Path(__file__).resolve().parent / "results"
PROGRAMS = ("fanout", "tee", "Java")
BARS = (
    ("Java", "#b5651d", "time as a ratio to Java"),
    ("fan-out", "#4a6fa5", "time as a ratio to fan-out"),
    ("tee", "#3d8b5f", "processors' time as a ratio to tee"),
)


def read_row(line):
    name, *times = line.rstrip("\n").split("\t")
    return name, [int(time) for time in times]


def read_fanout_row(line):
    name, *figures = line.rstrip("\n").split("\t")
    figures = [float(figure) for figure in figures]
    return name, [figures[at : at + 3] for at in range(0, len(figures), 3)]


def read_rows(file, read):
    return [read(line) for line in Path(file).read_text().splitlines()]


def ratio_to(figure, peers):
    """A figure as a ratio to the peer's, if there is one."""
    return figure / peers if peers and math.isfinite(peers) else None


def ratios_of(times):
    """This publisher's time as a ratio to each peer's."""
    return {"Java": ratio_to(times[0], times[1]), "fan-out": ratio_to(times[0], times[2])}


def fanout_ratios_of(figures):
    """The ratios of a row of fanout that the picture shows."""
    fanout, tee, java = figures
    return {"Java": ratio_to(fanout[0], java[0]), "tee": ratio_to(fanout[1], tee[1])}


def shown(ratio, places):
    return "-" if ratio is None else f"{ratio:.{places}f}"


def head():
    return f"{'':58} {'here ms':>9} {'Java ms':>9} {'fan-out':>9} {'to Java':>8} {'to fan-out':>10}"


def line_of(name, times):
    cells = [f"{time / 1e6:9.1f}" if time else f"{'-':>9}" for time in times]
    to_java, to_fan_out = (shown(ratio, 2) for ratio in ratios_of(times).values())
    return f"{name:58} {' '.join(cells)} {to_java:>8} {to_fan_out:>10}"


def fanout_head():
    return f"{'':38} {'':8} {'ms':>7} {'CPU ms':>7} {'KiB':>7}   fanout to it: {'ms':>6} {'CPU ms':>6} {'KiB':>6}"


def fanout_lines(name, figures):
    """A line for each program of a row of fanout."""
    lines = []
    for program, own in zip(PROGRAMS, figures):
        if not own[0]:
            continue
        line = f"{name:38} {program:8} "
        if math.isinf(own[0]):
            line += "does not end"
        else:
            line += " ".join(f"{figure:7.0f}" for figure in own)
            if program != PROGRAMS[0]:
                line += f"{'':17} " + " ".join(f"{shown(ratio_to(*pair), 3):>6}" for pair in zip(figures[0], own))
        lines.append(line)
    return lines


def picture(rows, title):
    """Bars of the ratios: a bar to the left of the line at 1 is a row in which this publisher is faster."""
    left, unit, height = 450, 220, 34
    bottom = 52 + len(rows) * height
    parts = [f'<text x="8" y="20" font-weight="bold">{escape(title)}</text>']
    for place, (_, color, meaning) in enumerate(BARS):
        parts.append(f'<text x="{left + 180 * place}" y="40" fill="{color}">{escape(meaning)}</text>')
    for number, (name, ratios) in enumerate(rows):
        top = 52 + number * height
        parts.append(f'<text x="8" y="{top + 18}">{escape(name)}</text>')
        for peer, color, _ in BARS:
            ratio = ratios.get(peer)
            if ratio is not None:
                length = unit * min(ratio, 3)
                parts.append(f'<rect x="{left}" y="{top}" width="{length:.0f}" height="11" fill="{color}"/>')
                parts.append(f'<text x="{left + length + 4:.0f}" y="{top + 10}" font-size="11">{ratio:.2f}</text>')
                top += 13
    parts.append(f'<line x1="{left + unit}" y1="46" x2="{left + unit}" y2="{bottom}" stroke="black" stroke-dasharray="3 3"/>')
    body = "\n".join(parts)
    return (
        f'<svg xmlns="http://www.w3.org/2000/svg" width="{left + 3 * unit + 80}" height="{bottom + 12}" font-family="sans-serif" font-size="13">\n'
        f'<rect width="100%" height="100%" fill="white"/>\n{body}\n</svg>\n'
    )


def write_results(file, fanout_file, date, machine, runs):
    rows = read_rows(file, read_row)
    fanout_rows = read_rows(fanout_file, read_fanout_row)
    title = f"{date}, {machine}; medians of {runs} runs"
    table = [title, "", head(), *(line_of(*row) for row in rows), "", fanout_head()]
    for row in fanout_rows:
        table += fanout_lines(*row)
    (RESULTS / f"peers-{date}.txt").write_text("\n".join(table) + "\n")
    drawn = [(name, ratios_of(times)) for name, times in rows]
    drawn += [(f"fanout: {name}", fanout_ratios_of(figures)) for name, figures in fanout_rows]
    drawn = [(name, ratios) for name, ratios in drawn if any(ratio is not None for ratio in ratios.values())]
    (RESULTS / f"peers-{date}.svg").write_text(picture(drawn, title))


def main(words):
    if words[:1] == ["--head"]:
        print(head())
    elif words[:1] == ["--line"]:
        print(line_of(*read_row(sys.stdin.readline())), flush=True)
    elif words[:1] == ["--results"] and len(words) == 6:
        write_results(*words[1:])
    else:
        sys.exit(__doc__)


if __name__ == "__main__":
    main(sys.argv[1:])
