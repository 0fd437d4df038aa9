"""Runs `lines_demo threads` with many sources, subscribers and lines, and checks each line of the reports.

usage: soak.py PROGRAM [--whole]

A run of 16 sources of 10,000 lines to 64 subscribers tells ten million items. With --whole each pair of a capacity of 1, 4 or 256 and
1 to 8 workers has one, which takes some ten minutes; else two pairs have one. All pairs have a run of a tenth as many lines to 16
subscribers. In each of the small runs some subscribers ask for too few items, and are left open: what they are told is a beginning of
each source's lines. A run has a time limit, and one that has not ended then has failed.
"""

import itertools
import subprocess
import sys

SOURCES = 16
CAPACITIES = (1, 4, 256)
WORKERS = (1, 2, 3, 4, 5, 6, 7, 8)
LARGE = ((4, 2), (256, 4))
SMALL_SECONDS, LARGE_SECONDS = 60, 240


def texts(each):
    return {source: [b"%d text %d of %d" % (source, source, k) for k in range(each)] for source in range(SOURCES)}


def play(program, capacity, workers, demands, given, seconds):
    words = [program, "threads", "--workers", str(workers), "--cap", str(capacity)]
    words += [f"{name}:{demand}" for name, demand in demands.items()]
    try:
        ran = subprocess.run(words, input=given, capture_output=True, timeout=seconds)
    except subprocess.TimeoutExpired:
        return None, b"", b""
    return ran.returncode, ran.stdout, ran.stderr


def whole(name, lines, count):
    """The report of a subscriber that was told everything."""
    name = name.encode()
    body = b"".join(b"\n" + line for source in sorted(lines) for line in lines[source])
    return body.replace(b"\n", b"\n" + name + b" ")[1:] + b"\n" + name + b" complete %d\n" % count


def check_open(name, demand, part, lines):
    """What is wrong with the report of a subscriber that was told as many items as it asked for: of each source, in order, its first."""
    told = {source: [] for source in lines}
    start = name.encode() + b" "
    for line in part[:-1]:
        if not line.startswith(start):
            return f"the line {line!r} in the report of {name}"
        told[int(line[len(start):].split(b" ", 1)[0])].append(line[len(start):])
    if part[-1] != start + b"open %d" % demand or sum(map(len, told.values())) != demand:
        return f"the end of {name}: {part[-1]!r} after {len(part) - 1} lines"
    for source, got in told.items():
        if got != lines[source][: len(got)]:
            return f"{name} was told other lines of source {source} than the first {len(got)}"
    order = [int(line[len(start):].split(b" ", 1)[0]) for line in part[:-1]]
    return None if order == sorted(order) else f"the sources of {name} are not in order"


def judge(got, demands, lines, count):
    status, output, said = got
    if status is None:
        return "it had not ended in time"
    is_open = any(demand < count for demand in demands.values())
    if status != (3 if is_open else 0) or said:
        return f"status {status}, standard error {said!r:.200}"
    if not output.endswith(b"\ndrained %d\n" % (not is_open)):
        return f"the last line is {output[-20:]!r}"
    at = 0
    for name, demand in demands.items():
        if demand >= count:
            wanted = whole(name, lines, count)
            if output[at : at + len(wanted)] != wanted:
                return f"the report of {name} is not that of all lines in order"
            at += len(wanted)
        else:
            end = output.index(b"\n" + name.encode() + b" open ", at - 1 if at else 0)
            end = output.index(b"\n", end + 1) + 1
            why = check_open(name, demand, output[at:end].splitlines(), lines)
            if why:
                return why
            at = end
    return None if len(output) - at == len(b"drained 1\n") else "there is more than the reports"


def soak(program, capacity, workers, each, demands, seconds):
    lines, count = texts(each), SOURCES * each
    given = b"".join(lines[source][k] + b"\n" for k in range(each) for source in range(SOURCES))
    why = judge(play(program, capacity, workers, demands, given, seconds), demands, lines, count)
    return why and f"capacity {capacity}, {workers} workers, {each} lines: {why}"


def main(program, option=None):
    if option not in (None, "--whole"):
        sys.exit(__doc__)
    pairs, faults = [*itertools.product(CAPACITIES, WORKERS)], []
    large = pairs if option else LARGE
    for capacity, workers in pairs:
        demands = {f"a{k}": 16000 for k in range(14)}
        # The buffer holds what an open one does not ask for.
        demands.update({"open": 16000 - capacity, "last": 16000 if capacity == 1 else 16000 - capacity // 2})
        faults.append(soak(program, capacity, workers, 1000, demands, SMALL_SECONDS))
    for capacity, workers in large:
        faults.append(soak(program, capacity, workers, 10000, {f"a{k}": 2**40 for k in range(64)}, LARGE_SECONDS))
    faults = [it for it in faults if it]
    print("\n".join(faults or [f"{len(pairs) + len(large)} runs: each subscriber was told what it should be"]))
    return 1 if faults else 0


if __name__ == "__main__":
    sys.exit(main(*sys.argv[1:]))
