"""Runs `lines_demo threads` with the Nth request for memory refused, for N from 1 up to a run that meets no refusal, and judges each.

usage: threads.py PROGRAM REFUSE.so

Two sources with 2 workers, and three with 4 workers and with 1. A run has to end by itself within ten minutes, in one of these ways:

- with status 1, `lines_demo: refused 5 memory` or `lines_demo: memory` on standard error, and nothing on standard output;
- with status 1, `lines_demo: refused 5 memory` and a beginning of a report, where the report could not be written;
- with the report of ample memory, and its status: what was refused was not needed;
- with status 3 and a report in which one subscriber, whose callback was refused memory, has the end `memory`: it was told a beginning of
  each source's lines, and the other subscriber is told what it is told with ample memory.

The first way and the last have to be met; how often each is depends on how the threads run.
"""

import os
import subprocess
import sys

MOST = 100000
LONGEST = b"x" * 4096


class Run:
    """So many sources of so many lines, the last a longest text, for two subscribers."""

    def __init__(self, workers, capacity, sources, count):
        self.name = f"{sources} sources of {count} lines, {workers} workers"
        self.count = sources * count
        self.lines = {s: [b"%d p%d.%d" % (s, s, k) for k in range(count - 1)] + [b"%d %s" % (s, LONGEST)] for s in range(1, sources + 1)}
        # In turns, and the last source first.
        self.given = b"".join(self.lines[s][k] + b"\n" for k in range(count) for s in sorted(self.lines, reverse=True))
        self.words = ["threads", "--workers", str(workers), "--cap", str(capacity), f"a:{self.count}", f"b:{self.count + 5}"]
        self.full = b"\n".join(self.complete(b"a") + self.complete(b"b") + [b"drained 1"]) + b"\n"
        self.met = {"stopped": 0, "cut": 0, "not needed": 0, "a callback": 0}

    def complete(self, name):
        return [name + b" " + line for s in sorted(self.lines) for line in self.lines[s]] + [name + b" complete %d" % self.count]

    def is_cut(self, name, part):
        """The lines are those of a subscriber whose callback was refused memory."""
        told, end = [it[len(name) + 1 :] for it in part[:-1]], part[-1:]
        of = {s: [it for it in told if it.startswith(b"%d " % s)] for s in self.lines}
        return (
            end == [name + b" memory %d" % len(told)]
            and told == [line for s in sorted(of) for line in of[s]]
            and all(of[s] == self.lines[s][: len(of[s])] for s in of)
        )

    def judge(self, status, output, said):
        """Notes how the run ended, or returns what is wrong with it."""
        if status == 1 and said in (b"lines_demo: refused 5 memory\n", b"lines_demo: memory\n"):
            self.met["stopped" if not output else "cut"] += 1
            return None if self.full.startswith(output) else "it stopped, and wrote no beginning of a report"
        if said:
            return f"status {status}, and it said {said!r}"
        if (status, output) == (0, self.full):
            self.met["not needed"] += 1
            return None
        a, b, last = split(output)
        whole = [a == self.complete(b"a"), b == self.complete(b"b")]
        cut = [self.is_cut(b"a", a), self.is_cut(b"b", b)]
        if status == 3 and last == [b"drained 1"] and sorted((whole[0] + 2 * cut[0], whole[1] + 2 * cut[1])) == [1, 2]:
            self.met["a callback"] += 1
            return None
        return f"status {status}, output {output!r:.400}"

    def sweep(self, program, hook):
        """Refuses each request in turn, and returns what is wrong."""
        for number in range(1, MOST):
            room = {**os.environ, "REFUSE": str(number), "LD_PRELOAD": hook}
            try:
                ran = subprocess.run([program, *self.words], input=self.given, capture_output=True, timeout=600, env=room)
            except subprocess.TimeoutExpired:
                return f"request {number}: it had not ended after ten minutes"
            said = ran.stderr.replace(b"request refused\n", b"")
            if said == ran.stderr:
                break
            why = self.judge(ran.returncode, ran.stdout, said)
            if why:
                return f"request {number}: {why}"
        if number == 1 or (ran.returncode, ran.stdout, said) != (0, self.full, b""):
            return "no request was refused, or the run with ample memory is wrong"
        print(f"{self.name}: {number - 1} requests, each refused in turn: " + ", ".join(f"{self.met[it]} {it}" for it in self.met))
        missing = [it for it in ("stopped", "a callback") if not self.met[it]]
        return f"never: {missing}" if missing else None


def split(output):
    """The lines of a and of b, and the last line."""
    lines = output.splitlines()
    return [it for it in lines if it[:2] == b"a "], [it for it in lines if it[:2] == b"b "], lines[-1:]


def main(program, hook):
    runs = [Run(2, 4, 2, 20), Run(4, 16, 3, 200), Run(1, 16, 3, 200)]
    faults = [f"{it.name}: {why}" for it in runs for why in [it.sweep(program, hook)] if why]
    print("\n".join(faults or ["each refusal is told as it is"]))
    return 1 if faults else 0


if __name__ == "__main__":
    sys.exit(main(*sys.argv[1:]))
