"""Plays scripts with the Nth request for memory refused, for N from 1 up to a run that meets no refusal, and judges each run.

usage: judge.py PROGRAM REFUSE.so [--forget] SCRIPT..

A run has to end by itself within ten minutes. By the definition of scripts, which stands once more in definition.py, memory may be
refused at each of certain points: in the call of a command, which is answered `refused 5 memory`, or in a callback, after which its
subscriber is told nothing more. One request is refused in a run, so of a run

- the output is that of the script where memory is refused at one of these points, whole, byte by byte; or
- it is that with ample memory: what was refused was not needed; or
- it is a beginning of that, with status 1 and `lines_demo: memory` on standard error: the script was stopped.

Each `sub`, and each `offer`, `retry` and `submit` of a text that takes memory of its own, that comes to a point with ample memory has to
be refused it in some run, and so has some callback; some run has to be stopped. Where SCRIPT has a file .expected beside it, some run
has to give just that. Of all the scripts together, each kind of signal that is told with ample memory has to be refused it in some
run.
With --forget the subscriber keeps nothing, so no callback may be refused memory.
"""

import os
import subprocess
import sys
from concurrent.futures import ThreadPoolExecutor

sys.dont_write_bytecode = True
from definition import play

MOST = 20000
PUBLICATIONS = ("offer", "retry", "submit")
# The number of bytes of the longest text that takes no memory.
LONGEST_INSIDE = 30
CALLBACKS = ("subscribed", "next", "complete", "error argument", "error state", "error published")


class Script:
    """A script, and what the definition has it answered: with ample memory, and with a refusal at each of its points."""

    def __init__(self, program, forgets, file):
        self.command = [program, "script", "--forget"] if forgets else [program, "script"]
        self.forgets, self.file = forgets, file
        with open(file, "rb") as it:
            self.text = it.read()
        self.lines = self.text.splitlines(keepends=True)
        lines, self.points = play(self.lines)
        self.full = b"".join(lines)
        self.outputs = {}
        for number in range(len(self.points)):
            output = b"".join(play(self.lines, number)[0])
            self.outputs.setdefault(output, []).append(self.points[number])
        self.met = {"stopped": 0, "callback": 0, "command": 0, "nothing": 0}
        self.refused_at = set()

    def run(self, hook, number):
        """The status, the output and standard error of the run whose request of this number is refused, and whether it was."""
        room = {**os.environ, "REFUSE": str(number), "LD_PRELOAD": hook}
        how = {"stdout": subprocess.PIPE, "stderr": subprocess.PIPE, "timeout": 600, "env": room}
        ran = subprocess.run(self.command, input=self.text, **how)
        said = ran.stderr.replace(b"request refused\n", b"")
        return ran.returncode, ran.stdout, said, said != ran.stderr

    def judge(self, status, output, said):
        """Notes what the refusal did, or returns what is wrong with the run."""
        if status == 1 and said == b"lines_demo: memory\n":
            self.met["stopped"] += 1
            return None if self.full.startswith(output) else "it stopped, and wrote no beginning of the output"
        if status or said:
            return f"status {status}, and it said: {said.decode(errors='replace')}"
        if output == self.full:
            self.met["nothing"] += 1
            return None
        points = [it for it in self.outputs.get(output, []) if not (self.forgets and it[1] in CALLBACKS)]
        if not points:
            return f"by the definition no refusal gives this output: {difference(output, self.full)}"
        self.met["callback" if points[0][1] in CALLBACKS else "command"] += 1
        self.refused_at.update(points)
        return None

    def has_to_be_refused(self, point):
        """Whether the call of this point can't do without memory."""
        line, kind = point
        text = self.lines[line].rstrip(b"\r\n").partition(b" ")[2]
        return kind == "sub" or kind in PUBLICATIONS and len(text) > LONGEST_INSIDE

    def never_met(self):
        """What no refusal hit."""
        asks = [it for it in self.points if self.has_to_be_refused(it) and it not in self.refused_at]
        missing = [f"line {line + 1}, {self.lines[line].decode(errors='replace').strip()}" for line, _ in asks]
        needed = ["stopped"] if self.forgets else ["stopped", "callback"]
        return missing + [it for it in needed if not self.met[it]]


def difference(output, wanted):
    """Where an output begins to be another one."""
    pairs = enumerate(zip(output.splitlines(), wanted.splitlines()), 1)
    at, line = next(((at, pair[0]) for at, pair in pairs if pair[0] != pair[1]), (0, b""))
    return f"from line {at} on, {line!r}" if at else "it is cut, or goes on"


def sweep(hook, script):
    """Refuses the requests of the script's run in turn, and returns what is wrong."""
    outputs = set()
    for number in range(1, MOST):
        try:
            status, output, said, is_met = script.run(hook, number)
        except subprocess.TimeoutExpired:
            return f"request {number}: it had not ended after ten minutes"
        if not is_met:
            break
        outputs.add(output)
        why = script.judge(status, output, said)
        if why:
            return f"request {number}: {why}"
    else:
        return f"request {MOST} is still met"
    if number == 1:
        return "no request was refused: the hook has no effect"
    if (status, output, said) != (0, script.full, b""):
        return f"with ample memory it gives another output than the definition: {difference(output, script.full)}"
    outputs.add(output)
    wanted = os.path.splitext(script.file)[0] + ".expected"
    if os.path.isfile(wanted):
        with open(wanted, "rb") as it:
            if it.read() not in outputs:
                return f"no run gave {wanted}"
    if script.never_met():
        return f"never refused memory: {'; '.join(script.never_met())}"
    how, met = ", with --forget" if script.forgets else "", script.met
    print(f"{script.file}{how}: {number - 1} requests, each refused in turn: {met['stopped']} stopped the script,", end=" ")
    print(f"{met['callback']} a callback, {met['command']} a command, {met['nothing']} nothing")
    return None


def never_told(scripts):
    """The kinds of signals that the scripts tell, and that no refusal hit."""
    told = {kind for it in scripts for _, kind in it.points}
    hit = {kind for it in scripts for _, kind in it.refused_at}
    return [it for it in CALLBACKS if it in told - hit]


def main(program, hook, *words):
    files = [it for it in words if it != "--forget"]
    forgets = len(files) < len(words)
    scripts = [Script(program, forgets, it) for it in files]
    # A run is a process of its own, so several scripts are swept at once.
    with ThreadPoolExecutor(os.cpu_count()) as pool:
        answers = list(pool.map(lambda it: sweep(hook, it), scripts))
    faults = [f"{it.file}: {why}" for it, why in zip(scripts, answers) if why]
    if not forgets and never_told(scripts):
        faults.append(f"no run was refused memory at: {', '.join(never_told(scripts))}")
    print("\n".join(faults or ["each refusal is told as it is"]))
    return 1 if faults or not files else 0


if __name__ == "__main__":
    sys.exit(main(*sys.argv[1:]))
