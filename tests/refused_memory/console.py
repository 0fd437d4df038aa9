"""Holds sessions with `console` with the Nth request for memory refused, with all from the Nth on, and with the Nth thread not started, for N
from 1 up to a session that meets no refusal, and judges each.

usage: console.py PROGRAM REFUSE.so NO_THREAD.so

All lines of a session are typed at once, and then the input ends. A session has to end by itself within ten minutes, in one of the ways
that docs/SCRIPTS.md names:

- with status 0 and a report: each line was answered, by `refused 5 memory` too, and the report says of each subscriber the number of items
  that it was told; one that completed was told every item that was accepted for it;
- with status 1 and `console: memory` on standard error: the lines that were answered are a beginning of those that were typed.

Both ways have to be met. `console: refused 8 held` and a fault of reading or writing must not be.
"""

import os
import re
import subprocess
import sys
from concurrent.futures import ThreadPoolExecutor

MOST, SECONDS = 20000, 600
MEMORY = b"refused 5 memory"
REPORT = re.compile(rb"= (\S+) (complete|error|cancelled|open|failed|memory) (\d+)")


class Session:
    """Lines that are typed, each with what may answer it beside a refusal of memory, if the terminal answers it."""

    def __init__(self, name, words, *lines):
        self.name, self.words, self.lines = name, words, lines
        self.typed = b"".join(line + b"\n" for line, _ in lines)
        self.at_once = [answer for line, answer in lines if answer is not None]
        self.handed = [line.split()[1] for line, _ in lines if line.startswith(b"submit ")]
        self.met = {"not needed": 0, "refused": 0, "stopped": 0}

    def run(self, program, **room):
        """The status, the lines and standard error of a run, and whether a request was refused."""
        how = {"input": self.typed, "capture_output": True, "timeout": SECONDS, "env": {**os.environ, **room}}
        ran = subprocess.run([program, *self.words], **how)
        said = re.sub(rb"(request|thread) refused\n", b"", ran.stderr)
        return ran.returncode, ran.stdout, said, said != ran.stderr

    def judge(self, status, output, said):
        """Notes how the session ended, or returns what is wrong with it."""
        lines = output.split(b"\n")
        if lines.pop():
            return f"the last line was cut: {output[-80:]!r}"
        answers = [it[2:] for it in lines if it.startswith(b"= ") and not it.startswith(b"= submit ")]
        wrong = [it for it in zip(answers, self.at_once) if it[0] != MEMORY and not re.fullmatch(it[1], it[0])]
        if wrong:
            return f"{wrong[0][0]!r} came in place of {wrong[0][1]!r}"
        if status == 1 and said == b"console: memory\n":
            self.met["stopped"] += 1
            return None
        if status or said:
            return f"status {status}, and it said {said!r}"
        self.met["refused" if MEMORY in output else "not needed"] += 1
        return self.judge_whole(lines, answers)

    def judge_whole(self, lines, answers):
        """What is wrong with a session that ended well."""
        submitted = [it.split()[2] for it in lines if it.startswith(b"= submit ") and b" waits for " not in it]
        if len(answers) < len(self.at_once) or sorted(submitted) != sorted(self.handed):
            return f"{len(answers)} answers came to {len(self.at_once)} lines, and {len(submitted)} to {len(self.handed)} texts"
        if lines[-1] not in (b"= drained 0", b"= drained 1"):
            return f"the last line is {lines[-1]!r}"
        taken = sum(bool(re.fullmatch(rb"= (offer|retry|submit \d+) [1-9]\d*( calls 0)?", it)) for it in lines)
        told = {}
        for line in lines:
            if b" next " in line and not line.startswith(b"= "):
                told[line.split()[0]] = told.get(line.split()[0], 0) + 1
        for name, end, count in [it.groups() for it in map(REPORT.fullmatch, lines) if it]:
            if int(count) != told.get(name, 0) or end == b"complete" and int(count) != taken:
                return f"{name.decode()} was told {told.get(name, 0)} of {taken} items, and the report says {end.decode()} {int(count)}"
        return None

    def sweep(self, program, refuse, no_thread):
        """Refuses requests in turn, and then threads, and returns what is wrong."""
        for what, hook, chosen in (("alone", refuse, "REFUSE"), ("from", refuse, "REFUSE_FROM"), ("thread", no_thread, "REFUSE")):
            for number in range(1, MOST):
                try:
                    status, output, said, is_met = self.run(program, LD_PRELOAD=hook, **{chosen: str(number)})
                except subprocess.TimeoutExpired:
                    return f"{what} {number}: it had not ended after {SECONDS} seconds"
                why = self.judge(status, output, said)
                if why:
                    return f"{what} {number}: {why}"
                if not is_met:
                    break
            if number == 1 or status:
                return f"{what}: nothing was refused, or the session that has all that it asks for is wrong"
            self.met[what] = number - 1
        met = f"{self.met['stopped']} ended it, {self.met['refused']} refused a line, {self.met['not needed']} nothing"
        refused = f"{self.met['alone']} requests refused alone, {self.met['from']} with all after them, {self.met['thread']} threads"
        print(f"{self.name}: {refused}: {met}")
        return None if self.met["stopped"] and self.met["refused"] else "no refusal ended it, or none refused a line"


def submits(source, *texts):
    return [(b"submit %d %s" % (source, text), None) for text in texts]


LONG, WAIT = b"x" * 4000, rb"wait( \d waits for a \(2 of 2\),?)*"
SUB_A, SUB_B = (b"sub a 99", rb"sub a"), (b"sub b 0", rb"sub b|refused 3 duplicate")
SESSIONS = [
    Session("60 lines", [], SUB_A, *[(b"offer %d " % it + LONG[: it * 60], rb"offer \d+") for it in range(29)], *[(b"lag", rb"lag \d+")] * 30),
    Session("a source that waits", ["--cap", "1"], (b"sub a 0", rb"sub a"), *submits(7, b"x", LONG, b"y", b"z")),
    Session("16 sources", ["--workers", "4"], SUB_A, *[it for source in range(16) for it in submits(source, LONG, b"y")], (b"closed", rb"closed 0")),
    Session(
        "comings and goings", ["--cap", "4", "--late"], SUB_A, SUB_B, (b"retry " + LONG, rb"retry \d+ calls \d+"), (b"cancel b", rb"ok|refused 10 unknown"),
        (b"leave b", rb"b cancelled \d+|refused (8 held|9 unsettled|10 unknown)"), (b"subscribers", rb"subscribers \d+"), (b"sub c 1", rb"sub c"),
        *submits(1, b"x"), (b"request c 0", rb"ok|refused 10 unknown"), (b"sub a 9", rb"refused 3 duplicate|sub a"), (b"fail 7", rb"ok"), (b"quit", None),
    ),
    Session(
        "waits", ["--cap", "2", "--workers", "1"], (b"sub a 2", rb"sub a"), *submits(7, b"x", LONG), (b"wait", WAIT), *submits(8, b"y", b"z"),
        *submits(7, b"v", b"w"), (b"wait", WAIT), (b"request a 9", rb"ok|refused 10 unknown"), (b"wait", WAIT), *submits(7, b"u"), (b"close", rb"ok"),
        (b"wait", WAIT),
    ),
]


def main(program, refuse, no_thread):
    with ThreadPoolExecutor(os.cpu_count()) as pool:
        answers = list(pool.map(lambda it: it.sweep(program, refuse, no_thread), SESSIONS))
    faults = [f"{it.name}: {why}" for it, why in zip(SESSIONS, answers) if why]
    print("\n".join(faults or ["each refusal is told as it is"]))
    return 1 if faults else 0


if __name__ == "__main__":
    sys.exit(main(*sys.argv[1:]))
