"""Runs the native program as accidents and attackers do, and looks how it ends.

usage: accidents.py PROGRAM NO_THREAD.so

Each run has ten minutes.
"""

import contextlib
import glob
import io
import os
import re
import resource
import signal
import subprocess
import sys
import tempfile
import time

sys.dont_write_bytecode = True
HERE = os.path.dirname(os.path.realpath(__file__))
sys.path += [f"{HERE}/../refused_memory", f"{HERE}/.."]
from definition import play
from heed import heed_signals

SECONDS = 600
# The stack of each thread in bytes, and the descriptors: the three streams, and one more to load libraries by.
STACK, DESCRIPTORS = 256 * 1024, 4
THREADS = ["threads", "--workers", "4", "--cap", "4", "a:3", "b:3"]
LINES = b"1 p\n2 q\n3 r\n"
REPORT = b"a 1 p\na 2 q\na 3 r\na complete 3\nb 1 p\nb 2 q\nb 3 r\nb complete 3\ndrained 1\n"


class Accidents:
    def __init__(self, program, hook):
        self.program, self.hook, self.faults = os.path.realpath(program), hook, []
        self.counts = {}

    def count(self, part, number=1):
        self.counts[part] = self.counts.get(part, 0) + number

    def run(self, words, given, **how):
        """The status, the output and standard error of a run."""
        try:
            ran = subprocess.run([self.program, *words], input=given, capture_output=True, timeout=SECONDS, **how)
        except subprocess.TimeoutExpired:
            return "no end", b"", b""
        return ran.returncode, ran.stdout, ran.stderr

    def row(self, part, name, words, given, wanted, **how):
        """A run that is to end so: the status, the output and standard error."""
        self.count(part)
        got = self.run(words, given, **how)
        for what, is_now, was_wanted in zip(("status", "output", "standard error"), got, wanted):
            if is_now != was_wanted:
                self.faults.append(f"{part}, {name}: {what} {is_now!r:.300}, where it should be {was_wanted!r:.300}")

    def start(self, words, given, **how):
        """A run that goes on, and has read all of its input."""
        pipe = subprocess.PIPE
        it = subprocess.Popen([self.program, *words], stdin=pipe, stdout=pipe, stderr=pipe, preexec_fn=heed_signals, **how)
        it.stdin.write(given)
        it.stdin.close()
        return it


def limited(kind, number):
    return lambda: resource.setrlimit(kind, (number, number))


def answer(script):
    return b"".join(play(io.BytesIO(script).readlines())[0])


def shown(text):
    """A text as a line for people shows it."""
    known = {9: b"\\t", 10: b"\\n", 13: b"\\r", 34: b'\\"', 39: b"\\'", 92: b"\\\\"}
    return b"".join(known.get(it, bytes([it]) if 32 <= it < 127 else b"\\x%02x" % it) for it in text)


def bytes_of_names(accidents):
    """Each byte in a name and in a text: of a script, of an argument, and of a line from a thread."""
    script = b"cap 1\n"
    for byte in range(256):
        one = bytes([byte])
        for name in (one, b"a" + one, one + b"a"):
            script += b"sub %s 1\noffer %s\nrun\nrequest %s 1\ncancel %s\nrun\nsub %s 0\ncancel %s\nrun\n" % ((name,) * 6)
    accidents.row("bytes", "a script", ["script"], script, (0, answer(script), b""))
    accidents.count("bytes", 3 * 256 - 1)
    for byte in range(1, 256):
        name = b"a" + bytes([byte])
        if re.fullmatch(rb"[A-Za-z0-9_-]+", name):
            wanted = 0, b"%s 1 x\n%s complete 1\ndrained 1\n" % (name, name), b""
        elif byte < 128:
            wanted = 2, b"", shown(name + b":1") + b": a subscriber is NAME:D\nlines_demo: refused 12 command\n"
        else:
            wanted = 2, b"", b"lines_demo: an argument is not UTF-8\n"
        accidents.row("bytes", f"an argument with the byte {byte}", ["threads", "--workers", "1", "--cap", "1", name + b":1"], b"1 x\n", wanted)
    texts = [b"7 %s." % bytes([it]) for it in range(256) if it != 10]
    told = b"".join(b"a %s\n" % it for it in texts)
    words = ["threads", "--workers", "2", "--cap", "1", "a:255"]
    accidents.row("bytes", "lines from a thread", words, b"\n".join(texts), (0, told + b"a complete 255\ndrained 1\n", b""))


def closed_output(accidents):
    """The reader of standard output goes away, at once and in the middle: it ends in silence, as if by the signal SIGPIPE."""
    for words, given in ((["script"], b"run\n" * 100000), (["threads", "--workers", "2", "--cap", "4", "a:100000"], b"1 x\n" * 100000)):
        for taken in (0, 1, 10000):
            accidents.count("a closed output")
            it = accidents.start(words, given)
            took = it.stdout.read(taken)
            it.stdout.close()
            ended = it.wait(SECONDS), it.stderr.read()
            if ended != (141, b"") or len(took) != taken:
                accidents.faults.append(f"{words[0]} whose reader went away after {taken} bytes: {ended}")


def is_there(it):
    return it.poll() is None


def shared():
    return sorted(os.listdir("/dev/shm")) if os.path.isdir("/dev/shm") else []


def terminated(accidents):
    """A signal in the middle ends it, and leaves nothing behind."""
    busy = (["script"], b"run\n" * 4000000), (["threads", "--workers", "8", "--cap", "1", "a:4000000"], b"1 x\n" * 4000000)
    for words, given in busy:
        for number in (signal.SIGTERM, signal.SIGINT, signal.SIGHUP):
            accidents.count("a signal")
            before = shared()
            with tempfile.TemporaryDirectory() as folder:
                it = accidents.start(words, given, cwd=folder, env={**os.environ, "TMPDIR": folder}, start_new_session=True)
                time.sleep(0.05)
                was_there = is_there(it)
                it.send_signal(number)
                it.stdout.close()
                ended = it.wait(SECONDS)
                left = os.listdir(folder), sorted(set(shared()) - set(before)), others(it.pid)
            if not was_there or ended != -number or it.stderr.read() or any(left):
                accidents.faults.append(f"{words[0]} and signal {number}: it was running: {was_there}, it ended by {ended}, and left {left}")


def others(session):
    """The processes of a session that has ended."""
    left = []
    for word in filter(str.isdigit, os.listdir("/proc")):
        with contextlib.suppress(ProcessLookupError):
            left += [word] if os.getsid(int(word)) == session else []
    return left


def small_stack(accidents):
    """Each row of scripts, and a run on threads, with a stack of 256 KiB for each thread."""
    how = {"preexec_fn": limited(resource.RLIMIT_STACK, STACK)}
    for file in sorted(glob.glob(f"{HERE}/../scripts/*.script")):
        with open(file, "rb") as script, open(file[: -len("script")] + "expected", "rb") as output:
            accidents.row("a small stack", os.path.basename(file), ["script"], script.read(), (0, output.read(), b""), **how)
    long = b"x" * 4200 + b"\n"
    accidents.row("a small stack", "a long line", ["script"], long * 400, (0, b"refused 12 command\n" * 400, b""), **how)
    accidents.row("a small stack", "threads", THREADS, LINES, (0, REPORT, b""), **how)
    names = [f"n{k}:16" for k in range(64)]
    lines = b"".join(b"%d t\n" % s for s in range(16))
    told = b"".join(b"".join(b"n%d %d t\n" % (k, s) for s in range(16)) + b"n%d complete 16\n" % k for k in range(64))
    words = ["threads", "--workers", "8", "--cap", "65536", *names]
    accidents.row("a small stack", "all threads", words, lines, (0, told + b"drained 1\n", b""), **how)
    for words in (["--help"], ["script", "--help"], ["threads", "--help"]):
        accidents.row("a small stack", " ".join(words), words, b"", accidents.run(words, b""), **how)


def few_descriptors(accidents):
    """No descriptor is left: the program opens none."""
    how = {"preexec_fn": limited(resource.RLIMIT_NOFILE, DESCRIPTORS)}
    accidents.row("no descriptor", "a script", ["script"], b"run\n", (0, b"idle\n", b""), **how)
    accidents.row("no descriptor", "threads", THREADS, LINES, (0, REPORT, b""), **how)


def no_thread(accidents):
    """One thread after the other can't be started: either the run is refused, or its work is done by another thread."""
    met = {"refused": 0, "done": 0}
    for number in range(1, 100):
        room = {**os.environ, "LD_PRELOAD": accidents.hook, "REFUSE": str(number)}
        status, output, said = accidents.run(THREADS, LINES, env=room)
        if said == b"" and number > 1:
            break
        accidents.count("no thread")
        if (status, output, said) == (1, b"", b"thread refused\nlines_demo: refused 5 memory\n"):
            met["refused"] += 1
        elif (status, output, said) == (0, REPORT, b"thread refused\n"):
            met["done"] += 1
        else:
            accidents.faults.append(f"thread {number} is not started: status {status}, output {output!r:.200}, it said {said!r:.200}")
    if not all(met.values()) or (status, output) != (0, REPORT):
        accidents.faults.append(f"threads that are not started: {met}, and at last status {status}")


def main(program, hook):
    accidents = Accidents(program, hook)
    for part in (bytes_of_names, closed_output, terminated, small_stack, few_descriptors, no_thread):
        part(accidents)
    counts = ", ".join(f"{number} of {part}" for part, number in accidents.counts.items())
    print("\n".join(accidents.faults or [f"all ends are as they should be: {counts}"]))
    return 1 if accidents.faults else 0


if __name__ == "__main__":
    sys.exit(main(*sys.argv[1:]))
