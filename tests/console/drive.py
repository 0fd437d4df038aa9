"""Drives a console through pipes: it types lines, and takes what the console prints."""

import os
import queue
import subprocess
import sys
import threading
import time

sys.path.append(os.path.realpath(f"{os.path.dirname(os.path.realpath(__file__))}/.."))
from heed import heed_signals

# How long a console may take for anything, on a machine that has much else to do, and how long it is watched where nothing is to come.
SECONDS, QUIET = 600, 0.3


class Stopped(Exception):
    """What a console did in place of what it should have done."""


class Console:
    """A console that runs. Its lines are read as they come, by a thread."""

    def __init__(self, program, words=(), **how):
        pipe = subprocess.PIPE
        self.it = subprocess.Popen([program, *words], stdin=pipe, stdout=pipe, stderr=pipe, preexec_fn=heed_signals, **how)
        self.lines = queue.Queue()
        self.reader = threading.Thread(target=self.read, daemon=True)
        self.reader.start()

    def read(self):
        try:
            for line in self.it.stdout:
                self.lines.put(line)
        except ValueError:
            pass
        self.lines.put(None)

    def __enter__(self):
        return self

    def __exit__(self, *fault):
        self.it.kill()
        self.it.wait()
        self.reader.join()
        for stream in (self.it.stdin, self.it.stdout, self.it.stderr):
            try:
                stream.close()
            except OSError:
                pass

    def type(self, line):
        self.it.stdin.write(line + b"\n")
        self.it.stdin.flush()

    def line(self):
        """The next line, without its line feed; None at the end."""
        try:
            line = self.lines.get(timeout=SECONDS)
        except queue.Empty:
            raise Stopped(f"no line came for {SECONDS} seconds") from None
        if line is not None and not line.endswith(b"\n"):
            raise Stopped(f"the line {line!r} has no line feed")
        return line and line[:-1]

    def take(self, *wanted):
        """The next lines are these, in any order: they come from several threads."""
        left = list(wanted)
        while left:
            line = self.line()
            if line not in left:
                raise Stopped(f"{line!r} came, and not one of {left}")
            left.remove(line)

    def quiet(self):
        """Nothing comes for a while."""
        time.sleep(QUIET)
        if not self.lines.empty():
            raise Stopped(f"{self.lines.get()!r} came too early")

    def say(self, line, *wanted):
        """Types a line, and takes what is printed then."""
        self.type(line)
        self.take(*wanted)

    def until(self, line, wanted, before=None):
        """Types a line again and again, until it is answered so; before, only with these answers, if they are named."""
        end = time.monotonic() + SECONDS
        while True:
            self.type(line)
            got = self.line()
            if got == wanted:
                return
            if before and got not in before:
                raise Stopped(f"{line!r} is answered {got!r}, and not {wanted!r}")
            if time.monotonic() > end:
                raise Stopped(f"{line!r} is still answered {got!r}, and not {wanted!r}")

    def end(self, *wanted, status=0, error=b""):
        """Ends the input. These lines are printed then, in any order, and it ends."""
        self.it.stdin.close()
        self.take(*wanted)
        self.ended(status, error)

    def ended(self, status=0, error=b""):
        """It has printed all, and ends so."""
        line = self.line()
        if line is not None:
            raise Stopped(f"{line!r} came after the end")
        self.waited(status, error)

    def waited(self, status, error):
        """It ends so, whatever it has printed."""
        try:
            got = self.it.wait(SECONDS)
        except subprocess.TimeoutExpired:
            raise Stopped(f"it did not end within {SECONDS} seconds") from None
        said = self.it.stderr.read()
        if (got, said) != (status, error):
            raise Stopped(f"it ended with {got} and {said!r}, and not with {status} and {error!r}")
