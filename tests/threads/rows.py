"""Runs `lines_demo threads` on rows of command lines and inputs, and compares the output, standard error and the status.

usage: rows.py PROGRAM

A run has ten minutes; one that has not ended then has failed.
"""

import os
import subprocess
import sys

SECONDS = 600
OPTIONS = ["--workers", "1", "--cap", "4"]
LONGEST = b"x" * 4096
HERE = os.path.dirname(os.path.realpath(__file__))
with open(f"{HERE}/../../examples/lines.txt", "rb") as it:
    EXAMPLE = it.read()


class Rows:
    def __init__(self, program):
        self.program, self.count, self.faults = program, 0, []

    def run(self, words, given, stdout=subprocess.PIPE):
        """The status, the output and standard error of a run; GIVEN are the bytes of standard input, or a file that is open."""
        how = {"stdout": stdout, "stderr": subprocess.PIPE, "timeout": SECONDS}
        how["input" if isinstance(given, bytes) else "stdin"] = given
        try:
            ran = subprocess.run([self.program, "threads", *words], **how)
        except subprocess.TimeoutExpired:
            return None, b"", b""
        return ran.returncode, ran.stdout or b"", ran.stderr

    def row(self, name, words, given, output, status=0, said=b"", stdout=subprocess.PIPE):
        self.count += 1
        got = self.run(words, given, stdout)
        for what, is_now, wanted in zip(("status", "output", "standard error"), got, (status, output, said)):
            if not (wanted(is_now) if callable(wanted) else is_now == wanted):
                self.faults.append(f"{name}: {what} {is_now!r:.300}, where it should be {wanted!r:.300}")

    def refused(self, name, words, given, refusal):
        """A row that is refused, before anything is published: a line says why, and then the word for machines."""
        word = b"lines_demo: refused " + refusal
        self.row(name, words, given, b"", 2, lambda said: said.endswith(b"\n") and [word] == said.split(b"\n")[1:-1] and not said.startswith((b"\n", word)))

    def wrong(self, name, words):
        """A command line that `clap` refuses, in its own words."""
        self.count += 1
        status, output, said = self.run(words, b"")
        if status != 2 or output or not said:
            self.faults.append(f"{name}: status {status}, output {output!r:.80}, standard error {said!r:.80}")


def options(workers, capacity):
    return ["--workers", str(workers), "--cap", str(capacity)]


def three_sources():
    """Three sources of 200 lines, the last a longest text, in turns; and what a subscriber `a` or `b` of all is told."""
    texts = {s: [b"%d.%d" % (s, k) for k in range(1, 200)] + [LONGEST] for s in (1, 2, 3)}
    given = b"".join(b"%d %s\n" % (s, texts[s][k]) for k in range(200) for s in (1, 2, 3))
    lines = [b"%d %s\n" % (s, text) for s in (1, 2, 3) for text in texts[s]]
    told = b"".join(b"".join(name + b" " + line for line in lines) + name + b" complete 600\n" for name in (b"a", b"b"))
    return given, told + b"drained 1\n"


def worked(rows):
    """Several sources and subscribers; what is left open; what is empty."""
    given, output = three_sources()
    for workers in (1, 4, 8):
        rows.row(f"three sources of 200 lines, {workers} workers", options(workers, 16) + ["a:600", "b:600"], given, output)
    unordered = b"a 1 q\na 2 p\na 2 r\na complete 3\ndrained 1\n"
    for workers in (1, 2):
        rows.row(f"the example, {workers} workers", options(workers, 1) + ["a:3"], EXAMPLE, unordered)
        rows.row(f"no line, {workers} workers", options(workers, 1) + ["a:3"], b"", b"a complete 0\ndrained 1\n")
    seven = b"7 v\n7 w\n7 x\n7 y\n7 z\n"
    rows.row("two of five items", OPTIONS + ["a:2"], seven, b"a 7 v\na 7 w\na open 2\ndrained 0\n", 3)
    rows.row("no item of four", OPTIONS + ["a:0"], seven[:16], b"a open 0\ndrained 0\n", 3)
    rows.row("no item of none", OPTIONS + ["a:0"], b"", b"a complete 0\ndrained 1\n")
    two = b"a 7 v\na 7 w\na open 2\nb 7 v\nb 7 w\nb 7 x\nb 7 y\nb 7 z\nb complete 5\ndrained 0\n"
    rows.row("one is open, one completes", OPTIONS + ["a:2", "b:9"], seven, two, 3)
    rows.row("the order of the command line", OPTIONS + ["b:1", "a:1"], b"1 x\n", b"b 1 x\nb complete 1\na 1 x\na complete 1\ndrained 1\n")
    most = str(2**63 - 1)
    rows.row("the largest demand", OPTIONS + ["a:" + most], b"1 x\n", b"a 1 x\na complete 1\ndrained 1\n")
    names = ["n%d:1" % k for k in range(64)]
    each = b"".join(b"n%d 1 x\nn%d complete 1\n" % (k, k) for k in range(64))
    rows.row("64 subscribers", options(8, 1) + names, b"1 x\n", each + b"drained 1\n")
    lines = b"".join(b"%d t\n" % s for s in range(15, -1, -1))
    told = b"".join(b"a %d t\n" % s for s in range(16))
    rows.row("16 sources", options(8, 1) + ["a:16"], lines, told + b"a complete 16\ndrained 1\n")
    rows.row("the longest name", OPTIONS + ["n" * 32 + ":1"], b"", b"n" * 32 + b" complete 0\ndrained 1\n")
    rows.row("leading zeros", options("0001", "004") + ["a:01"], b"", b"a complete 0\ndrained 1\n")
    rows.row("the largest numbers", options(1, "9" * 19) + ["a:1"], b"4294967295 x\n", b"a 4294967295 x\na complete 1\ndrained 1\n")


def failures(rows):
    """A subscriber that fails, and the handler that hears of it."""
    given = b"1 p\n1 q\n1 r\n"
    first, second = b"a 1 p\na 1 q\n", b"b 1 p\nb 1 q\nb 1 r\nb complete 3\n"
    both = ["a:3", "b:3"]
    failed = first + b"a failed 9 2\n" + second + b"handled a 9\ndrained 1\n"
    rows.row("a subscriber fails at its second item", OPTIONS + ["--fail", "a:2:9"] + both, given, failed, 3)
    whole = first + b"a 1 r\na complete 3\n" + second + b"drained 1\n"
    rows.row("a subscriber is told fewer items", OPTIONS + ["--fail", "a:4:9"] + both, given, whole)
    largest = b"a 1 p\na failed 4294967295 1\n" + second + b"handled a 4294967295\ndrained 1\n"
    rows.row("the largest code", OPTIONS + ["--fail", "a:1:4294967295"] + both, given, largest, 3)
    none = b"a complete 0\ndrained 1\n"
    rows.row("the largest item", OPTIONS + ["--fail", "a:9223372036854775807:0", "a:1"], b"", none)
    rows.row("one that fails requests nothing", OPTIONS + ["--fail", "a:1:9", "a:0"], b"1 p\n", b"a open 0\ndrained 0\n", 3)


def lines(rows):
    """The forms of a line."""
    one = b"a 7 x\na complete 1\ndrained 1\n"
    for name, given in (
        ("a line feed", b"7 x\n"),
        ("no line feed at the end", b"7 x"),
        ("a carriage return", b"7 x\r\n"),
        ("a carriage return at the end", b"7 x\r"),
        ("empty lines", b"\n\r\n7 x\n\n\r\n\r"),
        ("a source with leading zeros", b"0000000000000000007 x\n"),
    ):
        rows.row(name, OPTIONS + ["a:1"], given, one)
    rows.row("two spellings of a source", OPTIONS + ["a:3"], b"7 x\n07 y\n007 z\n", b"a 7 x\na 7 y\na 7 z\na complete 3\ndrained 1\n")
    rows.row("two carriage returns", OPTIONS + ["a:1"], b"7 x\r\r\n", b"a 7 x\r\na complete 1\ndrained 1\n")
    rows.row("two spaces", OPTIONS + ["a:1"], b"7  x\n", b"a 7  x\na complete 1\ndrained 1\n")
    rows.row("any byte", OPTIONS + ["a:1"], b"7 \xff\x00\t \r.\n", b"a 7 \xff\x00\t \r.\na complete 1\ndrained 1\n")
    long = b"7 " + LONGEST
    rows.row("the longest text", OPTIONS + ["a:1"], long, b"a " + long + b"\na complete 1\ndrained 1\n")
    rows.refused("a text of one byte more", OPTIONS + ["a:1"], long + b"x\n", b"6 line")
    rows.row("the longest text and a carriage return", OPTIONS + ["a:1"], long + b"\r\n", b"a " + long + b"\na complete 1\ndrained 1\n")
    for name, given in (
        ("no text", b"7\n"),
        ("an empty text", b"7 \n"),
        ("no source", b" x\n"),
        ("a word as a source", b"a x\n"),
        ("a sign", b"-7 x\n"),
        ("a plus", b"+7 x\n"),
        ("a source too large", b"4294967296 x\n"),
        ("20 digits", b"00000000000000000007 x\n"),
        ("a tab", b"7\tx\n"),
        ("a carriage return alone, twice", b"\r\r\n"),
        ("a wrong line of 5,000 bytes", b"y" * 5000),
    ):
        rows.refused(name, OPTIONS + ["a:9"], given, b"12 command")
    rows.refused("a wrong line before a long text", OPTIONS + ["a:9"], b"7\n" + long + b"x\n", b"12 command")
    rows.refused("a long text before a wrong line", OPTIONS + ["a:9"], long + b"x\n7\n", b"6 line")
    many = b"".join(b"%d t\n" % s for s in range(17))
    rows.refused("17 sources", options(8, 1) + ["a:17"], many, b"12 command")
    rows.refused("a long text after 17 sources", options(8, 1) + ["a:17"], many + long + b"x\n", b"6 line")
    rows.refused("17 sources, and nobody asks for them", options(8, 1) + ["a:0"], many, b"12 command")
    five = b"7 t\n" * 5
    rows.refused("one item too many", options(1, 2) + ["a:2"], five, b"11 wait")
    rows.refused("one item too many for the second", options(1, 2) + ["b:9", "a:2"], five, b"11 wait")
    rows.row("just not too many", options(1, 2) + ["a:3"], five, b"a 7 t\n" * 3 + b"a open 3\ndrained 0\n", 3)
    rows.row("the capacity is rounded up", options(1, 3) + ["a:1"], five, b"a 7 t\na open 1\ndrained 0\n", 3)
    full = b"1 t\n" * (16777216 // 4)
    rows.refused("16 MiB", options(1, 1) + ["a:1"], full, b"11 wait")
    rows.row("16 MiB and a byte", OPTIONS + ["a:1"], full + b"\n", b"", 1, b"lines_demo: the input has more than 16,777,216 bytes\n")


def command_lines(rows):
    """The forms of a command line, and the order of its checks, all before the input is read."""
    # A folder, which can't be read.
    nothing = os.open("/", os.O_RDONLY)
    for name, words, refusal in (
        ("a word of workers", options("x", 4) + ["a:1"], b"12 command"),
        ("20 digits of workers", options("0" * 19 + "1", 4) + ["a:1"], b"12 command"),
        ("a word of a capacity", options(1, "4k") + ["a:1"], b"12 command"),
        ("no demand", OPTIONS + ["a"], b"12 command"),
        ("an empty demand", OPTIONS + ["a:"], b"12 command"),
        ("an empty name", OPTIONS + [":1"], b"12 command"),
        ("a name of 33 bytes", OPTIONS + ["n" * 33 + ":1"], b"12 command"),
        ("a name with a point", OPTIONS + ["a.b:1"], b"12 command"),
        ("two colons", OPTIONS + ["a:1:2"], b"12 command"),
        ("a demand too large", OPTIONS + ["a:9223372036854775808"], b"12 command"),
        ("the second is wrong", OPTIONS + ["a:1", "b"], b"12 command"),
        ("no worker", options(0, 4) + ["a:1"], b"7 workers"),
        ("9 workers", options(9, 4) + ["a:1"], b"7 workers"),
        ("99 workers", options(99, 4) + ["a:1"], b"7 workers"),
        ("19 nines of workers", options("9" * 19, 4) + ["a:1"], b"7 workers"),
        ("capacity 0", options(1, 0) + ["a:1"], b"1 capacity"),
        ("a name twice", OPTIONS + ["a:1", "b:1", "a:2"], b"3 duplicate"),
        ("65 subscribers", OPTIONS + ["n%d:1" % k for k in range(65)], b"4 many"),
        ("a wrong form before wrong workers", options(0, 0) + ["a"], b"12 command"),
        ("wrong workers before a capacity of 0", options(0, 0) + ["a:1", "a:1"], b"7 workers"),
        ("a capacity of 0 before a name twice", options(1, 0) + ["a:1", "a:1"], b"1 capacity"),
        ("an unknown name fails", OPTIONS + ["--fail", "z:1:1", "a:3", "b:3"], b"10 unknown"),
        ("65 subscribers before an unknown name", OPTIONS + ["--fail", "z:1:1"] + ["n%d:1" % k for k in range(65)], b"4 many"),
        ("a failure without a code", OPTIONS + ["--fail", "a:1", "a:1"], b"12 command"),
        ("a failure with three numbers", OPTIONS + ["--fail", "a:1:2:3", "a:1"], b"12 command"),
        ("a failure at item 0", OPTIONS + ["--fail", "a:0:1", "a:1"], b"12 command"),
        ("a failure at an item too large", OPTIONS + ["--fail", "a:9223372036854775808:1", "a:1"], b"12 command"),
        ("a code too large", OPTIONS + ["--fail", "a:1:4294967296", "a:1"], b"12 command"),
        ("a failure of no name", OPTIONS + ["--fail", ":1:1", "a:1"], b"12 command"),
        ("a wrong failure before wrong workers", options(0, 0) + ["--fail", "a:0:1", "a:1"], b"12 command"),
        ("a name twice before 65", OPTIONS + ["n%d:1" % (k % 64) for k in range(65)], b"3 duplicate"),
    ):
        rows.refused(name, words, nothing, refusal)
    rows.row("a folder as standard input", OPTIONS + ["a:1"], nothing, b"", 1, b"lines_demo: read fault\n")
    for name, words in (
        ("no option", ["a:1"]),
        ("no capacity", ["--workers", "1", "a:1"]),
        ("no subscriber", OPTIONS),
        ("an option twice", OPTIONS + OPTIONS + ["a:1"]),
        ("two failures", OPTIONS + ["--fail", "a:1:1", "--fail", "a:1:1", "a:1"]),
        ("an unknown option", OPTIONS + ["--more", "a:1"]),
    ):
        rows.wrong(name, words)
    status, output, said = rows.run(["--help"], b"")
    rows.count += 1
    if status or said or b"--workers" not in output:
        rows.faults.append(f"--help: status {status}, output {output!r:.80}")


def explained(rows):
    """What is said of a refusal beforehand, whether that is asked for or not, and nothing of a run that isn't refused."""
    few, five = b"7 t\n", b"7 t\n" * 5
    for name, words, given, said, refusal in (
        ("a word of workers", options("x", 4) + ["a:1"], few, b"--workers: x: a number has digits alone", b"12 command"),
        ("no word of workers", options("", 4) + ["a:1"], few, b"--workers: a number: the number is missing", b"12 command"),
        ("a word of a capacity", options(1, "4k") + ["a:1"], few, b"--cap: 4k: a number has digits alone", b"12 command"),
        ("20 digits of a capacity", options(1, "1" * 20) + ["a:1"], few, b"--cap: " + b"1" * 20 + b": more than 19 digits", b"12 command"),
        ("a failure without a code", OPTIONS + ["--fail", "a:1", "a:1"], few, b"--fail a:1: it is NAME:K:C, and K is 1 or more", b"12 command"),
        ("no demand", OPTIONS + ["a:1", "b"], few, b"b: a subscriber is NAME:D", b"12 command"),
        ("9 workers", options(9, 4) + ["a:1"], few, b"--workers 9: the number of workers is not 1 to 8", b"7 workers"),
        ("capacity 0", options(1, 0) + ["a:1"], few, b"--cap 0: the capacity is 0", b"1 capacity"),
        ("an unknown name", OPTIONS + ["--fail", "z:1:1", "a:1"], few, b"--fail z:1:1: no subscription has this name", b"10 unknown"),
        ("a name twice", OPTIONS + ["a:1", "a:2"], few, b"NAME:D: a live subscription has this name", b"3 duplicate"),
        ("no source", OPTIONS + ["a:1"], b"\n7 t\nx t\n", b"line 3: x: a number has digits alone", b"12 command"),
        ("no text", OPTIONS + ["a:1"], b"7\r\n", b"line 1: SOURCE TEXT: the text is missing", b"12 command"),
        ("a space first", OPTIONS + ["a:1"], b" 7 t", b"line 1: a space too many", b"12 command"),
        ("a long text", OPTIONS + ["a:1"], b"7 t\n7 " + LONGEST + b"x\n", b"line 2: the line or its text is too long", b"6 line"),
        (
            "17 sources", options(8, 1) + ["a:17"], b"".join(b"%d t\n" % s for s in range(17)),
            b"line 17: there are 16 sources before its own, which is the most", b"12 command",
        ),
        (
            "a long text after 17 sources", options(8, 1) + ["a:17"], b"".join(b"%d t\n" % s for s in range(17)) + b"7 " + LONGEST + b"x\n",
            b"line 18: the line or its text is too long", b"6 line",
        ),
        ("a wait", options(1, 1) + ["b:9", "a:3"], five, b"a:3: it requests 3 of 5 items, and its buffer holds 1", b"11 wait"),
    ):
        for option in ([], ["--explain"]):
            rows.row(f"{name}, explained", [*option, *words], given, b"", 2, said + b"\nlines_demo: refused " + refusal + b"\n")
    for option in ([], ["--explain"]):
        rows.row("nothing to explain", [*option, *options(2, 1), "a:3"], EXAMPLE, b"a 1 q\na 2 p\na 2 r\na complete 3\ndrained 1\n")


def writers(rows):
    full = open("/dev/full", "wb")
    rows.row("a full standard output", OPTIONS + ["a:1"], b"1 x\n", b"", 1, b"lines_demo: write fault\n", full)


def main(program):
    rows = Rows(program)
    for part in (worked, failures, lines, command_lines, explained, writers):
        part(rows)
    print("\n".join(rows.faults or [f"all {rows.count} rows are as they should be"]))
    return 1 if rows.faults else 0


if __name__ == "__main__":
    sys.exit(main(*sys.argv[1:]))
