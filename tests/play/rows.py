"""Runs ./play, and compares what it writes and its status.

usage: rows.py PROGRAM FOLDER

A row has a copy of ./play in a folder of its own below FOLDER, with the native program PROGRAM or without it, and a PATH of the commands
that play needs. If `rt` is among them, it is rt_stand_in, which does what STAND_IN says, and so is what compiles without proof. After a row
nothing may be left in the folder for temporary files, and no stand-in may run. The rows run side by side, since most of them wait.
"""

import fcntl
import os
import pty
import shutil
import signal
import subprocess
import sys
import termios
import time
from concurrent.futures import ThreadPoolExecutor

SECONDS = 600
HERE = os.path.dirname(os.path.realpath(__file__))
TOP = os.path.realpath(f"{HERE}/../..")
COMMANDS = "awk bash basename cat chmod dirname find grep head mkdir mktemp readlink rm sed sh sleep sort tac tail touch".split()
PROGRAMS = ("lines_demo", "console", "fanout")
MOST = 16777216
SLOW = 2.3  # seconds between the parts of a slow input


def contents(file):
    with open(file, "rb") as it:
        return it.read()


SCRIPT = contents(f"{TOP}/examples/first.script")
PLAYED = contents(f"{TOP}/examples/first.expected")
LINES = contents(f"{TOP}/examples/lines.txt")
REPORT = b"a 1 q\na 2 p\na 2 r\na complete 3\ndrained 1\n"
THREADS = ["threads", "--workers", "2", "--cap", "1", "a:3"]


class Site:
    """A folder with ./play in it."""

    def __init__(self, folder, program, stand_in):
        self.folder, self.stand_in = folder, stand_in
        for name in ("tests/play", "tools", "crates/flow_rules/src", "tmp", "bin", "the caller's folder"):
            os.makedirs(f"{folder}/{name}")
        for name in PROGRAMS:
            os.makedirs(f"{folder}/crates/{name}/out")
            os.makedirs(f"{folder}/crates/{name}/src")
            self.write(f"crates/{name}/src/main.rt", "")
        for name in ("play", "crates.txt", "tests/program.sh", "crates/lines_demo/args", "crates/fanout/args"):
            shutil.copy(f"{TOP}/{name}", f"{folder}/{name}")
        shutil.copytree(f"{HERE}/help", f"{folder}/tests/play/help")
        for name in COMMANDS:
            os.symlink(shutil.which(name), f"{folder}/bin/{name}")
        if stand_in:
            shutil.copy(f"{HERE}/rt_stand_in", f"{folder}/bin/rt")
            shutil.copy(f"{HERE}/rt_stand_in", f"{folder}/tools/unproved.sh")
        if program:
            shutil.copy(program, self.built())
            self.write("crates/console/out/console", '#!/bin/sh\necho "console $*"\nexec cat\n')
            self.write("crates/fanout/out/fanout", '#!/bin/sh\nfor file; do echo "fanout $file"; done\nexec cat >"$file"\n')
            for name in PROGRAMS[1:]:
                os.chmod(self.built(name), 0o755)

    def write(self, file, text):
        with open(f"{self.folder}/{file}", "w", encoding="utf-8") as it:
            it.write(text)

    def built(self, name="lines_demo"):
        return f"{self.folder}/crates/{name}/out/{name}"

    def start(self, words, stdin, stderr=subprocess.PIPE, **how):
        env = {"PATH": f"{self.folder}/bin", "TMPDIR": f"{self.folder}/tmp", "STAND_IN": self.stand_in or ""}
        how = {"stdin": stdin, "stdout": subprocess.PIPE, "stderr": stderr, "env": env, "cwd": self.folder, **how}
        return subprocess.Popen([f"{self.folder}/play", *words], **how, start_new_session=True)

    def end(self, process):
        """The status, the output and standard error, once it has ended."""
        try:
            output, said = process.communicate(timeout=SECONDS)
        except subprocess.TimeoutExpired:
            os.killpg(process.pid, signal.SIGKILL)
            process.communicate()
            return None, b"", b""
        return process.returncode, output, said

    def run(self, words, given=b"", **how):
        """A run on a pipe with these bytes."""
        read, write = os.pipe()
        process = self.start(words, read, **how)
        os.close(read)
        with ThreadPoolExecutor(1) as pool:
            pool.submit(feed, write, [given])
            return self.end(process)

    def left(self):
        """What a row must not leave behind."""
        files = os.listdir(f"{self.folder}/tmp")
        calls = contents(f"{self.folder}/bin/calls").split(b"\n") if os.path.exists(f"{self.folder}/bin/calls") else []
        alive = [it for it in calls if it and os.path.exists(b"/proc/" + it.split()[0])]
        return (f"leaves {files}; " if files else "") + (f"{alive} run still; " if alive else "")


def feed(write, parts):
    """Writes the parts to a pipe, the second and each further one after a silence."""
    try:
        with os.fdopen(write, "wb", 0) as it:
            for number, part in enumerate(parts):
                time.sleep(SLOW if number else 0)
                it.write(part)
    except BrokenPipeError:
        pass


def differs(got, status, output, said):
    """What is wrong with what a run did; SAID is the whole of standard error, or a function of it."""
    if got[0] != status:
        return f"status {got[0]}, where it should be {status}: {got[2]!r:.300}"
    if got[1] != output:
        return f"output {got[1]!r:.300}, where it should be {output!r:.300}"
    if not (said(got[2]) if callable(said) else got[2] == said):
        return f"standard error {got[2]!r:.600}"
    return ""


def has(*words):
    return lambda said: all(it in said for it in words)


def refuses(*words):
    """A row of what is refused: status 125, nothing on standard output, and these words on standard error."""
    return 125, b"", has(b"play: ", *words)


USAGE = b"usage: ./play"


# Rows with the native program.


def plays_a_file(site):
    shutil.copy(f"{TOP}/examples/first.script", f"{site.folder}/threads")
    return differs(site.run(["./threads"]), 0, PLAYED, b"")


def explains_a_file(site):
    shutil.copy(f"{TOP}/tests/scripts/explained_refusals.script", f"{site.folder}/script")
    wanted = [contents(f"{TOP}/tests/scripts/explained_refusals.{it}") for it in ("expected", "explained")]
    return differs(site.run(["--explain", "script"]), 0, *wanted)


def explains_a_pipe(site):
    return differs(site.run(["--explain"], b"more\n"), 0, b"refused 12 command\n", has(b"line 1: more: "))


def plays_a_pipe(site):
    return differs(site.run([], SCRIPT), 0, PLAYED, b"")


def plays_nothing(site):
    return differs(site.run([]), 0, b"", b"")


def plays_from_elsewhere(site):
    os.symlink(f"{site.folder}/play", f"{site.folder}/bin/elsewhere")
    got = subprocess.run(
        ["./elsewhere"], input=SCRIPT, capture_output=True, cwd=f"{site.folder}/bin", env={"PATH": f"{site.folder}/bin"}
    )
    return differs((got.returncode, got.stdout, got.stderr), 0, PLAYED, b"")


def plays_a_slow_pipe(site):
    read, write = os.pipe()
    process = site.start([], read)
    os.close(read)
    with ThreadPoolExecutor(1) as pool:
        pool.submit(feed, write, [SCRIPT[:20], SCRIPT[20:]])
        return differs(site.end(process), 0, PLAYED, b"")


def typed(site, words, text):
    """A run at a terminal at which this text is typed, and then Ctrl-D."""
    master, slave = pty.openpty()
    process = site.start(words, slave)
    os.close(slave)
    os.write(master, text + b"\x04")
    got = site.end(process)
    os.close(master)
    return got


def plays_a_terminal(site):
    return differs(typed(site, [], SCRIPT), 0, PLAYED, b"play: reading the script, end it with Ctrl-D\n")


def plays_lines(site):
    return differs(site.run(THREADS, LINES), 0, REPORT, b"")


def plays_lines_of_a_terminal(site):
    return differs(typed(site, THREADS, LINES), 0, REPORT, b"play: reading the lines, end them with Ctrl-D\n")


def plays_lines_to_an_open_end(site):
    words = [*THREADS[:-1], "a:2"]
    return differs(site.run(words, b"7 v\n7 w\n7 x\n"), 3, b"a 7 v\na 7 w\na open 2\ndrained 0\n", b"")


def refuses_lines(site):
    return differs(site.run([*THREADS, "a:1"], LINES), 2, b"", has(b"lines_demo: refused 3 duplicate\n"))


def explains_threads(site):
    """Nothing is read for it, here from a pipe that nobody closes."""
    read, write = os.pipe()
    try:
        got = site.end(site.start(["threads", "--help"], read))
        more = site.end(site.start(["threads"], read))
    finally:
        os.close(read)
        os.close(write)
    if got[0] != 0 or got[2] or b"--workers" not in got[1]:
        return f"--help: {got!r:.300}"
    return differs(more, 2, b"", has(b"--workers"))


def reads_no_further_than_the_program(site):
    """An input without an end."""
    with open("/dev/zero", "rb") as zero:
        got = site.end(site.start([], zero))
    return differs(got, 1, b"", b"lines_demo: the input has more than 16,777,216 bytes\n")


def plays_the_longest_script(site):
    return differs(site.run([], b"\n" * MOST), 0, b"", b"")


def refuses_wrong_words(site):
    why = ""
    os.mkdir(f"{site.folder}/folder")
    for words, refusal in (
        (["folder"], refuses(b"folder is a folder", USAGE)),
        ([""], refuses(b"empty", USAGE)),
        (["one", "two"], refuses(b"more than one", USAGE)),
        (["--build", "one", "two"], refuses(b"more than one", USAGE)),
        (["--build", "flow_rules"], refuses(b"no program crates/flow_rules", USAGE)),
        (["--build", "../crates/console"], refuses(b"no program", USAGE)),
        (["--more"], refuses(b"--more", USAGE)),
        (["--explain", "--build"], refuses(b"--build", USAGE)),
        (["--explain", "one", "two"], refuses(b"more than one", USAGE)),
        (["--explain", ""], refuses(b"empty", USAGE)),
        (["nothing"], refuses(b"there is no file nothing\n")),
        (["fanuot", "x"], refuses(b"there is no command fanuot; is it fanout?", USAGE)),
        (["consol"], refuses(b"there is no file consol; is it console?\n")),
        (["--bulid"], refuses(b"there is no option --bulid; is it --build?", USAGE)),
        (["--build", "line_demo"], refuses(b"no program crates/line_demo; is it lines_demo?", USAGE)),
    ):
        it = differs(site.run(words), *refusal)
        why += f"{words}: {it}; " if it else ""
    return why


def refuses_what_cannot_be_read(site):
    with_folder = os.open("/", os.O_RDONLY)
    got = site.end(site.start([], with_folder))
    os.close(with_folder)
    return differs(got, *refuses(b"can't be read"))


def explains_itself(site):
    got = site.run(["--help"])
    return differs((*got[:1], b"", got[2]), 0, b"", b"") or ("" if got[1].startswith(USAGE) else f"output {got[1]!r:.100}")


def opens_the_console(site):
    """It has the words and the standard input, which is not read before."""
    got = site.run(["console", "--cap", "1"], b"a line\n")
    return differs(got, 0, b"console --cap 1\na line\n", b"")


def takes_names_with_spaces(site):
    """The files of fanout, and a script, are those of the caller's folder, and their names may have spaces."""
    there = f"{site.folder}/the caller's folder"
    got = site.run(["fanout", "--to", "one  file", "two files *"], b"a line\n", cwd=there)
    why = differs(got, 0, b"fanout --to\nfanout one  file\nfanout two files *\n", b"")
    if why or contents(f"{there}/two files *") != b"a line\n":
        return why or "the file has something else"
    shutil.copy(f"{TOP}/examples/first.script", f"{there}/a script")
    return differs(site.run(["a script"], cwd=there), 0, PLAYED, b"")


def opens_the_console_at_a_terminal(site):
    return differs(typed(site, ["console"], b"a line\n"), 0, b"console \na line\n", b"")


# Rows with the stand-in.


def calls_of(site):
    return [it.split(b" ", 1)[1] for it in contents(f"{site.folder}/bin/calls").splitlines()]


def unproved(name):
    return b"play: this %s is unproved; to prove and build it: ./play --build %s\n" % (name, name)


UNPROVED = unproved(b"lines_demo")


def compiles(site):
    """The program's status, output and standard error come through, and its input is whole. A second time nothing is compiled, nor said."""
    read, write = os.pipe()
    process = site.start([], read)
    os.close(read)
    with ThreadPoolExecutor(1) as pool:
        pool.submit(feed, write, [SCRIPT[:20], SCRIPT[20:]])
        got = site.end(process)
    lines = got[2].splitlines()
    steps = [it for it in lines if it.startswith((b"play: 1 of 2, ", b"play: 2 of 2, "))]
    # It takes three seconds, and a pipe gets a line every ten.
    if len(steps) != 1 or not steps[0].endswith(b" s"):
        return f"the steps are {steps}"
    why = differs(got, 3, b"out\n", has(b"without proof", UNPROVED + b"lines_demo: a word\n"))
    again = differs(site.run([], SCRIPT), 3, b"out\n", b"lines_demo: a word\n")
    if why or again:
        return f"{why} {again}"
    if contents(f"{site.folder}/bin/given") != SCRIPT:
        return "it was given another script"
    return "" if calls_of(site) == [b"lines_demo", b"ran script", b"ran script"] else f"the calls are {calls_of(site)}"


def drained(master):
    """What a terminal that nobody writes to any more shows."""
    said = b""
    while True:
        try:
            more = os.read(master, 65536)
        except OSError:
            more = b""
        if not more:
            os.close(master)
            return said
        said += more


def compiles_at_a_terminal(site):
    """One line takes the place of the other, and none is left."""
    master, slave = pty.openpty()
    with open(f"{site.folder}/lines", "wb") as it:
        it.write(LINES)
    with open(f"{site.folder}/lines", "rb") as it:
        process = site.start(THREADS, it, slave)
    os.close(slave)
    status, output, _ = site.end(process)
    said = drained(master).replace(b"\r\n", b"\n")
    shown = said.split(b"\r\x1b[K")
    if len(shown) < 4 or any(b"\n" in it for it in shown[1:-1]) or shown[-1] != UNPROVED + b"lines_demo: a word\n":
        return f"the terminal shows {said!r}"
    if calls_of(site) != [b"lines_demo", b"ran " + " ".join(THREADS).encode()]:
        return f"the calls are {calls_of(site)}"
    return differs((status, output, b""), 3, b"out\n", b"")


def compiles_the_console(site):
    """It is given standard input itself, here what is written after it was compiled."""
    read, write = os.pipe()
    process = site.start(["console", "--late"], read)
    os.close(read)
    with ThreadPoolExecutor(1) as pool:
        pool.submit(feed, write, [b"", b"", b"a line\n"])
        got = site.end(process)
    why = differs(got, 3, b"out\n", has(unproved(b"console")))
    if why or contents(f"{site.folder}/bin/given") != b"a line\n":
        return why or "it was given another input"
    return "" if calls_of(site) == [b"console", b"ran --late"] else f"the calls are {calls_of(site)}"


def compiles_fanout(site):
    """Standard error has the program's report alone, the first time, too. The files are those of the caller's folder."""
    there = f"{site.folder}/the caller's folder"
    for _ in range(2):
        got = site.run(["fanout", "--report", "json", "a file"], b"a line\n", cwd=there)
        why = differs(got, 3, b"out\n", b"fanout: a word\n")
        if why or contents(f"{site.folder}/bin/given") != b"a line\n":
            return why or "it was given another input"
    ran = b"ran --report json a file in " + there.encode()
    return "" if calls_of(site) == [b"fanout", ran, ran] else f"the calls are {calls_of(site)}"


def notes_at_the_terminal(site):
    """If standard error is none, what is said of the compiling goes to the terminal that it was called from."""
    master, slave = pty.openpty()
    read, write = os.pipe()
    os.close(write)
    process = site.start(["fanout", "copy"], read, preexec_fn=lambda: fcntl.ioctl(slave, termios.TIOCSCTTY, 0), pass_fds=(slave,))
    os.close(read)
    os.close(slave)
    why = differs(site.end(process), 3, b"out\n", b"fanout: a word\n")
    said = drained(master)
    return why or ("" if unproved(b"fanout")[:-1] in said and b"fanout: a word" not in said else f"the terminal shows {said!r}")


def helps_at_once(site):
    """The help of each program, before anything is compiled."""
    why = ""
    for words in (["threads"], ["threads", "--cap", "1"], ["console", "--late"], ["fanout"], ["fanout", "a file", "--cap=1"]):
        for option in ("--help", "-h"):
            wanted = contents(f"{HERE}/help/{words[0]}.txt")
            it = differs(site.run([*words, option]), 0, wanted, b"")
            why += f"{words}: {it}; " if it else ""
    return why or ("something was compiled" if os.path.exists(f"{site.folder}/bin/calls") else "")


def finds_a_folder_that_cannot_be_written(site):
    """Before anything is compiled or proved, and before a script is read: here from a pipe that nobody closes."""
    for name in PROGRAMS:
        site.write(f"crates/{name}/out/unproved", "")
    os.rmdir(f"{site.folder}/crates/flow_rules/src")
    read, write = os.pipe()
    why = ""
    try:
        for words, name in (([], "lines_demo"), (THREADS, "lines_demo"), (["console"], "console"), (["fanout", "a"], "fanout")):
            it = differs(site.end(site.start(words, read)), *refuses(b"the folder crates/%s/out/unproved can't be written" % name.encode()))
            why += f"{words}: {it}; " if it else ""
        shutil.rmtree(f"{site.folder}/crates/fanout/out")
        site.write("crates/fanout/out", "")
        it = differs(site.end(site.start(["--build"], read)), *refuses(b"the folder crates/fanout/out can't be written"))
        why += f"--build: {it}; " if it else ""
    finally:
        os.close(read)
        os.close(write)
    return why or ("something was compiled" if os.path.exists(f"{site.folder}/bin/calls") else "")


OPTIONS_OF_FANOUT = b"".join(it.split()[0] + b", " for it in contents(f"{HERE}/help/fanout.txt").splitlines() if it.startswith(b"      --"))[:-2]
NO_SINK = b"play: fanout needs a sink: name a file, or - for standard output\n"


def refuses_wrong_words_at_once(site):
    """Before anything is compiled, with the program's status."""
    why = ""
    for words, said in (
        (["threads", "--workers", "1", "--cap", "1", "a"], b"play: a: a subscriber is NAME:D\n"),
        (["threads", "--workers", "1", "--cap", "1", "a:x"], b"play: a:x: a subscriber is NAME:D\n"),
        (["threads", "--workers", "1", "--cap", "1"], b"play: threads needs a subscriber NAME:D\n"),
        (["threads", "--cap", "1", "a:1"], b"play: threads needs --workers W\n"),
        (["threads", "--workers", "1", "a:1"], b"play: threads needs --cap N\n"),
        (["threads", "--workers", "x", "--cap", "1", "a:1"], b"play: --workers x: it takes a number\n"),
        (["threads", "--workers=1", "--cap", "4k", "a:1"], b"play: --cap 4k: it takes a number\n"),
        (["threads", "--workers", "1", "a:1", "--cap"], b"play: --cap is the last word: it takes a number\n"),
        ([*THREADS, "--fail", "a:1"], b"play: --fail a:1: it takes NAME:K:C\n"),
        ([*THREADS, "--wait"], b"play: --wait: threads has no such option (--workers W, --cap N, --fail NAME:K:C, --explain)\n"),
        (["console", "--cpa", "1"], b"play: --cpa: console has no such option (--workers W, --cap N, --late, --stamp)\n"),
        (["console", "file"], b"play: file: console takes options alone (--workers W, --cap N, --late, --stamp)\n"),
        (["fanout"], NO_SINK),
        (["fanout", "--append"], NO_SINK),
        (["fanout", "--from", "a", "--"], NO_SINK),
        (["fanout", "--frob", "a"], b"play: --frob: fanout has no such option; is it --from? (%s)\n" % OPTIONS_OF_FANOUT),
        (["fanout", "-x", "a"], b"play: -x: fanout has no such option (%s)\n" % OPTIONS_OF_FANOUT),
        (["fanout", "a", "--cap"], b"play: --cap is the last word, and it takes <N>\n"),
        (["fanout", "a", "--to"], b"play: --to is the last word, and it takes <FILE>\n"),
        (["fanout", "a", "--cap", "4k"], b"play: --cap 4k: it takes a number\n"),
        (["fanout", "a", "--cap="], b"play: --cap is the last word: it takes a number\n"),
        (["fanout", "a", "--workers", "0"], b"play: --workers 0: it takes a number from 1 on\n"),
        (["fanout", "a", "--linger=x"], b"play: --linger x: it takes a number\n"),
        (["fanout", "a", "--report", "xml"], b"play: --report xml: it takes one of text json csv none\n"),
        (["fanout", "a", "--grep", "x"], b"play: --grep stands behind all sinks, and it is for the next one\n"),
        (["fanout", "--not", "x"], NO_SINK),
    ):
        it = differs(site.run(words, LINES), 2, b"", said)
        why += f"{words}: {it}; " if it else ""
    return why or ("something was compiled" if os.path.exists(f"{site.folder}/bin/calls") else "")


def says_why_it_was_not_compiled(site):
    why = differs(site.run([], SCRIPT), *refuses(b"error: a source is wrong\n", b"./play --build lines_demo\n"))
    return why or differs(site.run(["fanout", "a"]), *refuses(b"error: a source is wrong\n", b"./play --build fanout\n"))


def ends_what_it_started(site):
    process = site.start([], subprocess.DEVNULL)
    for _ in range(100):
        if os.path.exists(f"{site.folder}/bin/calls"):
            break
        time.sleep(0.1)
    process.terminate()
    return differs((*site.end(process)[:2], b""), 143, b"", b"")


def compiles_what_is_old(site):
    source = f"{site.folder}/crates/lines_demo/src/main.rt"
    with open(source, "wb"):
        os.utime(site.built(), (1, 1))
    return differs(site.run([], SCRIPT), *refuses(b"error: a source is wrong\n"))


def builds(site):
    got = site.run(["--build"])
    steps = ["proving flow_rules", *[f"{act} {name}" for act in ("proving", "building") for name in PROGRAMS]]
    wanted = [f"play: {at} of 7, {it}".encode() for at, it in enumerate(steps, 1)]
    lines = got[2].splitlines()
    shown = [it for it in lines if it.startswith(wanted[0] + b", 1 of 2 functions, ") and it.endswith(b" s")]
    if [it for it in lines if it in wanted] != wanted or not shown:
        return f"standard error {got[2]!r}"
    why = differs(got, 0, b"", has(b"half an hour", *[f"built: crates/{it}/out/{it}\n".encode() for it in PROGRAMS]))
    if why or calls_of(site) != [b"check"] * 4 + [b"run -- script", b"run --", b"run -- --not secret - --report none"]:
        return why or f"rt was given {calls_of(site)}"
    return "" if all(os.access(site.built(it), os.X_OK) for it in PROGRAMS) else "there is no program"


def builds_one(site):
    got = site.run(["--build", "console"])
    why = differs(got, 0, b"", has(b"built: crates/console/out/console"))
    return why or ("" if calls_of(site) == [b"check", b"check", b"run --"] else f"rt was given {calls_of(site)}")


def shows_why_it_was_not_built(site):
    return differs(site.run(["--build"]), *refuses(b"error: not proved", b"not built"))


def needs_rt(site):
    """Not for a help."""
    return differs(site.run(["fanout", "--help"]), 0, contents(f"{HERE}/help/fanout.txt"), b"") or differs(site.run([], SCRIPT), *refuses(b"rt of the toolchain")) or differs(
        site.run(["--build"]), *refuses(b"rt of the toolchain")
    )


NATIVE = (
    plays_a_file,
    explains_a_file,
    explains_a_pipe,
    plays_a_pipe,
    plays_nothing,
    plays_from_elsewhere,
    plays_a_slow_pipe,
    plays_a_terminal,
    plays_lines,
    plays_lines_of_a_terminal,
    plays_lines_to_an_open_end,
    refuses_lines,
    explains_threads,
    reads_no_further_than_the_program,
    plays_the_longest_script,
    refuses_wrong_words,
    refuses_what_cannot_be_read,
    explains_itself,
    opens_the_console,
    takes_names_with_spaces,
    opens_the_console_at_a_terminal,
)
TRIED = (
    (compiles, "ends"),
    (compiles_at_a_terminal, "ends"),
    (compiles_the_console, "ends"),
    (compiles_fanout, "ends"),
    (notes_at_the_terminal, "ends"),
    (helps_at_once, "ends"),
    (finds_a_folder_that_cannot_be_written, "ends"),
    (refuses_wrong_words_at_once, "ends"),
    (says_why_it_was_not_compiled, "refused"),
    (ends_what_it_started, "hangs"),
    (builds, "ends"),
    (builds_one, "ends"),
    (shows_why_it_was_not_built, "refused"),
    (needs_rt, None),
)


def main(program, folder):
    rows = [(row, program, None) for row in NATIVE] + [(row, None, stand_in) for row, stand_in in TRIED]
    rows.append((compiles_what_is_old, program, "refused"))
    # All files are written before the first row starts a process: one that is being started holds what others write.
    sites = [(row, Site(f"{folder}/{row.__name__}", program, stand_in)) for row, program, stand_in in rows]

    def faults_of(row, site):
        try:
            why = row(site)
        except (OSError, ValueError) as error:
            why = f"{type(error).__name__}: {error}"
        return "; ".join(it for it in (why, site.left()) if it)

    with ThreadPoolExecutor(8) as pool:
        faults = [f"{row[0].__name__}: {why}" for row, why in zip(sites, pool.map(lambda it: faults_of(*it), sites)) if why]
    print("\n".join(faults or [f"all {len(rows)} rows are as they should be"]))
    return 1 if faults else 0


if __name__ == "__main__":
    sys.exit(main(*sys.argv[1:]))
