"""Holds the blocks of code and the links of some documents to the repository.

usage: blocks.py PROGRAM FOLDER [FILE..]

A block stands between lines of three backticks. The first of these says what it is:

- LANGUAGE PATH, as `rust crates/hello_example/src/main.rt`: its lines stand in that file, one after the other, but for an indentation that
  they may lack together. A line `// ..` or `# ..` is a cut, and what follows it stands further down in the file.
- `console`: a line `$ COMMAND` is run, and prints the lines below it, on either stream. The command is ./play, with the program PROGRAM.
- `script PATH`: on the left is all of that script, and on the right all that the program prints of it, parted by two blanks or more.
  What follows in a third column is a remark.
- `session console WORD..`: on the left are lines that are typed to the program console, started with these words, and on the right, parted by
  two blanks or more, what it prints then, in any order before the next line is typed. Where nothing stands on the right nothing is printed.
  What follows in a third column is a remark.
- `sh`: commands that are not run, since they take long. The first word of each is in the repository or a command of this machine, and so is
  each path in a command. `#` begins a remark; a word in capitals, as NAME, stands for what a reader puts there.

Any other block is a fault, and so is code that is only indented. The files are the three named in FILES, if none is given. Of these, and of
all documents of the repository, each link leads to a file that is there, and to a heading of it. What the test itself would pass over is tried
first: each block of FLAWS has to be one fault, and so has each link of BROKEN.
"""

import glob
import os
import re
import shutil
import subprocess
import sys

sys.dont_write_bytecode = True
SECONDS = 600
TOP = os.path.realpath(f"{os.path.dirname(os.path.realpath(__file__))}/../..")
CONSOLE = f"{TOP}/crates/console/out/console"
sys.path.insert(0, f"{TOP}/tests/console")
from drive import Console, Stopped

FILES = ("README.md", "docs/GUIDE.md", "docs/SCRIPTS.md")
DOCUMENTS = ("README.md", "docs/*.md", "tests/*.md", "bench/*.md", "crates/*/wrong-bodies/*.md")
LINK = re.compile(r"\]\(([^)\s]+)\)")
BROKEN = ("[x](none.md)", "[x](docs/none.md#a)", "[x](docs/MODEL.md#none)", "[x](#none)")
FOLDERS = ("bench", "crates", "docs", "examples", "tests")
FLAWS = (
    ("", ["echo"]),
    ("rust", ["fn main()"]),
    ("rust crates/none/src/main.rt", ["fn main()"]),
    ("text crates.txt", ["feed_core: flow_rules", "flow_rules: boxcar"]),
    ("text crates.txt", ["feed_core: flow_rules", "# ..", "flow_rules: boxcar"]),
    ("text crates.txt", ["flow_rules: boxcar", " feed_core: flow_rules"]),
    ("text crates.txt", []),
    ("console", ["$ ./play examples/first.script", "cap 4"]),
    ("console", ["cap 4"]),
    ("console", ["$ rm -rf crates"]),
    ("script examples/first.script", ["cap 3   cap 4"]),
    ("script examples/none.script", ["cap 3   cap 4"]),
    ("session console", ["lag   = lag 1"]),
    ("session console", ["lag   = lag 0", "lag"]),
    ("session console", []),
    ("session none", ["lag   = lag 0"]),
    ("sh", ["no_such_command examples"]),
    ("sh", ["./play examples/none.script"]),
    ("sh", ["# nothing"]),
)


def lines_of(file):
    with open(file, encoding="utf-8") as it:
        return it.read().split("\n")


def indentation(lines):
    """The blanks with which each line begins that has anything else."""
    return min((len(it) - len(it.lstrip(" ")) for it in lines if it.strip()), default=0)


def without_blanks(lines):
    """The lines without their common indentation, and without empty ones at either end."""
    least = indentation(lines)
    return "\n".join(it[least:].rstrip() for it in lines).strip("\n").split("\n")


def place_of(part, lines, start):
    """The line after the first place from `start` on at which the part stands; None if there is none."""
    wanted = without_blanks(part)
    for at in range(start, len(lines) - len(wanted) + 1):
        if without_blanks(lines[at : at + len(wanted)]) == wanted and lines[at].strip():
            return at + len(wanted)
    return None


def anchors_of(file):
    """The headings of a document, as a link names them."""
    headings = (re.sub(r"^#+ ", "", it) for it in lines_of(file) if re.match(r"#+ ", it))
    return {re.sub(r"[^\w\- ]", "", re.sub(r"\[([^]]*)\]\([^)]*\)", r"\1", it)).strip(" ").lower().replace(" ", "-") for it in headings}


def parts_of(lines):
    """The lines between the cuts."""
    parts = [[]]
    for line in lines:
        if line.strip() in ("// ..", "# .."):
            parts.append([])
        else:
            parts[-1].append(line)
    return parts


class Documents:
    def __init__(self, program, folder):
        self.folder, self.faults, self.blocks, self.links = folder, [], 0, 0
        for name in ("tests", "crates/lines_demo/out"):
            os.makedirs(f"{folder}/{name}")
        for name in ("play", "crates.txt", "tests/program.sh"):
            shutil.copy(f"{TOP}/{name}", f"{folder}/{name}")
        os.symlink(f"{TOP}/examples", f"{folder}/examples")
        shutil.copy(program, f"{folder}/crates/lines_demo/out/lines_demo")

    def fault(self, text):
        self.faults.append(f"{self.where}: {text}")

    def read(self, file):
        mark, block, before = None, [], ""
        for number, line in enumerate(lines_of(f"{TOP}/{file}"), 1):
            if line.startswith("```"):
                if mark is None:
                    self.where, mark, block = f"{file}:{number}", line[3:].strip(), []
                else:
                    self.check(mark, block)
                    mark = None
            elif mark is not None:
                block.append(line)
            elif line.startswith("    ") and not before.strip():
                self.where = f"{file}:{number}"
                self.fault("code that is only indented is not looked at")
            before = line
        if mark is not None:
            self.fault("the block has no end")

    def check_link(self, file, link):
        """Whether a link of a document leads to a file that is there, and to a heading of it."""
        path, _, heading = link.partition("#")
        target = os.path.normpath(f"{TOP}/{os.path.dirname(file)}/{path}") if path else f"{TOP}/{file}"
        self.links += 1
        if not os.path.exists(target):
            self.fault(f"there is nothing at {path}")
        elif heading and heading not in anchors_of(target):
            self.fault(f"{path or 'this document'} has no heading {heading}")

    def read_links(self, file):
        is_code = False
        for number, line in enumerate(lines_of(f"{TOP}/{file}"), 1):
            self.where = f"{file}:{number}"
            is_code ^= line.startswith("```")
            for link in () if is_code else LINK.findall(line):
                if not re.match(r"https?:", link):
                    self.check_link(file, link)

    def check(self, mark, block):
        self.blocks += 1
        words = mark.split()
        if words == ["console"]:
            self.console(block)
        elif words == ["sh"]:
            self.commands(block)
        elif words[:1] == ["session"]:
            self.session(words[1:], block)
        elif len(words) != 2:
            self.fault(f"a block is `LANGUAGE PATH`, `console`, `script PATH`, `session console WORD..` or `sh`, and not `{mark}`")
        elif not os.path.isfile(f"{TOP}/{words[1]}"):
            self.fault(f"there is no file {words[1]}")
        elif words[0] == "script":
            self.script(words[1], block)
        else:
            self.source(words[1], block)

    def source(self, file, block):
        lines, at = lines_of(f"{TOP}/{file}"), 0
        for part in parts_of(block):
            if not "".join(part).strip():
                self.fault("a part has no line")
                return
            found = place_of(part, lines, at)
            if found is None:
                self.fault(f"this does not stand in {file}, line after line: {without_blanks(part)[0]}")
                return
            at = found

    def output_of(self, command):
        """What a command prints on both streams."""
        ran = subprocess.run(
            ["bash", "-c", command],
            cwd=self.folder, stdin=subprocess.DEVNULL, stdout=subprocess.PIPE, stderr=subprocess.STDOUT, timeout=SECONDS, check=False,
        )
        return ran.stdout.decode().rstrip("\n").split("\n")

    def console(self, block):
        if not block or not block[0].startswith("$ "):
            self.fault("no command stands before the first line")
            return
        commands = []
        for line in block:
            if line.startswith("$ "):
                commands.append((line[2:], []))
            else:
                commands[-1][1].append(line)
        for command, wanted in commands:
            if command.split()[0] != "./play":
                self.fault(f"the command is not ./play: {command}")
            elif self.output_of(command) != wanted:
                self.fault(f"this prints something else: {command}")

    def script(self, file, block):
        rows = [re.split(r" {2,}", line.rstrip()) for line in block]
        script = [row[0] for row in rows if row[0]]
        wanted = [row[1] for row in rows if len(row) > 1]
        if script != [it for it in lines_of(f"{TOP}/{file}") if it]:
            self.fault(f"the left is not {file}")
        elif self.output_of(f"./play {file}") != wanted:
            self.fault(f"the right is not the output of {file}")

    def session(self, words, block):
        steps = []
        for row in (re.split(r" {2,}", line.rstrip()) for line in block):
            if row[0]:
                steps.append((row[0], row[1:2]))
            elif steps:
                steps[-1][1].extend(row[1:2])
        if words[:1] != ["console"] or not steps:
            self.fault(f"a session is of the program console, and has lines: {' '.join(words)}")
            return
        try:
            with Console(CONSOLE, words[1:]) as it:
                for typed, wanted in steps:
                    it.say(typed.encode(), *(line.encode() for line in wanted))
                    if not wanted:
                        it.quiet()
                it.quiet()
        except Stopped as stopped:
            self.fault(f"the session goes another way: {stopped}")

    def commands(self, block):
        commands = [it.split() for it in (line.partition("#")[0] for line in block) if it.strip()]
        if not commands:
            self.fault("there is no command")
        for words in commands:
            if not (os.access(f"{TOP}/{words[0]}", os.X_OK) or shutil.which(words[0]) or words[0] == "cd"):
                self.fault(f"there is no command {words[0]}")
            for word in (it.lstrip("<") for it in words):
                if word.split("/")[0] in FOLDERS and "/" in word and not re.search(r"\b[A-Z]+\b", word) and not os.path.exists(f"{TOP}/{word}"):
                    self.fault(f"there is no {word}")

    def check_flaws(self):
        """Whether each block of FLAWS and each link of BROKEN is one fault."""
        missed = []
        for link in BROKEN:
            self.where, self.faults = "a flaw", []
            self.check_link("README.md", LINK.findall(link)[0])
            if len(self.faults) != 1:
                missed.append(f"a link that is broken has {len(self.faults)} faults and not one: {link}")
        for mark, block in FLAWS:
            self.where, self.faults = "a flaw", []
            self.check(mark, block)
            if len(self.faults) != 1:
                missed.append(f"a block that is wrong has {len(self.faults)} faults and not one: {[mark, *block]}")
        self.faults, self.blocks, self.links = missed, 0, 0


def main(words):
    documents = Documents(words[0], os.path.realpath(words[1]))
    documents.check_flaws()
    for file in words[2:] or FILES:
        documents.read(file)
    for pattern in DOCUMENTS:
        for file in sorted(glob.glob(pattern, root_dir=TOP)):
            documents.read_links(file)
    if not documents.blocks or not documents.links:
        documents.faults.append("no block or no link was found")
    print("\n".join([*documents.faults, f"{documents.blocks} blocks, {documents.links} links, {len(documents.faults)} faults"]))
    return 1 if documents.faults else 0


if __name__ == "__main__":
    sys.exit(main(sys.argv[1:]))
