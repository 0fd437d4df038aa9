"""Holds docs/PROMISES.md and docs/promises/ to the crates.

usage: tests/promises/promises.sh [--write | FILE]

The pages docs/promises/NAME.md are printed from the crates (pages.py): each has to be what is printed now, and --write writes them. What is
printed comes from the edits crates/NAME/wrong-bodies/*.edit, and from tests.txt beside this script. An edit may say, by lines after all others,

    shows: FUNCTION CLAUSE
    says: SENTENCE

which clauses it shows, and what these promise. Without `shows:` it shows the clauses of the function that it changes that its lines `clause:`
name. FUNCTION is `f`, `Type::f`, `Trait::f` or `<Type as Trait>::f`, or several, parted by `, `; or, for a ghost member, a struct or an impl.
CLAUSE is a name, the words its only one, or the word ghost and a name. tests.txt has lines `CRATE FUNCTION CLAUSE: TEST, ..`, with tests that show
a clause: names of test functions of any crate, and paths from the top of the repository. All that these lines name has to be there.

The section `## Thirty promises` of docs/PROMISES.md, or of FILE, has a table by hand:

| Promise | Crate | Function | Clause | Shown by |

Its names stand in backticks; Clause may be `its only one`, or the word ghost and a name. After the word test in Shown by stand tests; a cell that
begins with `no edit:` gives a reason. An edit of the row's own function says that it is refused at the row's clause, or at a goal before it;
that it is refused there, tools/wrong_bodies/try.py sees.
"""

import os
import re
import sys

sys.dont_write_bytecode = True
from crates import ONLY, PLACE, TOP, crates_of, joined, owner_of_function, plain, text_of
from pages import pages_of, tests_of

FIRST = "Thirty promises"
HEAD = ["Promise", "Crate", "Function", "Clause", "Shown by"]


def changed_by(edit):
    """How rows may name the functions that an edit changes: a method of the impl of a trait also as the trait's."""
    names = set()
    for function in (it.function for it in edit.changes):
        owner, trait = owner_of_function(function)
        names |= {plain(joined(it, function.name)) for it in (owner, trait or owner)}
    return names


class Promises:
    """What the crates promise, with what is wrong with the documents on it."""

    def __init__(self):
        self.crates, self.faults, self.rows = crates_of(TOP), [], 0
        self.tests = {name for it in self.crates.values() for name in it.tests}

    def fault(self, where, text):
        self.faults.append(f"{where}: {text}")

    def check_lines(self):
        """All that the edits and tests.txt name is there, and each edit shows something, or stands in the README beside it."""
        for name, crate in self.crates.items():
            for edit in crate.edits.values():
                where, shown = f"crates/{name}/wrong-bodies/{edit.name}.edit", crate.shown_by(edit)
                for line in edit.telling:
                    if not re.match(r"says: \S", line) and not (line.startswith("shows: ") and PLACE.fullmatch(line[7:])):
                        self.fault(where, f"this is no `shows: FUNCTION CLAUSE` and no `says: SENTENCE`: {line}")
                if any(it.startswith("shows") for it in edit.telling):
                    for it in shown:
                        self.check_clause(where, crate, it.function, it.clause, [edit])
                if not shown and not re.search(rf"\b{re.escape(edit.name)}\b", crate.readme):
                    self.fault(where, "it shows no clause, and the README beside it doesn't name it")
            for function, clause, tests in tests_of(crate):
                self.check_clause("tests/promises/tests.txt", crate, function, clause, [])
                self.check_tests("tests/promises/tests.txt", tests)

    def check_clause(self, where, crate, function, clause, edits):
        """Whether a crate has this clause, and each of these edits that is of that function says that it breaks it, or a goal before."""
        if not crate.has(function, clause):
            self.fault(where, f"{crate.name} has no `{function}` with {clause}")
        for edit in (it for it in edits if plain(function) in changed_by(it) and not clause.startswith("ghost ")):
            if clause not in edit.clauses and not edit.goals:
                self.fault(where, f"`{edit.name}` names no clause `{clause}` that it breaks, and no goal before")

    def check_tests(self, where, names):
        for it in names:
            if "/" in it and not os.path.exists(f"{TOP}/{it}") or "/" not in it and it not in self.tests:
                self.fault(where, f"there is no test `{it}`")

    def check_pages(self, is_written):
        """Each page is what is printed, and no other page is there."""
        pages = pages_of(self.crates)
        there = {f"{TOP}/docs/promises/{it}" for it in os.listdir(f"{TOP}/docs/promises")}
        for file in sorted(pages.keys() | there):
            if is_written and file in pages:
                with open(file, "w", encoding="utf-8") as it:
                    it.write(pages[file])
            elif file not in pages or file not in there or text_of(file) != pages[file]:
                self.fault(os.path.relpath(file, TOP), "it is not what is printed; `tests/promises/promises.sh --write` writes it")

    def read(self, file):
        """The rows of the table by hand."""
        name = ""
        for number, line in enumerate(text_of(file).split("\n"), 1):
            where = f"{os.path.relpath(file, TOP)}:{number}"
            name = line[3:].strip() if line.startswith("## ") else name
            if name != FIRST or not re.match(r"\|(?!\s*-)", line):
                continue
            cells = [it.strip() for it in line.strip().strip("|").split(" | ")]
            if cells[0] != "Promise":
                self.rows += 1
            if len(cells) != len(HEAD) or cells[0] == "Promise" and cells != HEAD:
                self.fault(where, f"the row has not the columns {', '.join(HEAD)}")
            elif cells[0] != "Promise":
                self.row(where, *cells[1:])

    def row(self, where, crate, function, clause, shown):
        found = self.crates.get(crate.strip("`"))
        clause = clause.replace("`", "")
        if not found or not re.fullmatch(r"`[^`]+`", function):
            self.fault(where, f"there is no crate {crate}, or Function is not one name in backticks: {function}")
            return
        edits = self.shown(where, found, shown)
        self.check_clause(where, found, function.strip("`"), clause or ONLY, edits)

    def shown(self, where, crate, cell):
        """The edits that a cell names, where they are there."""
        edits = []
        if not re.search(r"`|^no edit:", cell):
            self.fault(where, f"Shown by names nothing: {cell}")
        for part in (it for it in cell.split(";") if not it.strip().startswith("no edit:")):
            names = re.findall(r"`([^`]+)`", part)
            if re.match(r"\s*tests?\b", part):
                self.check_tests(where, names)
                continue
            edits += [crate.edits[it] for it in names if it in crate.edits]
            for it in (it for it in names if it not in crate.edits):
                self.fault(where, f"there is no edit `{it}` in {crate.name}")
        return edits


def main(words):
    promises = Promises()
    promises.check_lines()
    if words in ([], ["--write"]):
        promises.check_pages(words == ["--write"])
    promises.read(f"{TOP}/docs/PROMISES.md" if words in ([], ["--write"]) else os.path.realpath(words[0]))
    if not promises.rows:
        promises.faults.append("no row was found")
    edits = sum(len(it.edits) for it in promises.crates.values())
    print("\n".join([*promises.faults, f"{promises.rows} rows, {edits} edits, {len(promises.faults)} faults"]))
    return 1 if promises.faults else 0


if __name__ == "__main__":
    sys.exit(main(sys.argv[1:]))
