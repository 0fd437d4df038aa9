"""Prints the pages of docs/promises: what each crate promises, clause by clause, and what shows it.

A page has a row for each public function of which an edit shows a clause, and one for the private functions of a type, or of a file without
one. A clause stands with the sentences that its edits say, each with these edits; then come the edits that say nothing, and the tests that
tests.txt names. If no edit of a function says anything, the first sentence of its `///` does. Clauses that no edit shows are listed below.
"""

from crates import ONLY, PLACE, TOP, functions_in, plain, text_of

TESTS = f"{TOP}/tests/promises/tests.txt"


def quoted(names):
    return ", ".join(f"`{it}`" for it in names)


class Evidence:
    """What shows a clause: edits by what they say, and tests."""

    def __init__(self):
        self.edits, self.tests = {}, []

    def text(self):
        """Each sentence with its edits, in the order of the alphabet, then edits without one, and tests."""
        said = {it: edits for it, edits in sorted(self.edits.items()) if it}
        last = ["; ".join(filter(None, [quoted(self.edits.get("", [])), self.tests and f"test{'s'[: len(self.tests) > 1]} {quoted(self.tests)}"]))]
        parts = [(it, quoted(edits)) for it, edits in said.items()]
        if len(parts) == 1 and last[0]:
            parts, last = [(parts[0][0], f"{parts[0][1]}{', ' if '' in self.edits else '; '}{last[0]}")], [""]
        return " ".join([*(f"{it} ({edits})" for it, edits in parts), *(f"({it})" for it in last if it)])


class Row:
    """A function, or what has a ghost member, with what shows each of its clauses."""

    def __init__(self, name, function):
        self.name, self.function = name, function
        self.is_public = bool(function) and function.is_public
        self.shown = {it: Evidence() for it in (function.ensures() if function else [])}

    def is_shown(self):
        return any(it.edits for it in self.shown.values())

    def owner(self):
        """Under which name private functions stand together: their type, or their file."""
        return self.name.rpartition("::")[0] or (self.function.file if self.function else self.name)

    def cell(self, name=""):
        """What is promised of it, a clause a line, each after this name; of a public one at last the clauses that nothing shows."""
        is_told = any(it.edits.keys() - {""} for it in self.shown.values())
        head, bare = [name] if name else [], [it for it, shown in self.shown.items() if not shown.edits and not shown.tests]
        lines = []
        for clause, shown in ((it, shown) for it, shown in self.shown.items() if it not in bare):
            marks = [f"**{clause}**"] if clause not in ("", ONLY) else []
            told = [self.function.sentence] if self.function and not is_told and not lines else []
            lines.append(" ".join([*head, *told, *marks, shown.text()]))
        return "<br>".join([*lines, *([f"also {quoted(bare)}"] if bare and self.is_public else [])])

    def listed(self):
        """Its clauses in a list, each with its tests."""
        test_of = lambda it: f" (test {quoted(it.tests)})" if it.tests else ""
        return f"`{self.name}`" + ",".join(f"{'' if clause == ONLY else f' `{clause}`'}{test_of(it)}" for clause, it in self.shown.items())


def tests_of(crate):
    """What tests.txt says of a crate: a function, a clause and tests."""
    for number, line in enumerate(text_of(TESTS).splitlines(), 1):
        head, _, tests = line.rpartition(": ")
        name, _, place = head.partition(" ")
        found = PLACE.fullmatch(place)
        if not found:
            raise ValueError(f"tests/promises/tests.txt:{number} is no `CRATE FUNCTION, .. CLAUSE: TEST, ..`")
        if name == crate.name:
            yield from ((it, found[2], tests.split(", ")) for it in functions_in(found[1]))


def rows_of(crate):
    """The rows of a crate, in the order of the sources."""
    rows = {name: Row(it.name, it) for name, it in crate.functions.items()}
    row_of = lambda name: rows.setdefault(plain(name), Row(name, None))
    for edit in crate.edits.values():
        for it in crate.shown_by(edit):
            row_of(it.function).shown.setdefault(it.clause, Evidence()).edits.setdefault(it.sentence, []).append(edit.name)
    for name, clause, tests in tests_of(crate):
        row_of(name).shown.setdefault(clause, Evidence()).tests.extend(tests)
    return [it for it in rows.values() if it.is_shown() or it.is_public and it.shown or any(shown.tests for shown in it.shown.values())]


def table(heads, rows):
    return ["", f"| {' | '.join(heads)} |", "|---" * len(heads) + "|", *(f"| {' | '.join(it)} |" for it in rows)] if rows else []


def page_of(crate):
    """The page of a crate."""
    rows = rows_of(crate)
    clauses = [it for row in rows if row.is_public for it in row.shown.values()]
    by_edit, by_test = sum(bool(it.edits) for it in clauses), sum(bool(it.tests) and not it.edits for it in clauses)
    counts = f" {len(clauses)} clauses of public calls: an edit shows {by_edit}, a test alone {by_test}." if clauses else ""
    inner = {}
    for row in (it for it in rows if it.is_shown() and not it.is_public):
        inner.setdefault(row.owner(), []).append(row)
    last_of = lambda row: f"`{row.name.rpartition('::')[2]}`" if row.function else ""
    public = [[f"`{it.name}`", ', '.join(it.function.requires()), it.cell()] for it in rows if it.is_shown() and it.is_public]
    bare = "; ".join(it.listed() for it in rows if not it.is_shown())
    lines = [f"# {crate.name}", "", f"{crate.sentence}{counts} [How to read it](../PROMISES.md#how-to-read-the-pages)."]
    lines += table(["Function", "Requires", "Promises"], public)
    lines += table(["Inside", "Promises"], [[f"`{name}`", "<br>".join(it.cell(last_of(it)) for it in group)] for name, group in inner.items()])
    lines += ["", f"No edit shows: {bare}."] if bare else []
    return "\n".join(lines) + "\n"


def pages_of(crates):
    """The text of each page by its file."""
    return {f"{TOP}/docs/promises/{name}.md": page_of(it) for name, it in crates.items() if it.edits}
