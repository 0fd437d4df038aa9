"""Reads wrong bodies, finds the functions that they change, and puts them into as few checks as can be."""

import os
import re
from dataclasses import replace

from copies import is_like_its_copy, may_be_copied, name_of_copy, parts_of, proofs_of_copy, text_of, text_of_copy
from functions import end_of, functions_of, path_of

# The lines of an edit that say which promise it shows, for whoever prints the promises: no verdict stands on them.
TELLING = re.compile(r"^(?:shows|says):.*(?:\n|\Z)", re.M)


class Change:
    """What an edit does in one function: the function, its file, the offsets of its body there, and the new body. Of the copies of
    the function it changes that of its number, or with 0 the function itself."""

    def __init__(self, function, file, body, number=0):
        self.function, self.file, self.body, self.number = function, file, body, number
        self.start, self.end = function.start, function.end

    def is_of(self, other):
        """Whether the other change is of the same function."""
        return (self.file, self.start) == (other.file, other.start)

    def of_copy(self, number):
        """The same change in a copy of the function."""
        return Change(self.function, self.file, self.body, number) if number else self

    def changed(self):
        """The function that it changes."""
        name = self.function.name
        return replace(self.function, name=name_of_copy(name, self.number)) if self.number else self.function

    def name_among(self, crate, known):
        """What rt calls that function, among the names that a check printed, or None where that isn't clear."""
        return path_of(crate, self.file, self.changed(), known)

    def end_of_name(self, crate):
        """The end of what rt calls that function, or None where that isn't clear."""
        return end_of(crate, self.file, self.changed())

    def piece(self, text):
        """The offsets in the file between which it writes, and what it writes there."""
        if self.number:
            return self.end + 1, self.end + 1, text_of_copy(text, self, self.number)
        return self.start, self.end, self.body


class Edit:
    """A wrong body: the texts of the files that it changes, its changes where they all stand in functions' bodies, and where it has
    to be refused: the clauses that it breaks, and goals before them. One with answers of its own has one function, whose proof files
    they are."""

    def __init__(self, file, folder):
        self.name = os.path.basename(file).removesuffix(".edit")
        self.texts, self.changes, self.is_refused, self.why = {}, [], False, None
        self.clauses, self.goals = [], []
        # What it reads as, what it tells of a promise, and whether it was refused in an earlier run, or tried in this one.
        self.text, self.telling, self.is_kept, self.is_tried = "", [], False, False
        if not file.endswith(".edit"):
            self.why = "its name doesn't end in .edit"
            return
        try:
            text = text_of(file)
            self.text, self.telling = TELLING.sub("", text), [it.strip() for it in TELLING.findall(text)]
            self.read(self.text, folder)
        except (OSError, UnicodeDecodeError) as error:
            self.why = f"it can't be read: {error}"

    def read(self, text, folder):
        """Makes the edited texts, or notes why the edit can't be applied."""
        file, old, pairs = None, None, 0
        for line in filter(str.strip, text.split("\n")):
            word, _, rest = line.partition(":")
            rest = rest.removeprefix(" ")
            if word == "file" and old is None and re.match(r"(src|specs|proofs)/[^.]", rest):
                file = rest.strip()
            elif word == "old" and old is None and file and rest:
                old = rest
            elif word == "new" and old is not None:
                now = self.texts[file] if file in self.texts else text_of(f"{folder}/{file}")
                if now.count(old) != 1:
                    self.why = f"an `old:` text is in {file} {now.count(old)} times, and not once"
                    return
                self.texts[file] = now.replace(old, rest)
                old, pairs = None, pairs + 1
            elif word == "add" and pairs and old is None and file.startswith("proofs/"):
                now = self.texts.get(file) or (text_of(f"{folder}/{file}") if os.path.exists(f"{folder}/{file}") else "")
                self.texts[file] = f"{rest}\n{now}" if rest.startswith("use ") else f"{now}{rest}\n"
            elif word in ("clause", "goal") and pairs and old is None and rest:
                (self.clauses if word == "clause" else self.goals).append(rest.strip())
            else:
                self.why = f"this line is not in its place: {line}"
                return
        if not pairs or old is not None:
            self.why = "it has no pair of `old:` and `new:`, or half of one"
        elif not self.clauses and not self.goals:
            self.why = "it has no line `clause:` or `goal:`, so nothing says where it has to be refused"

    def place(self, folder):
        """Finds the functions in whose bodies all of the edit stands; there are none where any of it stands elsewhere."""
        found = [self.change_of(folder, file, text) for file, text in self.texts.items() if not file.startswith("proofs/")]
        if all(found) and all(self.is_answer_of(folder, file, found) for file in self.answers()):
            self.changes = found

    def answers(self):
        """The proof files that it brings, or changes."""
        return {file: text for file, text in self.texts.items() if file.startswith("proofs/")}

    def is_answer_of(self, folder, file, changes):
        """Whether a proof file is of the only function that it changes."""
        place = parts_of(os.path.basename(folder), changes[0]) if len(changes) == 1 else None
        return place is not None and os.path.dirname(file).endswith("/".join(["", *place[0]]))

    def change_of(self, folder, file, text):
        was = text_of(f"{folder}/{file}")
        functions = functions_of(was) if file.startswith("src/") else []
        for it in sorted((it for it in functions if it.end), key=lambda it: it.end - it.start):
            before, after = was[: it.start], was[it.end :]
            # The body of a `const fn` may be seen by types and constants.
            if text.startswith(before) and text.endswith(after) and not it.is_const:
                return Change(it, file, text[it.start : len(text) - len(after)])
        return None


def batches(edits, folder):
    """The edits in as few checks as can be: none with two edits of one function that can't be copied, or of which one has answers of its
    own, and alone what is not in one function's body."""
    shared, alone = [], []
    for edit in edits:
        if len(edit.changes) != 1:
            alone.append([edit])
            continue
        change = edit.changes[0]
        is_copied = not edit.answers() and may_be_copied(folder, change)
        is_apart = lambda other: is_copied and not other.answers() or not change.is_of(other.changes[0])
        free = (it for it in shared if all(map(is_apart, it)))
        batch = next(free, None)
        if batch is None:
            shared.append([edit])
        else:
            batch.append(edit)
    return [*shared, *alone]


def as_tried(batch):
    """Each edit of a batch with its changes there: of several edits of one function, all but the first change copies of it."""
    tried = []
    for edit in batch:
        before = sum(len(edit.changes) == 1 and edit.changes[0].is_of(it[0]) for _, it in tried)
        tried.append((edit, [it.of_copy(before) for it in edit.changes]))
    return tried


def controls_of(tried, folder):
    """Of each function that is copied, and whose copy may differ by more than its name, a copy more, with its own body: that has to have
    no open goal."""
    last = {(it.file, it.start): it for _, changes in tried for it in changes if it.number}
    own = lambda it: text_of(f"{folder}/{it.file}")[it.start : it.end]
    return [Change(it.function, it.file, own(it), it.number + 1) for it in last.values() if not is_like_its_copy(folder, it)]


def together(tried, controls, folder):
    """The texts with all edits of a batch, and for each edit the file and the offsets of what it writes there."""
    if len(tried) == 1:
        return tried[0][0].texts, []
    texts, places = {}, []
    tried = [*tried, *((None, [it]) for it in controls)]
    for file in dict.fromkeys(changes[0].file for _, changes in tried):
        was, text, since = text_of(f"{folder}/{file}"), "", 0
        pieces = [(*it.piece(was), edit) for edit, (it,) in tried if it.file == file]
        for start, end, new, edit in sorted(pieces, key=lambda it: it[:2]):
            text += was[since:start]
            places.append((edit, file, len(text), len(text) + len(new)))
            text, since = text + new, end
        texts[file] = text + was[since:]
    for edit, (it,) in tried:
        texts |= proofs_of_copy(folder, it, it.number) if it.number else {}
        texts |= edit.answers() if edit else {}
    return texts, places


def named_by(errors, texts, places):
    """The edits in what they write these errors stand, each a file and a line."""
    line = lambda file, offset: texts[file].count("\n", 0, offset) + 1
    lines = [(edit, file, line(file, start), line(file, end)) for edit, file, start, end in places]
    return [edit for edit, file, first, last in lines if edit and any(at == file and first <= it <= last for at, it in errors)]
