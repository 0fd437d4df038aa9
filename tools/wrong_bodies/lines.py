"""The lines of a repository that say which wrong bodies were refused, on whichever machine: crates/NAME/wrong-bodies/kept.

A line has the name of an edit and the sum of all that its verdict stands on, as kept.py has it. A line whose sum doesn't fit is of another
edit, crate or toolchain, and is ignored. A line is a text that anybody can write, and may be false: a tenth of those that fit is tried all the
same, another tenth at each commit.
"""

import hashlib
import os
import subprocess

from crate import say

HEAD = "# Written by tools/wrong_bodies/try.py --write: an edit that the prover refused, and the sum of all that the verdict stands on.\n"
# One line in this many is drawn.
DRAWN_OF = 10
# What is said of an edit for which a line stands.
BY_LINE = "by its line in wrong-bodies/kept"


def commit_of(root):
    """The hash of the commit that is checked out, or None where there is none."""
    try:
        ran = subprocess.run(["git", "-C", root, "rev-parse", "HEAD"], stdout=subprocess.PIPE, stderr=subprocess.DEVNULL, text=True)
    except FileNotFoundError:
        return None
    return ran.stdout.strip() if ran.returncode == 0 else None


def read_lines(crate):
    """The lines of a crate, each a name and a sum."""
    file = f"{crate.folder}/wrong-bodies/kept"
    if not os.path.exists(file):
        return set()
    with open(file, encoding="utf-8") as it:
        return {tuple(line.split()) for line in it if line.strip() and not line.startswith("#")}


class Lines:
    """What the lines of a repository say of the edits of a run. With `is_all` each edit is tried, whatever they say."""

    def __init__(self, root, is_all):
        self.is_all, self.commit = is_all, commit_of(root)
        # How many lines were taken for a verdict, how many fit nothing, and the edits whose lines fit and which are tried all the same.
        self.taken, self.stale, self.tried = 0, 0, []

    def is_drawn(self, name, own):
        """Whether the line of an edit with this name and sum is tried: by the commit, and without a commit by the sum alone."""
        words = (self.commit or own, name)
        return int(hashlib.sha256(repr(words).encode()).hexdigest(), 16) % DRAWN_OF == 0

    def recall(self, crate, kept):
        """Takes the edits of the crate that have a line that fits for refused, unless that is drawn."""
        lines, sums = read_lines(crate), {it.name: kept.sum_of(it, crate) for it in crate.edits}
        fitting = lines & set(sums.items())
        self.stale += sum(it not in fitting and (it[0] in sums or not crate.has_edit(it[0])) for it in lines)
        for edit in (it for it in crate.edits if it.why is None and (it.name, sums[it.name]) in fitting):
            if self.is_all or self.is_drawn(f"{crate.name}/{edit.name}", sums[edit.name]):
                self.tried.append((crate, edit))
            else:
                edit.why, edit.is_refused, edit.is_kept = BY_LINE, True, True
                self.taken += 1

    def false(self):
        """The edits that were tried and not refused, though a line that fits says that they were."""
        return [f"{crate.name}/{edit.name}" for crate, edit in self.tried if edit.is_tried and not edit.is_refused]

    def report(self):
        """Says what the lines were worth."""
        drawn_by = "all" if self.is_all else f"drawn by commit {self.commit[:12]}" if self.commit else "drawn by their sums, without a commit"
        say(f"{self.taken} lines taken, {len(self.tried)} tried ({drawn_by}), {self.stale} ignored, as they fit nothing")
        for name in self.false():
            say(f"FALSE LINE: the prover does not refuse {name}, though wrong-bodies/kept says so")


def write_lines(crate, kept, let_through):
    """Writes the lines of a crate: one for each edit that is kept on this machine, and those that fit as they are, but none for what was
    let through. Lines that fit nothing go."""
    lines, sums = read_lines(crate), {it.name: kept.sum_of(it, crate) for it in crate.edits}
    fitting = {it.name for it in crate.edits if it.is_kept or (it.name, sums[it.name]) in lines}
    names = sorted(it for it in fitting if f"{crate.name}/{it}" not in let_through)
    file = f"{crate.folder}/wrong-bodies/kept"
    if names:
        with open(file, "w", encoding="utf-8") as it:
            it.writelines([HEAD, *(f"{name} {sums[name]}\n" for name in names)])
    elif os.path.exists(file):
        os.remove(file)
    say(f"{crate.name}: {len(names)} of {len(crate.edits)} have a line in wrong-bodies/kept")
