"""Keeps on this machine which wrong bodies were refused, for every checkout of whoever runs it: $XDG_CACHE_HOME/wrong_bodies, or
~/.cache/wrong_bodies.

What is kept of an edit has the sum of all that its verdict stands on as its name: the edit, the sources of its crate and of those below,
their lines of crates.txt, the toolchain, and the scripts beside this one that judge. So it never goes stale, and is the same on every
machine. What was not refused is not kept.
"""

import glob
import hashlib
import os
import subprocess
import tempfile
import time

from sources import sum_of

# The scripts on which no verdict stands. They say what is tried and when, and keep what was refused.
KEEPERS = ("try.py", "kept.py", "lines.py")
# What nobody has asked for in as many seconds goes.
MOST_AGE = 90 * 24 * 3600


def tool_sum():
    """A sum of the toolchain's name and of the scripts that judge."""
    found = hashlib.sha256(subprocess.run(["rt", "version"], stdout=subprocess.PIPE, check=True).stdout)
    folder = os.path.dirname(os.path.realpath(__file__))
    for name in sorted(it for it in os.listdir(folder) if it.endswith(".py") and it not in KEEPERS):
        with open(f"{folder}/{name}", "rb") as it:
            found.update(repr((name, it.read())).encode())
    return found.hexdigest()


class Kept:
    """What earlier runs saw refused. With `is_all` it has nothing to say, and keeps what this run sees."""

    def __init__(self, is_all):
        home = os.environ.get("XDG_CACHE_HOME") or os.path.expanduser("~/.cache")
        self.is_all, self.folder, self.tools = is_all, f"{home}/wrong_bodies", tool_sum()

    def sum_of(self, edit, crate):
        """The sum of all that the verdict on an edit of the crate stands on, by the sum of the sources that was taken of the crate."""
        words = (self.tools, crate.sources, crate.name, edit.name, edit.text)
        return hashlib.sha256(repr(words).encode()).hexdigest()

    def file_of(self, edit, crate):
        """Where the verdict on an edit of the crate is kept."""
        return f"{self.folder}/{self.sum_of(edit, crate)}"

    def recall(self, crate, root):
        """Notes of each edit of the crate whether it was refused before, with what was said then."""
        crate.sources = sum_of(root, [*crate.below, crate.name])
        for edit in (it for it in crate.edits if it.why is None and not self.is_all):
            file = self.file_of(edit, crate)
            try:
                with open(file, encoding="utf-8") as it:
                    edit.why = it.read()
                os.utime(file)
            except OSError:
                continue
            edit.is_refused = edit.is_kept = True

    def keep(self, crate, root):
        """Keeps what this run saw refused of the crate, unless its sources or those below were changed before they were copied to this
        folder."""
        if sum_of(root, [*crate.below, crate.name]) != crate.sources:
            return
        for edit in (it for it in crate.edits if it.is_refused and not it.is_kept):
            os.makedirs(self.folder, exist_ok=True)
            # Written apart and then renamed, so that no other run meets half of it.
            with tempfile.NamedTemporaryFile("w", encoding="utf-8", dir=self.folder, prefix="new-", delete=False) as it:
                it.write(edit.why)
            os.replace(it.name, self.file_of(edit, crate))

    def forget_old(self):
        """Removes what nobody has asked for in a long time."""
        for file in glob.glob(f"{self.folder}/*"):
            try:
                if time.time() - os.path.getmtime(file) > MOST_AGE:
                    os.remove(file)
            except OSError:
                # Another run removed it.
                continue
