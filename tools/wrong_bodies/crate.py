"""A crate with its wrong bodies: has the prover check it with some of them, and judges each."""

import os
import shutil
import subprocess
import time

from edits import Edit, as_tried, batches, controls_of, named_by, together
from left_out import without_bodies, without_offers
from prover import check_words
from sources import SOURCES, copy_crates
from verdicts import Check

# What a check reads of a crate below, and of the crate itself.
OF_LIBRARY = (*SOURCES, "out/rlib")
OF_CRATE = (*SOURCES, "out/incremental")


def say(text):
    print(text, flush=True)


class Crate:
    """A crate with its wrong bodies, those that are wanted; none, where it is only below one that has some."""

    def __init__(self, name, libraries, below, root, wanted):
        self.name, self.libraries, self.below, self.folder = name, libraries, below, f"{root}/crates/{name}"
        folder = f"{self.folder}/wrong-bodies"
        files = sorted(os.listdir(folder)) if os.path.isdir(folder) else []
        edits = [Edit(f"{folder}/{it}", self.folder) for it in files if it != "kept" and not it.endswith(".md")]
        is_wanted = lambda edit: not wanted or name in wanted or f"{name}/{edit.name}" in wanted
        self.edits = [it for it in edits if is_wanted(it)]
        self.checks, self.seconds, self.room = 0, 0.0, None
        # The sum of its sources and of those below it, once it was taken.
        self.sources = None

    def check(self, texts, functions):
        """Checks the crate in its room with these texts in place of its own, where None is a file that is gone: these functions alone,
        where each has a name."""
        folder = f"{self.room}/crates/{self.name}"
        for file, text in texts.items():
            if text is None:
                os.remove(f"{folder}/{file}")
                continue
            os.makedirs(os.path.dirname(f"{folder}/{file}"), exist_ok=True)
            with open(f"{folder}/{file}", "w", encoding="utf-8") as it:
                it.write(text)
        only = [] if None in functions else [word for it in functions for word in ("--only", it)]
        words = check_words(self.room, self.name, self.libraries, self.below)
        check = self.run(*words, *only)
        if only and not check.is_judged and not check.errors:
            # A name that fits several functions, or none.
            check = self.run(*words)
        self.take_back()
        return check

    def take_back(self):
        """Puts the crate as it is, and what was kept of it, in the place of edited texts and what was kept of them."""
        for part in OF_CRATE:
            own, here = (f"{it}/{part}" for it in (self.folder, f"{self.room}/crates/{self.name}"))
            if part in SOURCES or os.path.isdir(own):
                shutil.rmtree(here, ignore_errors=True)
            if os.path.isdir(own):
                shutil.copytree(own, here)

    def run(self, *words):
        """Runs this command, which proves the crate, in its room."""
        start = time.monotonic()
        how = {"stdin": subprocess.DEVNULL, "stdout": subprocess.PIPE, "stderr": subprocess.STDOUT, "errors": "replace"}
        ran = subprocess.run(words, cwd=f"{self.room}/crates/{self.name}", **how)
        self.checks, self.seconds = self.checks + 1, self.seconds + time.monotonic() - start
        return Check(self.name, ran.stdout, ran.returncode)

    def try_batch(self, batch, is_whole=False):
        """Tries edits in one check, and alone what is not refused there; of one edit at last the crate whole, with all bodies."""
        tried = as_tried(batch)
        controls = controls_of(tried, self.folder)
        texts, places = together(tried, controls, self.folder)
        edited = [it for _, changes in tried for it in changes]
        functions = [it.end_of_name(self.name) for it in (*edited, *controls)]
        left_out = {}
        if functions and None not in functions and not is_whole:
            left_out = without_bodies(self.folder, texts, [*edited, *controls]) | without_offers(self.folder, texts, edited)
        check = self.check(texts | left_out, functions or [None])
        if len(batch) > 1 and not check.is_judged:
            # An edit that doesn't compile hides all others.
            wrong = named_by(check.places, texts, places)
            rest = [it for it in batch if it not in wrong] if wrong else []
            for edit in wrong or batch:
                self.try_batch([edit])
            if rest:
                self.try_batch(rest)
            return
        known = check.verdicts
        doubted = [it for it in controls if not check.is_met(it.name_among(self.name, known))]
        doubts = lambda changes: any(it.number and it.is_of(other) for it in changes for other in doubted)
        left = []
        for edit, changes in tried:
            names = [it.name_among(self.name, known) for it in changes]
            edit.is_refused, edit.why = check.judge(names, edit.clauses, edit.goals)
            if doubts(changes) or not edit.is_refused:
                left.append(edit)
        if len(left) < len(batch):
            # With nothing else edited, they may well be refused together.
            for again in batches(left, self.folder):
                self.try_batch(again)
        elif len(batch) > 1:
            for edit in left:
                self.try_batch([edit])
        elif left and left_out:
            self.try_batch(batch, is_whole=True)

    def try_all(self, base, room):
        """Tries all edits in a room of the crate's own, and says what became of each."""
        copy_crates({**dict.fromkeys(self.below, OF_LIBRARY), self.name: OF_CRATE}, base, room)
        # From here on the checkout may change.
        self.folder, self.room = f"{base}/crates/{self.name}", room
        good = [it for it in self.edits if it.why is None]
        for edit in good:
            edit.place(self.folder)
            edit.is_tried = True
        for batch in batches(good, self.folder):
            self.try_batch(batch)
        shutil.rmtree(room)

    def has_edit(self, name):
        """Whether there is an edit of this name, be it wanted or not."""
        return os.path.exists(f"{self.folder}/wrong-bodies/{name}.edit")

    def is_left(self):
        """Whether any edit is still to be tried."""
        return any(it.why is None for it in self.edits)

    def report(self):
        """Says what became of each edit."""
        lines = [f"wrong body {self.name}/{it.name}: {'refused: ' * it.is_refused}{'kept: ' * it.is_kept}{it.why}" for it in self.edits]
        refused, kept = (sum(it) for it in ((edit.is_refused for edit in self.edits), (edit.is_kept for edit in self.edits)))
        say("\n".join(lines))
        say(f"{self.name}: {refused} of {len(self.edits)} refused, {kept} kept, {self.checks} checks, {self.seconds:.0f} seconds")
