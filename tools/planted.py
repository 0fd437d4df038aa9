#!/usr/bin/env python3
"""Plants the bugs crates/NAME/planted/*.edit, one at a time, and sees that the tests that each names fail. No clause refuses these bugs.

An edit is a file with a line `file: src/x.rt`, pairs of lines `old: TEXT` and `new: TEXT`, each old text once in that file, and lines
`test: NAME`, each a test of some crate that fails, or doesn't end. It works on a copy in a temporary folder, by `rt try`, which proves
nothing. Each bug takes a run of all tests of the crates whose tests it names, a minute or two.
The last line is `N passed, M failed`. The status is 1 if anything failed, or if there was no bug to plant.

usage: tools/planted.py [NAME | NAME/EDIT ..]
"""

import glob
import os
import re
import shutil
import subprocess
import sys
import tempfile

SECONDS = 240
PARTS = ("src", "specs", "proofs")
TESTED = re.compile(r"#\[test\]\s*(?:#\[[^\]]*\]\s*)*fn (\w+)")


def text_of(file):
    with open(file, encoding="utf-8") as it:
        return it.read()


def read(edit):
    """The file, the pairs of texts and the tests of an edit."""
    lines = [line.partition(": ") for line in text_of(edit).splitlines()]
    words = {kind: [text for head, _, text in lines if head.rstrip(":") == kind] for kind in ("file", "old", "new", "test")}
    if len(words["file"]) != 1 or len(words["old"]) != len(words["new"]) or not words["old"] or not words["test"]:
        sys.exit(f"{edit}: no file, no pair of texts, or no test")
    return words["file"][0], list(zip(words["old"], words["new"])), words["test"]


def copy(root, to):
    for folder in glob.glob(f"{root}/crates/*"):
        for part in PARTS:
            if os.path.isdir(f"{folder}/{part}"):
                shutil.copytree(f"{folder}/{part}", f"{to}/crates/{os.path.basename(folder)}/{part}")
    for file in ("crates.txt", "HANDLES"):
        shutil.copy(f"{root}/{file}", to)


def crates_with(root, tests):
    """The names of the crates that have these tests."""
    sources = {name: glob.glob(f"{root}/crates/{name}/src/**/*.rt", recursive=True) for name in sorted(os.listdir(f"{root}/crates"))}
    return [name for name, files in sources.items() if any({*TESTED.findall(text_of(it))} & {*tests} for it in files)]


def tests_of(room, crate):
    """What the tests of a crate say, by their names: True if one passed."""
    words = ("rt", "try", crate, "--test", "--seconds", str(SECONDS))
    how = {"stdin": subprocess.DEVNULL, "stdout": subprocess.PIPE, "stderr": subprocess.STDOUT, "errors": "replace", "text": True}
    said = subprocess.run(words, cwd=f"{room}/crates/{crate}", **how).stdout
    found = {name: end == "ok" for name, end in re.findall(r"^test (?:\S+::)?(\w+) \.\.\. (\w+)", said, re.M)}
    return found, said


def judge(tests, order, found, said):
    """Why these tests of a crate don't show a bug; None if they do. All its tests run in this order, so the first of which nothing is said
    has not ended."""
    if not found:
        return f"no test ran:\n{said}"
    not_ended = next((name for name in order if name not in found), None)
    others = [name for name in tests if name != not_ended and found.get(name) is not False]
    failed = [name for name in order if found.get(name) is False]
    return f"{', '.join(others)} didn't fail, but {', '.join(failed) or not_ended}" if others else None


def plant(room, edit, there):
    """Why the bug is not shown; None if it is. `there` has the tests of each crate, in their order."""
    file, pairs, tests = read(edit)
    place = f"{room}/crates/{os.path.basename(os.path.dirname(os.path.dirname(edit)))}/{file}"
    was = text = text_of(place)
    for old, new in pairs:
        if text.count(old) != 1:
            return f"the text {old!r} is in {file} {text.count(old)} times"
        text = text.replace(old, new)
    with open(place, "w", encoding="utf-8") as it:
        it.write(text)
    named = {crate: [name for name in tests if name in order] for crate, order in there.items()}
    whys = [judge(named[it], there[it], *tests_of(room, it)) for it in there if named[it]]
    with open(place, "w", encoding="utf-8") as it:
        it.write(was)
    return "; ".join(it for it in whys if it) or None


def main(wanted):
    root = os.path.realpath(f"{os.path.dirname(os.path.realpath(__file__))}/..")
    name_of = lambda edit: f"{edit.split('/')[-3]}/{os.path.basename(edit)[:-5]}"
    edits = sorted(glob.glob(f"{root}/crates/*/planted/*.edit"))
    edits = [it for it in edits if not wanted or {name_of(it), name_of(it).split("/")[0]} & {*wanted}]
    failed = 0
    with tempfile.TemporaryDirectory(prefix="planted-") as room:
        copy(root, room)
        named = {name for it in edits for name in read(it)[2]}
        ran = {crate: tests_of(room, crate) for crate in crates_with(room, named)}
        gone = named - {name for found, _ in ran.values() for name in found if found[name]}
        if gone:
            sys.exit("\n".join([f"these tests don't pass as it is: {', '.join(sorted(gone))}", *(said for _, said in ran.values())]))
        for edit in edits:
            why = plant(room, edit, {crate: list(found) for crate, (found, _) in ran.items()})
            failed += why is not None
            print(f"{name_of(edit)}: {'shown' if why is None else f'NOT SHOWN: {why}'}", flush=True)
    print(f"{len(edits) - failed} passed, {failed} failed")
    return 1 if failed or not edits else 0


if __name__ == "__main__":
    sys.exit(main(sys.argv[1:]))
