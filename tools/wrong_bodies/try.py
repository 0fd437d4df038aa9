#!/usr/bin/env python3
"""Tries the wrong bodies crates/NAME/wrong-bodies/*.edit: the prover has to refuse each at the function that it changes.

An edit is a file with a line `file: src/x.rt` and then pairs of lines `old: TEXT` and `new: TEXT`, each old text once in that
file. After a line `file: proofs/x.antt` lines `add: TEXT` stand at that file's end, or at its head if they begin with `use`, and make
it if need be: the answer that the wrong body would have if the clause let it through. Then it says where it is refused, by lines
`clause: NAME`, a clause of the function (`its only one`, if it has no name), or, if the prover comes to another goal before,
`goal: NAME`, as rt calls that. Lines `shows:` and `says:` are for the pages of docs/promises (tests/promises), and no verdict
stands on them. Contracts separate functions, so edits of different functions are tried in one check; so are several of one
function, each but the first in a copy of it, if it can be copied. If its proof files name the function in another way than a copy
of them can, a copy with its own body has to have no open goal. An edit counts as refused only if the edited function itself has
open goals, and all that the edit names are among them: a text that can't be read, a proof file that names what is gone, or a callee
that is not proved is no refusal. What is not refused in this way is tried without the others, and alone before it is reported. An
edit of several functions, or of anything but a body (a constant, a type, a clause, an invariant), is tried alone; of the last, any
open goal of the crate counts. If edits are of bodies alone, only those functions are checked, and the others have no bodies
(left_out.py); what is not refused then, alone, is tried once more with all bodies before it is reported.

It works on a copy in a temporary folder. The crates are proved there first as they are, and those below others built. With
--proved SUM that is left out where the copy has this sum: its sources were proved, and what is built of them in out/rlib is
taken as it is. Each check starts from what was kept of the crate as it is, if anything was; what has another text there is
proved anew.

With --follow LOG it runs beside `rt ci`, which prints to LOG: a crate is tried whole, as soon as that says that its libraries are
proved, or has ended, and over what it has built, if the sources are those of the start.

What it saw refused is kept on this machine (kept.py), and is not tried again as long as all that the verdict stands on is the
same. The lines of crates/NAME/wrong-bodies/kept (lines.py) say the same of what was refused on another machine. They are only a text, so a
tenth of them is drawn by the commit's hash and tried: if the prover doesn't refuse what a line says it did, that line is false, and the
run fails. A line whose sum doesn't fit is ignored. With --all every edit is tried. With --write these files are written at the end: a line
for each edit that is kept on this machine, and the lines that fit as they are; all others go.
The last line is `N passed, M failed`. The status is 1 where anything failed, or where there was no edit to try.
"""

import argparse
import os
import re
import sys
import tempfile
import time
from concurrent.futures import ThreadPoolExecutor

sys.dont_write_bytecode = True
from base import prove
from crate import Crate, say
from kept import Kept
from lines import Lines, write_lines
from sources import files_of, sum_of

# What `rt ci` prints, or whoever runs it, once it has ended.
END_OF_CI = re.compile(r"^([0-9]+ passed, [0-9]+ failed|rt ci has ended)$", re.M)


def crates_of(root, wanted):
    """The crates of crates.txt with edits that are wanted, each after those below it."""
    named = {}
    with open(f"{root}/crates.txt", encoding="utf-8") as it:
        for line in it:
            head, colon, rest = line.partition("#")[0].partition(":")
            if colon:
                named[head.split()[0]] = rest.split()

    def below(name):
        return list(dict.fromkeys(low for it in named[name] if it in named for low in [*below(it), it]))

    crates = [Crate(it, named[it], below(it), root, wanted) for it in named]
    needed = {name for it in crates if it.edits for name in [*it.below, it.name]}
    return sorted((it for it in crates if it.name in needed), key=lambda it: len(it.below))


def try_crates(crates, root, jobs, proved, kept):
    """Tries the edits of the crates that are not kept, this many crates at a time; False if they are not proved as they are."""

    def try_one(crate, folder):
        crate.try_all(f"{folder}/base", f"{folder}/{crate.name}")
        kept.keep(crate, f"{folder}/base")
        crate.report()

    with tempfile.TemporaryDirectory(prefix="wrong-bodies-") as folder:
        if not prove(crates, root, f"{folder}/base", jobs, proved):
            return False
        work = lambda crate: len(crate.edits) * sum(map(os.path.getsize, files_of(crate.folder)))
        with ThreadPoolExecutor(jobs) as pool:
            longest_first = sorted((it for it in crates if it.is_left()), key=work, reverse=True)
            for run in [pool.submit(try_one, it, folder) for it in longest_first]:
                run.result()
    return True


def without_kept(groups, root, kept, lines):
    """The groups of crates in which an edit is still to be tried. Of the crates of which none is, it says what became of their edits."""
    for crate in (it for group in groups for it in group if it.edits):
        kept.recall(crate, root)
        lines.recall(crate, kept)
        if not crate.is_left():
            crate.report()
    needed = [{name for it in group if it.is_left() for name in [*it.below, it.name]} for group in groups]
    return [[it for it in group if it.name in names] for group, names in zip(groups, needed) if names]


def may_be_tried(crates, root, log):
    """Whether `rt ci`, by what it printed, has proved and built those of the crates that are libraries, or has ended."""
    libraries = [it.name for it in crates if os.path.exists(f"{root}/crates/{it.name}/src/lib.rt")]
    proved = re.findall(r"^rt: (\w+) (?:proved$|is kept:)", log, re.M)
    return bool(END_OF_CI.search(log)) or all(it in proved for it in libraries)


def follow(log, root, groups, jobs, kept):
    """Tries these groups of crates, each a crate with edits and those below it, while `rt ci` runs, this many at a time. False if a crate
    is not proved as it is."""
    waiting, runs = [(crates, sum_of(root, [it.name for it in crates])) for crates in groups], []
    with ThreadPoolExecutor(jobs) as pool:
        while waiting:
            with open(log, encoding="utf-8", errors="replace") as it:
                text = it.read()
            for entry in [it for it in waiting if may_be_tried(it[0], root, text)]:
                waiting.remove(entry)
                runs.append(pool.submit(try_crates, entry[0], root, 1, entry[1], kept))
            time.sleep(1)
        return all([it.result() for it in runs])


def try_groups(groups, root, given, lines):
    """Tries these groups of crates as the command line has it, but for what is kept. False if a crate is not proved as it is."""
    kept = Kept(given.all)
    groups = without_kept(groups, root, kept, lines)
    if given.follow:
        are_proved = follow(given.follow, root, groups, given.jobs, kept)
    else:
        are_proved = all(try_crates(it, root, given.jobs, given.proved, kept) for it in groups)
    kept.forget_old()
    return are_proved


def write(crates, root, let_through):
    """Writes the lines of these crates, by what is kept on this machine by now and by the lines that fit, but none of what was let through."""
    kept = Kept(False)
    for crate in (it for name in crates for it in crates_of(root, [name]) if it.name == name):
        kept.recall(crate, root)
        write_lines(crate, kept, let_through)


def report(edits, given, lines):
    """Says what was taken for refused without a try, or that nothing was."""
    kept = sum(edit.is_kept for _, edit in edits) - lines.taken
    say(f"{kept} of these kept from earlier runs on this machine, {lines.taken} by their lines; --all tries them again")
    lines.report()
    if given.all and all(edit.is_tried for _, edit in edits):
        say(f"all {len(edits)} wrong bodies were tried")


def main():
    parser = argparse.ArgumentParser(description=__doc__, formatter_class=argparse.RawDescriptionHelpFormatter)
    parser.add_argument("--jobs", type=int, default=min(2, len(os.sched_getaffinity(0))), help="how many crates are tried at a time")
    parser.add_argument("--proved", metavar="SUM", help="the sum of sources that were proved as they are")
    parser.add_argument("--sum", action="store_true", help="print the sum of the sources, and try nothing")
    parser.add_argument("--all", action="store_true", help="try those that are kept, too")
    parser.add_argument("--write", action="store_true", help="write the lines crates/NAME/wrong-bodies/kept")
    parser.add_argument("--follow", metavar="LOG", help="run beside `rt ci`, which prints to this file")
    parser.add_argument("--root", default=f"{os.path.dirname(os.path.realpath(__file__))}/../..", help="another repository")
    parser.add_argument("wanted", nargs="*", metavar="NAME | NAME/EDIT", help="a crate, or one edit of it (all)")
    given = parser.parse_args()
    root = os.path.realpath(given.root)
    crates = crates_of(root, given.wanted)
    if given.sum:
        print(sum_of(root, [it.name for it in crates]))
        return 0
    groups = [crates_of(root, [it.name]) for it in crates if it.edits] if given.follow else [crates]
    edits = [(it, edit) for group in groups for it in group for edit in it.edits]
    names = {name for it, edit in edits for name in (it.name, f"{it.name}/{edit.name}")}
    failed = [f"no edit {it}" for it in given.wanted if it not in names]
    lines = Lines(root, given.all)
    if not edits:
        failed.append("no edit was tried")
    elif not try_groups(groups, root, given, lines):
        failed.append("a crate is not proved as it is")
    else:
        failed += [f"{it.name}/{edit.name}" for it, edit in edits if not edit.is_refused]
    report(edits, given, lines)
    if given.write:
        write([it.name for it in crates if it.edits], root, {f"{it.name}/{edit.name}" for it, edit in edits if not edit.is_refused})
    if failed:
        say(f"FAILED: {', '.join(failed)}")
    say(f"{sum(edit.is_refused for _, edit in edits)} passed, {len(failed)} failed")
    return 1 if failed else 0


if __name__ == "__main__":
    sys.exit(main())
