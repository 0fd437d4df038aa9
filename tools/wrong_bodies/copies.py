"""Copies a function under another name, with its proof files, so that several edits of it can be tried in one check.

A copy has the contract of the function, and none calls it; so it differs by its name alone. One of a trait's impl can't have a
second name, and what else reads a function's name keeps it from being copied: a proof file of another that names its goals or its
contract, a closure's proof, a cycle of calls.
"""

import glob
import os
import re

from functions import NAMED, place_of, without_texts

# What stands at the top of a file, and what ties a function to its name.
TIED = re.compile(r"#!\[|//!|#\[(?:cycle|unsafe\(no_mangle\)|test)\b")


def text_of(file):
    with open(file, encoding="utf-8") as it:
        return it.read()


def name_of_copy(name, number):
    """What the copy of this number is called."""
    return f"{name}_again_{number}"


def parts_of(crate, change):
    """The end of the path of a function's proofs, and whether it is all of it; None where it can't be copied by its place."""
    place = place_of(crate, change.file, change.function)
    if place is None or place[2] or any(re.search(r"\btrait\b", it) for it in change.function.around):
        return None
    path, words, _ = place
    return [*(words or path[1:]), change.function.name], not words


def folder_of(folder, change):
    """The folder of a function's proofs below proofs/, an empty name where it has none; None where that isn't clear."""
    parts = parts_of(os.path.basename(folder), change)
    if parts is None:
        return None
    end, is_whole = parts
    found = glob.glob("/".join([folder, "proofs", *([] if is_whole else ["**"]), *end, ""]), recursive=True)
    names = [os.path.relpath(it, f"{folder}/proofs") for it in found]
    return None if len(names) > 1 else (names or [""])[0]


def paths_of(crate, name):
    """What fits the paths by which a proof file names the goals or the contract of the function with this folder of proofs."""
    return re.compile(rf"\b(Rattle\.{crate}\.(?:proofs|specs\.contracts)\.{re.escape(name.replace('/', '.'))})(?![\w-])")


def is_like_its_copy(folder, change):
    """Whether a copy of the function is sure to have the same open goals as the function, for it differs by its name alone: its proof
    files, if there are any, name the function only by the paths that are written anew for the copy."""
    name, own = folder_of(folder, change), change.function.name
    if not name:
        # There may be some in another folder.
        return not glob.glob(f"{folder}/proofs/**/{own}/", recursive=True)
    paths, word = paths_of(os.path.basename(folder), name), re.compile(rf"(?<![\w-]){re.escape(own)}(?![\w-])")
    files = os.listdir(f"{folder}/proofs/{name}")
    return not any(word.search(paths.sub("", text_of(f"{folder}/proofs/{name}/{it}"))) for it in files)


def may_be_copied(folder, change):
    """Whether a copy of the change's function is sure to be proved where the function is."""
    head = text_of(f"{folder}/{change.file}")[change.function.item : change.start]
    name = folder_of(folder, change)
    if name is None or TIED.search(head) or glob.glob(f"{folder}/proofs/**/fn/**/{change.function.name}", recursive=True):
        return False
    if not name:
        return True
    own = f"{folder}/proofs/{name}"
    others = (it for part in ("specs", "proofs") for it in glob.glob(f"{folder}/{part}/**/*.antt", recursive=True))
    paths = paths_of(os.path.basename(folder), name)
    is_named = any(paths.search(text_of(it)) for it in others if os.path.dirname(it) != own)
    return not is_named and all(it.endswith(".antt") for it in os.listdir(own))


def text_of_copy(text, change, number):
    """A copy of the changed function, as it stands after the function."""
    item, start = change.function.item, change.start
    named = NAMED.search(without_texts(text)[item:start])
    head = text[item:start]
    return "".join([head[: named.start(2)], name_of_copy(named[2], number), head[named.end(2) :], change.body, "}"])


def proofs_of_copy(folder, change, number):
    """The proof files of a copy, by their names below the crate's folder."""
    name = folder_of(folder, change)
    if not name:
        return {}
    crate, copy = os.path.basename(folder), name_of_copy(name, number)
    rename = lambda text: paths_of(crate, name).sub(lambda it: name_of_copy(it[1], number), text)
    return {f"proofs/{copy}/{it}": rename(text_of(f"{folder}/proofs/{name}/{it}")) for it in os.listdir(f"{folder}/proofs/{name}")}
