"""Reads the sources of crates, copies them, and sums them up."""

import hashlib
import os
import shutil

SOURCES = ("src", "specs", "proofs")


def files_of(folder):
    """The sources of a crate."""
    walks = (it for part in SOURCES for it in os.walk(f"{folder}/{part}"))
    return sorted(f"{at}/{name}" for at, _, names in walks for name in names)


def lines_of(root, names):
    """The lines of crates.txt that name these crates."""
    with open(f"{root}/crates.txt", encoding="utf-8") as it:
        return [line for line in it if line.partition(":")[0].split()[:1] in [[name] for name in names]]


def sum_of(root, names):
    """A sum of all that the proofs of these crates read of the repository."""
    found = hashlib.sha256(repr(lines_of(root, names)).encode())
    for file in (file for name in names for file in files_of(f"{root}/crates/{name}")):
        with open(file, "rb") as it:
            found.update(repr((os.path.relpath(file, root), it.read())).encode())
    return found.hexdigest()


def copy_crates(parts, root, to):
    """Copies these parts of each crate, and the lines of crates.txt that name them."""
    for name in parts:
        for part in parts[name]:
            if os.path.isdir(f"{root}/crates/{name}/{part}"):
                shutil.copytree(f"{root}/crates/{name}/{part}", f"{to}/crates/{name}/{part}")
    with open(f"{to}/crates.txt", "w", encoding="utf-8") as it:
        it.writelines(lines_of(root, parts))
