"""Plants the bodies of tests/types/CRATE/*.edit, one at a time: the compiler has to refuse each.

An edit is a file with a line `file: src/x.rt`, pairs of lines `old: TEXT` and `new: TEXT`, each old text once in that file, and lines
`error: NAME: TEXT`, all errors that the compiler gives. It works on a copy in a temporary folder. The last line is `N passed, M failed`.
"""

import glob
import os
import re
import shutil
import subprocess
import sys
import tempfile

HERE = os.path.dirname(os.path.realpath(__file__))
ROOT = f"{HERE}/../.."
ERROR = re.compile(r"^src/\S+:\d+:\d+: error\[([^\]]+)\]: (.*?)(?:: (?:note|help): .*)?$", re.M)


def text_of(file):
    with open(file, encoding="utf-8") as it:
        return it.read()


def lines_of(edit):
    """The lines of an edit: what each is, and its text."""
    return [(word, text.removeprefix(" ")) for word, _, text in (line.partition(":") for line in text_of(edit).splitlines())]


def planted(edit, folder):
    """The file that an edit changes, and its text then."""
    lines = lines_of(edit)
    file = dict(lines)["file"]
    text = text_of(f"{folder}/{file}")
    olds, news = ([text for word, text in lines if word == kind] for kind in ("old", "new"))
    for old, new in zip(olds, news, strict=True):
        if text.count(old) != 1:
            sys.exit(f"{edit}: this is in {file} {text.count(old)} times, and not once: {old}")
        text = text.replace(old, new)
    return file, text


def below(crate):
    """The crate, and those of this repository below it, with their lines of crates.txt."""
    line = next(it for it in text_of(f"{ROOT}/crates.txt").splitlines() if re.split("[ :]", it)[0] == crate)
    libraries = [it for it in line.partition(":")[2].split() if os.path.isdir(f"{ROOT}/crates/{it}")]
    return {name: it for library in libraries for name, it in below(library).items()} | {crate: line}


def copy(crate, to):
    """Copies the sources of a crate and of those below it."""
    crates = below(crate)
    for name in crates:
        for part in ("src", "specs", "proofs"):
            if os.path.isdir(f"{ROOT}/crates/{name}/{part}"):
                shutil.copytree(f"{ROOT}/crates/{name}/{part}", f"{to}/crates/{name}/{part}")
    shutil.copy(f"{ROOT}/HANDLES", to)
    with open(f"{to}/crates.txt", "w", encoding="utf-8") as it:
        it.writelines(f"{line}\n" for line in crates.values())


def errors_with(edit, folder):
    """The errors of the compiler with this body, and all that it said."""
    file, text = planted(edit, folder)
    was = text_of(f"{folder}/{file}")
    with open(f"{folder}/{file}", "w", encoding="utf-8") as it:
        it.write(text)
    how = {"stdin": subprocess.DEVNULL, "stdout": subprocess.PIPE, "stderr": subprocess.STDOUT, "text": True}
    ran = subprocess.run(["rt", "check", "--jobs", "1"], cwd=folder, **how)
    with open(f"{folder}/{file}", "w", encoding="utf-8") as it:
        it.write(was)
    return [f"{name}: {text}" for name, text in ERROR.findall(ran.stdout)] if ran.returncode else [], ran.stdout


def main():
    passed = failed = 0
    for edits in sorted(glob.glob(f"{HERE}/*/")):
        crate = os.path.basename(os.path.dirname(edits))
        with tempfile.TemporaryDirectory(prefix="order-of-steps-") as room:
            copy(crate, room)
            for edit in sorted(glob.glob(f"{edits}*.edit")):
                found, said = errors_with(edit, f"{room}/crates/{crate}")
                is_refused = found == [text for word, text in lines_of(edit) if word == "error"] != []
                passed, failed = passed + is_refused, failed + (not is_refused)
                print(f"{crate}/{os.path.basename(edit)}: {'refused: ' + ', '.join(found) if is_refused else 'NOT REFUSED AS IT SAYS'}")
                if not is_refused:
                    print(said)
    print(f"{passed} passed, {failed} failed")
    return 1 if failed or not passed else 0


if __name__ == "__main__":
    sys.exit(main())
