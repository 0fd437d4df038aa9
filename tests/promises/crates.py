"""Reads of a crate what it promises: the clauses of its functions, its ghost members, its edits and its tests."""

import glob
import os
import re
import sys

sys.dont_write_bytecode = True
TOP = os.path.realpath(f"{os.path.dirname(os.path.realpath(__file__))}/../..")
sys.path.append(f"{TOP}/tools/wrong_bodies")
from edits import Edit
from functions import functions_of, owner_of, without_texts

ONLY = "its only one"
TESTED = re.compile(r"#\[test\]\s*(?:#\[[^\]]*\]\s*)*fn (\w+)")
PREMISE = re.compile(r"\brequires\s*\{\s*(.*?)\s*\}\s*\n", re.S)
# A function, or what has a ghost member, and the clause: `Hub::offer ok`, `digit its only one`, `Spent ghost found`.
PLACE = re.compile(rf"(.+?) ({ONLY}|ghost \w+|\w+)")


def functions_in(words):
    """The functions that a line names, of which several are parted by commas."""
    return [words] if "<" in words else words.split(", ")


def text_of(file):
    with open(file, encoding="utf-8") as it:
        return it.read()


def plain(owner):
    """A type or `<Type as Trait>` with no blanks and no modules: `<Name as fmt::Display>` and `<Name as Display>` are one."""
    return re.sub(r"\s|\b[a-z_]\w*::", "", owner)


def owner_in(head):
    """How a page names a block: `Type` or `Trait`, or `<Type as Trait>` of the impl of a trait; and that trait, or nothing."""
    words, is_of_trait = owner_of(head)
    if not is_of_trait:
        return words[0], ""
    trait, _, kind = re.sub(r"^.*?\bimpl\b\s*(<.*?>\s)?", "", head).partition(" for ")
    kind = re.split(r"\bwhere\b", kind)[0]
    without_modules = lambda it: re.sub(r"\b[a-z_]\w*::", "", " ".join(it.split()))
    return without_modules(f"<{kind.strip()} as {trait.strip()}>"), plain(trait.partition("<")[0])


def owner_of_function(function):
    heads = [head for head in function.around if re.search(r"\b(impl|trait)\b", head)]
    return owner_in(heads[-1]) if heads else ("", "")


def joined(owner, name):
    return f"{owner}::{name}" if owner else name


def exported_by(file):
    """What another crate can name, by the root file of a library: what that hands on, and what its public modules declare or hand on."""
    names, text = set(), without_texts(text_of(file))
    for used in re.findall(r"^pub use ([^;]*);", text, re.M):
        names |= set(re.findall(r"\b(\w+)\b(?!::)", used))
    for module in re.findall(r"^pub mod (\w+);", text, re.M):
        inside = f"{os.path.dirname(file)}/{module}.rt"
        names |= exported_by(inside) | set(re.findall(r"^pub (?:struct|enum|trait|fn) (\w+)", without_texts(text_of(inside)), re.M))
    return names


def told_above(text):
    """The first sentence of the `///` above a function, without what only rustdoc reads."""
    lines = [it.strip()[3:].strip() for it in text.split("\n") if it.strip().startswith("///")]
    sentence = re.split(r"(?<=[^.]\.)\s", " ".join(lines).strip() + " ")[0].strip()
    return re.sub(r"\[(`[^`]*`)\](\([^)]*\))?", r"\1", sentence)


class Promiser:
    """A function with its clauses, under the name that a page gives it."""

    def __init__(self, name, file, text, is_public):
        self.name, self.file, self.is_public, self.clauses = name, file, is_public, []
        self.sentence, self.premise = told_above(text), PREMISE.search(text)

    def ensures(self):
        return list(dict.fromkeys(name or ONLY for kind, name in self.clauses if kind == "ensures"))

    def requires(self):
        """The names of the premises, in backticks; what a premise without a name reads as."""
        unnamed = " ".join(self.premise[1].split()).replace("|", "\\|") if self.premise else "unnamed"
        return list(dict.fromkeys(f"`{name or unnamed}`" for kind, name in self.clauses if kind == "requires"))


class Shown:
    """What an edit shows: a clause of a function, and what that promises, if the edit says it."""

    def __init__(self, function, clause, sentence=""):
        self.function, self.clause, self.sentence = function, clause, sentence


class Crate:
    """The functions of a crate that promise anything, by their names without blanks, its ghost members, edits and tests."""

    def __init__(self, folder):
        self.name, self.functions, self.ghosts, self.traits, self.tests = os.path.basename(folder), {}, {}, {}, set()
        self.is_library = os.path.exists(f"{folder}/src/lib.rt")
        self.exported = exported_by(f"{folder}/src/lib.rt") if self.is_library else set()
        root = f"{folder}/src/{'lib' if self.is_library else 'main'}.rt"
        self.sentence = re.sub(r"\[(`[^`]*`)\](\([^)]*\))?", r"\1", head_of(text_of(root)))
        for file in sorted(glob.glob(f"{folder}/src/**/*.rt", recursive=True)):
            self.read(os.path.relpath(file, f"{folder}/src"), text_of(file))
        beside = glob.glob(f"{folder}/wrong-bodies/*")
        self.edits = {it.name: it for it in (Edit(file, folder) for file in sorted(beside) if file.endswith(".edit"))}
        self.readme = "\n".join(text_of(it) for it in beside if it.endswith("README.md"))
        for it in self.edits.values():
            it.place(folder)

    def read(self, file, text):
        """Notes the functions, ghost members and tests of a file."""
        self.tests |= {*TESTED.findall(text)}
        code = without_texts(text)
        for kind, head, body in re.findall(r"(?ms)^(?:pub(?:\([^)]*\))? )?(impl|struct)\b([^{;]*)\{\n(.*?)^\}", code):
            owner = head.split()[0].partition("<")[0] if kind == "struct" else owner_in(" ".join(f"impl{head}".split()))[0]
            self.ghosts.setdefault(plain(owner), set()).update(re.findall(r"\bghost (\w+)\s*[=:]", body))
        for it in functions_of(text):
            owner, trait = owner_of_function(it)
            self.traits[plain(owner)] = trait
            heads = " ".join(head for head in it.around if re.search(r"\b(impl|trait)\b", head))
            is_pub = trait or re.match(r"(pub )?trait\b", heads) or re.match(rf"[^;{{}}]*\bpub (?:const )?fn {it.name}\b", code[it.item :])
            is_public = bool(is_pub) and (re.findall(r"\w+", owner) or [it.name])[0] in self.exported
            name = joined(owner, it.name)
            found = self.functions.setdefault(plain(name), Promiser(name, file, text[it.item : it.start or None], is_public))
            found.clauses.extend(it.clauses)

    def function(self, name):
        """The function of this name; that of its trait, if it has no clause of its own; None if there is no such function."""
        own, (owner, _, last) = self.functions.get(plain(name)), plain(name).rpartition("::")
        trait = self.traits.get(owner)
        return self.functions.get(f"{trait}::{last}", own) if own and trait and not own.ensures() else own

    def has(self, name, clause):
        """Whether there is such a clause: of a method of another crate's trait any."""
        if clause.startswith("ghost "):
            owners = [plain(name), plain(name).rpartition("::")[0]]
            return any(clause[6:] in self.ghosts.get(it, ()) for it in owners)
        function = self.function(name)
        return bool(function) and (clause in function.ensures() or not function.ensures() and bool(self.traits.get(plain(name).rpartition("::")[0])))

    def shown_by(self, edit):
        """What an edit shows: what its lines `shows:` say, or the clauses of the function that it changes at which it is refused."""
        shown, own, latest = [], self.shown_by_place(edit), 0
        for line in edit.telling:
            word, _, rest = line.partition(": ")
            place = PLACE.fullmatch(rest) if word == "shows" else None
            if place:
                latest = len(shown)
                shown += [Shown(it, place[2]) for it in functions_in(place[1])]
            elif word == "says" and (shown or own):
                (shown or own)[latest].sentence = rest
        return shown or own

    def shown_by_place(self, edit):
        names = [joined(owner_of_function(it.function)[0], it.function.name) for it in edit.changes]
        functions = [self.function(it) for it in names[:1]]
        return [Shown(it.name if it.ensures() else name, clause) for it, name in zip(functions, names) for clause in edit.clauses or [""]]


def head_of(text):
    """The first sentence of a file's `//!`."""
    lines = [it[3:].strip() for it in text.split("\n") if it.startswith("//!")]
    return re.split(r"(?<=[^.]\.)\s", " ".join(lines) + " ")[0].strip()


def crates_of(root):
    """The crates of a repository that have edits, or are tests of others."""
    return {os.path.basename(it): Crate(it) for it in sorted(glob.glob(f"{root}/crates/*")) if os.path.isdir(f"{it}/src")}
