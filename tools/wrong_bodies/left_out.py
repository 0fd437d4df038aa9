"""Leaves out of a check what says nothing of the edited functions, and costs as much time as they do.

That is the bodies of all other functions. Contracts separate functions: whether an edited one is proved rests on what those that it
calls promise. A function without its body keeps its contract, and has a proof that is refused at once. One of a trait's impl keeps
its body, and so does one on which more may rest than its contract: what a proof file of another names, a closure's function, a cycle
of calls.

And it is what rt offers to write for an open goal. It offers nothing where an answer is refused, so an edited function gets one more.
"""

import glob
import os
import re

from copies import TIED, text_of
from functions import end_of, functions_of, module_of, place_of

TYPE = re.compile(r"(?m)^\s*(?:pub(?:\([a-z]+\))? )?(?:struct|enum) (\w+)")
NO_BODY = " loop {} "
# A name that no file has.
LEFT_OUT = "left_out_of_this_check"
REFUSED = f"\npub {{0}} : {LEFT_OUT}\n{{0}} = {LEFT_OUT}\n"
ANSWERS = ("Answers.antt", "Invariants.antt")


class Proofs:
    """Where the proofs of a crate's functions stand, and which of them its other proof files name."""

    def __init__(self, folder):
        self.folder, self.crate = folder, os.path.basename(folder)
        self.files = [os.path.relpath(it, folder) for it in glob.glob(f"{folder}/src/**/*.rt", recursive=True)]
        declared = [(name, module_of(file)) for file in self.files for name in TYPE.findall(text_of(f"{folder}/{file}"))]
        names = [name for name, _ in declared]
        # A method stands under the module of its type.
        self.modules = {name: module for name, module in declared if names.count(name) == 1}
        path = re.compile(rf"\bRattle\.{self.crate}\.(?:proofs|specs\.contracts)\.([\w.+-]+)")
        theirs = (it for part in ("specs", "proofs") for it in glob.glob(f"{folder}/{part}/**/*.antt", recursive=True))
        below = lambda file: os.path.relpath(os.path.dirname(file), f"{folder}/proofs")
        self.named = [(it, below(file)) for file in theirs for it in path.findall(text_of(file))]

    def name_of(self, file, function):
        """The folder of a function's proofs below proofs/, be it there or not; None where that isn't clear."""
        place, end = place_of(self.crate, file, function), end_of(self.crate, file, function)
        if place is None or any(re.search(r"\btrait\b", it) for it in function.around):
            return None
        _, words, is_of_trait = place
        modules = self.modules.get(words[0]) if words and not is_of_trait else []
        has_crate = is_of_trait or not words
        return None if modules is None else "/".join([*modules, *end.split("::")[has_crate:]])

    def has_file(self, name, part):
        return os.path.exists(f"{self.folder}/proofs/{name}/{part}")

    def is_read(self, name, function):
        """Whether others may read more of a function than its contract."""
        own = f"{name.replace('/', '.')}."
        is_named = any(f"{path}.".startswith(own) for path, of in self.named if of != name)
        return is_named or bool(glob.glob(f"{self.folder}/proofs/**/fn/**/{function.name}", recursive=True))


def has_contract_alone(proofs, name, function, head):
    """Whether a function with this folder of proofs and this text before its body may go without the body."""
    is_of_trait = any(re.search(r"\bimpl\b.* for ", it) for it in function.around)
    is_tied = name is None or is_of_trait or function.is_const or bool(TIED.search(head))
    return not is_tied and not proofs.has_file(name, "Proof.antt") and not proofs.is_read(name, function)


def without_bodies(folder, texts, changes):
    """The files of the crate, with these texts in place of its own, in which only the functions of these changes have bodies: a text
    for each file that is another then, and None for one that is gone."""
    proofs, left = Proofs(folder), {}
    for file in proofs.files:
        text, since, parts = texts.get(file) or text_of(f"{folder}/{file}"), 0, []
        changed = [(it.changed().name, it.function.around) for it in changes if it.file == file]
        for it in functions_of(text):
            name = proofs.name_of(file, it)
            is_changed = (it.name, it.around) in changed
            if is_changed or not it.end or not has_contract_alone(proofs, name, it, text[it.item : it.start]):
                continue
            # Each line stays where it was.
            parts += [text[since : it.start], NO_BODY, "\n" * text.count("\n", it.start, it.end)]
            since = it.end
            left |= {f"proofs/{name}/{part}": None for part in ANSWERS if proofs.has_file(name, part)}
            left[f"proofs/{name}/Proof.antt"] = REFUSED.format(f"{it.name}_spec")
        if parts:
            left[file] = "".join([*parts, text[since:]])
    return left


def without_offers(folder, texts, changes):
    """The answers of the functions of these changes, with one more that is refused."""
    proofs, left = Proofs(folder), {}
    for change in changes:
        name = proofs.name_of(change.file, change.changed())
        answers = f"proofs/{name}/Answers.antt"
        if name and not proofs.has_file(name, "Proof.antt"):
            own = text_of(f"{folder}/{answers}") if proofs.has_file(name, "Answers.antt") else ""
            left[answers] = texts.get(answers, own) + REFUSED.format("nothing_is_offered")
    return left
