"""Holds docs/API.md to the sources: each public type of CRATES with its fields, variants and methods, each public function, what it does, with
what it is refused, and a line that calls it.

usage: tests/api/api.sh [--write]

The page is printed from the sources: a signature without its clauses; the first sentence of the `///`; the paragraphs of it that begin with
`Refused` or with an error in backticks; and the first call that stands in a file of EXAMPLES, if there is one.
"""

import glob
import os
import re
import sys

sys.dont_write_bytecode = True
TOP = os.path.realpath(f"{os.path.dirname(os.path.realpath(__file__))}/../..")
sys.path += [f"{TOP}/tests/promises", f"{TOP}/tools/wrong_bodies"]
from crates import head_of, owner_of_function, text_of
from functions import functions_of, without_texts

CRATES = ("publisher", "inbox", "flow_rules")
# What a crate hands on from another one, and a page of it would lack.
HANDED_ON = {"publisher": [("feed_core", "Lane"), ("publisher_hub", "Figures"), ("publisher_hub", "OnFull"), ("publisher_hub", "Published")]}
PAGE = f"{TOP}/docs/API.md"
# Where a call is looked for, the simplest first.
EXAMPLES = ("hello_example", "inbox_example", "bus_example", "lines_demo", "console", "fanout", "publisher_tests", "controller_tests", "inbox_tests", "test_stand", "day_tests")
HEAD = """# API

The public types and functions of `publisher`, `inbox` and `flow_rules`: what each does, with what it is refused, and a call from an example, a
program or a test.
Their clauses stand in the sources and in [promises/](promises/publisher.md), Java's names in the [guide](GUIDE.md#javas-names).
`tests/api/api.sh --write` prints this page from the sources.

`L` are the publisher's two ledgers, `B` is its listener, `F` its handler of failures, and `R` the runtime.
"""
LONGEST = 100
# How values of a type are called in the examples.
VALUES = {
    "Collector": "collector|subscriber",
    "Controller": "owner|controller",
    "HandedIn": "handed_in",
    "Inbox": r"inbox|other",
    "Name": "name",
    "NamedLane": "left",
    "Note": r"note|knows|one|first",
    "Outcome": "outcome",
    "Publisher": "publisher",
    "Queue": r"queue|arrivals|input",
    "Refusal": "refusal",
    "Refused": "refused",
    "Submitter": r"submitter|source",
    "Tally": "counter|tally",
    "Text": "text",
    "Subscription": r"subscription|counter|slow|named\.subscription",
}


def plain(text):
    """A text in one line, without what only rustdoc reads, for a cell of a table."""
    text = re.sub(r"\[([^]`]*)\]\(crate::[^)]*\)", r"\1", " ".join(text.split()))
    return re.sub(r"\[(`[^`]*`)\](\([^)]*\))?", r"\1", text).replace("|", "\\|")


def paragraphs_of(text):
    """The paragraphs of the `///` above an item."""
    lines = [it.strip()[3:].strip() for it in text.split("\n") if it.strip().startswith("///")]
    return [plain(it) for it in "\n".join(lines).split("\n\n")]


def first_sentence(text):
    return re.split(r"(?<=[^.]\.)\s", text + " ")[0].strip()


def refusals_in(paragraph):
    """What a paragraph says of refusals: all of it, if it begins with these, or a sentence."""
    if re.match(r"(?:It is r|R)efused\b|`\w+` if\b", paragraph):
        return [paragraph]
    return [it for it in re.split(r"(?<=[^.]\.)\s", paragraph) if re.match(r"It is refused\b|In all else it does what\b|Never refused", it)]


class Call:
    """A public function: under which name it is called, its signature, and what its `///` says."""

    def __init__(self, owner, name, item):
        item = re.sub(r"(?m)^\s*//(?!/)[^\n]*\n", "", item)
        signature = re.split(r"\b(?:requires|ensures)\b", item[re.search(r"(?m)^\s*pub (?:const )?fn ", item).start() :])[0]
        signature = re.sub(r"\s+", " ", signature.partition(" {")[0]).strip().removeprefix("pub ")
        signature = re.sub(r",? ?([)>])", r"\1", re.sub(r"([(<]) ", r"\1", signature)).replace("- >", "->")
        self.owner, self.name, self.signature = owner, name, signature.replace("|", "\\|")
        told = paragraphs_of(item)
        self.sentence = first_sentence(told[0])
        self.refused = " ".join(it for part in told for it in refusals_in(part))

    def pattern(self):
        """A call of it in a text: by its type, or by a value if it takes one."""
        if re.search(r"\((?:&(?:mut )?)?self\b", self.signature):
            return re.compile(rf"\b(?:\w+\s*\.\s*)?(?:{VALUES.get(self.owner, 'none')})\s*\.{self.name}\(")
        return re.compile(rf"\b{self.owner}(?:::<[^;]*?>)?::{self.name}\(" if self.owner else rf"(?<!fn )(?<![\w.:]){self.name}\(")


def call_at(code, text, begin):
    """The call that begins there, in one line."""
    end, depth = begin, 0
    for end in range(code.index("(", begin), len(code)):
        depth += {"(": 1, ")": -1}.get(code[end], 0)
        if depth == 0:
            break
    end += 1 if code[end + 1 : end + 2] == "?" else 0
    line = " ".join(re.sub(r"//[^\n]*", "", text[begin : end + 1]).split())
    return re.sub(r",? ?\)", ")", re.sub(r"\( ", "(", re.sub(r" ?\. ?(?=[a-z])", ".", line)))


def use_of(call):
    """The first call in an example that fits a line; None if there is none."""
    for place in EXAMPLES:
        for file in sorted(glob.glob(f"{TOP}/crates/{place}/src/**/*.rt", recursive=True)):
            text = text_of(file)
            code = without_texts(text)
            for found in call.pattern().finditer(code):
                line = call_at(code, text, found.start())
                if len(line) <= LONGEST and line.count("(") == line.count(")"):
                    return line
    return None


def modules_of(text):
    """The module of a crate from which its root file hands on each name."""
    used = re.findall(r"^pub use (\w+)::([^;]*);", without_texts(text), re.M)
    return {name: module for module, names in used for name in re.findall(r"\b(\w+)\b(?!::)", names)}


class Type:
    """A public type: what its `///` says, and its public fields, its variants, or its methods if it is a trait."""

    def __init__(self, kind, told, body):
        self.sentence = first_sentence(paragraphs_of(told)[0])
        self.heading = {"struct": "Field", "enum": "Variant", "trait": "Method"}[kind]
        wanted = {"struct": r"pub (\w+: [^\n]*?),?", "enum": r"(\w+(?:\([^\n]*?\))?)(?:,| \{)?", "trait": r"(fn [^\n]*?)(?: \{|;)?"}[kind]
        found = re.finditer(rf"(?m)((?:^    ///[^\n]*\n)*)(?:    #\[[^\n]*\n)*^    {wanted}$", body)
        self.parts = [(it[2].replace("|", "\\|"), first_sentence(paragraphs_of(it[1])[0])) for it in found]

    def lines(self):
        if not self.parts:
            return []
        return [f"| {self.heading} | What it is |", "|---|---|", *(f"| `{part}` | {told} |" for part, told in self.parts), ""]


def type_in(text, name):
    """The public type of this name in a text; None if it isn't there."""
    found = re.search(rf"((?:^///[^\n]*\n|^#\[[^\n]*\n)+)pub (struct|enum|trait) {name}\b[^;]*?\{{\n(.*?)^\}}", text, re.M | re.S)
    if found:
        return Type(found[2], found[1], found[3])
    found = re.search(rf"((?:^///[^\n]*\n|^#\[[^\n]*\n)+)pub (struct) {name}\b[^{{\n]*;\n", text, re.M)
    return Type(found[2], found[1], "") if found else None


def types_of(crate):
    """The public types of a crate by their names, with those that it hands on."""
    types = {}
    for crate, names in [(crate, None), *((other, {name}) for other, name in HANDED_ON.get(crate, []))]:
        folder = f"{TOP}/crates/{crate}/src"
        modules = modules_of(text_of(f"{folder}/lib.rt"))
        for file in sorted(glob.glob(f"{folder}/**/*.rt", recursive=True)):
            module = re.match(r"\w+", os.path.relpath(file, folder))[0]
            for name in names or modules:
                found = type_in(text_of(file), name) if modules.get(name) == module else None
                if found:
                    types[name] = found
    return types


def calls_of(crate):
    """The public functions of a crate by their types, in the order of the sources; what has no type is under the empty name."""
    folder = f"{TOP}/crates/{crate}/src"
    modules, calls = modules_of(text_of(f"{folder}/lib.rt")), {}
    for file in sorted(glob.glob(f"{folder}/**/*.rt", recursive=True), key=lambda it: (it.count("/"), it)):
        text = text_of(file)
        code = without_texts(text)
        module = re.match(r"\w+", os.path.relpath(file, folder))[0]
        for it in functions_of(text):
            owner, trait = owner_of_function(it)
            item = text[it.item : it.start or None]
            name = re.match(r"\w*", owner)[0]
            is_public = re.search(r"(?m)^\s*pub (?:const )?fn ", code[it.item : it.start or None]) and not trait
            # A method may stand in another module than its type, but not beside a type of the same name.
            is_elsewhere = name in modules and not type_in(text, name)
            if is_public and (modules.get(name or it.name) == module or is_elsewhere):
                calls.setdefault(name, []).append(Call(name, it.name, item))
    return calls


def page():
    """The page."""
    lines, none = [HEAD], Type("struct", "", "")
    for crate in CRATES:
        calls, types = calls_of(crate), types_of(crate)
        lines.append(f"## {crate}\n\n{plain(head_of(text_of(f'{TOP}/crates/{crate}/src/lib.rt')))}\n")
        for owner in sorted({*calls, *types}, key=lambda it: (it == "", it)):
            lines.append(f"### {owner or 'Functions'}\n")
            if owner in types:
                lines += [f"{types[owner].sentence}\n", *types[owner].lines()]
            if owner not in calls or types.get(owner, none).heading == "Method":
                continue
            lines += ["| Signature | What it does | Refused | A call |", "|---|---|---|---|"]
            for call in calls[owner]:
                use = use_of(call)
                use = f"`{use}`".replace("|", "\\|") if use else ""
                lines.append(f"| `{call.signature}` | {call.sentence} | {call.refused} | {use} |")
            lines.append("")
    return "\n".join(lines).rstrip() + "\n"


def main(words):
    text, faults = page(), []
    if words == ["--write"]:
        with open(PAGE, "w", encoding="utf-8") as it:
            it.write(text)
    elif not os.path.exists(PAGE) or text_of(PAGE) != text:
        faults.append("docs/API.md: it is not what is printed; `tests/api/api.sh --write` writes it")
    calls = len(re.findall(r"(?m)^\| `", text))
    print("\n".join([*faults, f"{calls} rows, {len(faults)} faults"]))
    return 1 if faults or not calls else 0


if __name__ == "__main__":
    sys.exit(main(sys.argv[1:]))
