"""Finds the functions of a .rt file: where each body stands, which clauses it has, and what rt calls the function."""

import re
from dataclasses import dataclass, field

# Comments, texts and characters, in which a brace is none. A lifetime has no second quote.
HIDDEN = re.compile(
    r"""//[^\n]*|/\*.*?\*/|b?r(\#*)".*?"\1|b?"(?:\\.|[^"\\])*"|b?'(?:\\[^\n']{1,8}|\\'|[^\\'\n])'""", re.S
)
CLAUSE = re.compile(r"\b(requires|ensures|decreases|invariant|ghost)\b\*?\s*(\w*)\s*:?\s*$")
NAMED = re.compile(r"(\bconst\s+)?(?:\bunsafe\s+)?\bfn\s+(\w+)")


@dataclass
class Function:
    """A function: where its item begins, with what is written above it, the offsets inside the braces of its body (none: 0),
    the heads of the blocks around it, outermost first, and its clauses, each a kind and a name, which is empty where the
    clause has none."""

    name: str
    is_const: bool
    around: tuple
    item: int = 0
    start: int = 0
    end: int = 0
    clauses: list = field(default_factory=list)


@dataclass
class Block:
    """A block that is open: its head, the function whose body it is, and the function in it whose body is yet to come."""

    head: str
    body_of: Function | None = None
    awaited: Function | None = None


def without_texts(text):
    """The file with blanks in the place of comments and texts, so that each brace is code."""
    return HIDDEN.sub(lambda found: re.sub(r"[^\n]", " ", found[0]), text)


def functions_of(text):
    """The functions in the text of a .rt file."""
    code = without_texts(text)
    found, blocks, since = [], [Block("")], 0
    for at, sign in enumerate(code):
        # The `;` of an array's type ends nothing.
        if sign not in "{};" or sign == ";" and code.count("[", since, at) != code.count("]", since, at):
            continue
        head, block = code[since:at], blocks[-1]
        named = NAMED.search(head) if sign != "}" else None
        if named:
            block.awaited = Function(named[2], bool(named[1]), tuple(it.head for it in blocks[1:]), since)
            found.append(block.awaited)
        if sign == "{":
            clause = CLAUSE.search(head)
            blocks.append(Block(" ".join(head.split())))
            if block.awaited and clause:
                block.awaited.clauses.append((clause[1], clause[2]))
            elif block.awaited:
                blocks[-1].body_of, block.awaited = block.awaited, None
                blocks[-1].body_of.start = at + 1
        elif sign == "}":
            function = blocks.pop().body_of
            if function:
                function.end = at
        else:
            block.awaited = None
        since = at + 1
    return found


def with_tuples(types):
    """Names tuples as rt does: `(A, B)` is Tuple2 and its parts, and `()` is Unit."""
    name = lambda it: f"Tuple{it[1].count(',') + 1} {it[1]}" if it[1].strip() else "Unit"
    return re.sub(r"\(([^()]*)\)", name, types)


def owner_of(head, left_out=("dyn", "mut", "const")):
    """The words that rt joins to the name of an impl's or a trait's methods, but for these, and whether it is the impl of a trait."""
    head = re.split(r"\bwhere\b", re.sub(r"^.*?\b(?=(?:impl|trait)\b)", "", head))[0]
    if head.startswith("trait"):
        return re.findall(r"\w+", head)[1:2], False
    head, parameters = head.removeprefix("impl").strip(), []
    if head.startswith("<"):
        depth, end = 0, 0
        while end == 0 or depth:
            depth += (head[end] == "<") - (head[end] == ">" and head[end - 1] != "-")
            end += 1
        parameters = re.findall(r"(?:^|,)\s*(?:const\s+)?([A-Za-z_]\w*)", head[1:end])
        head = head[end:]
    trait, _, kind = head.rpartition(" for ")
    words = re.findall(r"(?<!')\b[A-Za-z_]\w*\b(?!::)", with_tuples(f"{kind} {trait}"))
    words = [it for it in words if it not in (*parameters, *left_out)]
    return (words if trait else words[:1]), bool(trait)


def module_of(file):
    """The modules of a file below src/: src/desks/calls.rt is desks, calls."""
    parts = re.sub(r"(/mod)?\.rt$", "", file).split("/")[1:]
    return [] if parts in (["lib"], ["main"]) else parts


def place_of(crate, file, function):
    """The crate and the modules around a function, the words of its impl or trait, and whether that is the impl of a trait;
    None for a function in another."""
    path, words, is_of_trait = [crate, *module_of(file)], [], False
    for head in function.around:
        if NAMED.search(head):
            return None
        if re.search(r"\b(impl|trait)\b", head):
            words, is_of_trait = owner_of(head)
        else:
            path += re.findall(r"\bmod (\w+)$", head)
    return path, words, is_of_trait


def end_of(crate, file, function):
    """The end of what rt calls the function, or None where that isn't clear."""
    path, words, is_of_trait = place_of(crate, file, function) or ([], [], True)
    if is_of_trait and not path:
        return None
    if is_of_trait:
        # `impl Listener for Box<dyn Subscriber>` is BoxDynSubscriberListener.
        head = next(it for it in function.around if re.search(r"\bimpl\b", it))
        words = [*path, "".join(it[:1].upper() + it[1:] for it in owner_of(head, ("mut", "const"))[0])]
    return "::".join([*(words or path), function.name])


def path_of(crate, file, function, known):
    """What rt calls the function, among the names that a check printed, or None where that isn't clear."""
    place = place_of(crate, file, function)
    if place is None:
        return None
    path, words, is_of_trait = place
    if not is_of_trait:
        # A method stands under the module of its type, which need not be that of the impl.
        end = "::".join(["", *words, function.name])
        names = [it for it in known if it.endswith(end)] if words else []
        name = "::".join([*path, *words, function.name])
        return name if name in known else names[0] if len(names) == 1 else None
    plain = lambda word: word.replace("_", "").lower()
    start = "::".join([*path, ""])
    owners = [it[len(start) :].split("::") for it in known if it.startswith(start)]
    owners = [it[0] for it in owners if it[1:] == [function.name]]
    owners = [it for it in owners if all(plain(word) in plain(it) for word in words)]
    # The name of another impl may have these words among others, and is longer then.
    owners.sort(key=len)
    if not owners or len(owners) > 1 and len(owners[0]) == len(owners[1]):
        return None
    return f"{start}{owners[0]}::{function.name}"
