"""Reads what `rt check` prints, and judges by it whether a function was refused for a goal of its own."""

import re

from left_out import LEFT_OUT

# A proof file that names what an edit took away: it says nothing of the contract.
GONE = re.compile(r"has no field|is not in scope|has no `|not admitted")
# What was not checked because it cites what was refused, which has a line of its own.
CITES = re.compile(r"\d+ declarations? that depends? on ")
PROOF = re.compile(r"(?:\./)?proofs/(\S+)/(?:Answers|Invariants|Proof)\.antt:\d+:\d+: error: (.*)")
SOURCE = re.compile(r"(?:\./)?((?:src|specs)/\S+?):(\d+):\d+: error(?:\[\S+\])?: (?:(`[^`]*`): )?(.*)")
GOAL = re.compile(r"note: (?:\./)?src/\S+:\d+:\d+: .*(is not proved|found no proof)")
VERDICT = re.compile(r"(?:fn|struct|enum|impl|trait) (\S+): (.*)")
# What rt calls an open goal.
NAME = re.compile(r"\(`([^`]+)`\)|error: `([^`]+)`:")
# The verdict of a function with no open goal of its own; one that was not tried has another.
WAITS = re.compile(r"no proof: it calls `[^`]+`(?: and `[^`]+`)*, which (?:is|are) not proved")
# How docs/PROMISES.md names the clause of a function that has one with no name.
ONLY_ONE = "its only one"


def is_of_clause(goal, clause):
    """Whether a goal of this name is that this clause holds where the function returns. Its name has the clause's, where there are
    several and each is a goal of its own."""
    return goal.startswith("returns") and ("-clause-" not in goal or clause != ONLY_ONE and goal.endswith(f"-clause-{clause}"))


def not_among(lines, clauses, goals):
    """Those of these clauses and goals that none of these lines of open goals names."""
    names = ["".join(found) for line in lines for found in NAME.findall(line)[-1:]]
    missed = [it for it in clauses if not any(is_of_clause(name, it) for name in names)]
    return [*missed, *(it for it in goals if it not in names)]


class Check:
    """What one check said: of each function its own open goals, the names that are gone, and its verdict."""

    def __init__(self, crate, text, status):
        self.crate, self.text, self.goals, self.gone, self.verdicts = crate, text, {}, {}, {}
        # A library that is built already is proved, and `rt lib` says nothing of it.
        self.is_proved = status == 0
        self.is_judged = bool(re.search(r"^(logic=|only=\d+ proved=)", text, re.M))
        # Texts that can't be read, and where they stand.
        self.errors, self.places = [], []
        notes = []
        # A long error goes on in the next line.
        for line in re.sub(r"\n  (?=has no |is not )", " ", text).split("\n"):
            self.read_error(line)
            verdict = VERDICT.match(line)
            if GOAL.match(line):
                notes.append(line)
            elif verdict:
                self.verdicts[verdict[1]] = verdict[2]
                # The verdict itself names the goals that are open; it follows their notes.
                is_open = "did not prove" in verdict[2]
                self.goals.setdefault(verdict[1], []).extend(notes or [line] * is_open)
                notes = []

    def read_error(self, line):
        if LEFT_OUT in line:
            return
        proof, source = PROOF.match(line), SOURCE.match(line)
        if proof and not CITES.match(proof[2]):
            name = "::".join([self.crate, *proof[1].split("/")])
            (self.gone if GONE.search(proof[2]) else self.goals).setdefault(name, []).append(line)
        elif source and (not source[3] or GONE.search(source[4])):
            self.errors.append(line)
            self.places.append((source[1], int(source[2])))
        elif source:
            self.goals.setdefault(source[1], []).append(line)

    def of(self, lists, function):
        """The lines of a function and of the closures in it."""
        head, _, name = function.rpartition("::")
        inside = (f"{head}::fn::{name}::", f"{function}::")
        return [line for it, lines in lists.items() if it == function or it.startswith(inside) for line in lines]

    def is_met(self, function):
        """Whether all goals of a function are proved, be what it calls proved or not."""
        verdict = self.verdicts.get(function, "")
        own = [line for it in (self.goals, self.gone) for line in self.of(it, function)]
        return not own and bool(verdict == "proved" or WAITS.fullmatch(verdict))

    def last(self):
        return self.text.strip().split("\n")[-1]

    def judge(self, functions, clauses=(), goals=()):
        """Whether the functions (all, where none is named) have open goals of their own, among them one of each of these clauses and
        all of these goals; and the first open goal, or why not."""
        if not self.is_judged or self.errors:
            return False, f"it doesn't compile, so no contract was tried: {(self.errors or [self.last()])[0]}"
        if None in functions:
            return False, "the check prints no line of the function, or it can't be told which"
        found = [line for it in functions for line in self.of(self.goals, it)]
        if not functions:
            found = [line for lines in self.goals.values() for line in lines]
        gone = [line for it in functions or self.gone for line in self.of(self.gone, it)]
        missed = not_among(found, clauses, goals)
        if found and missed:
            return False, f"refused, but not at {', '.join(missed)}: {found[0]}"
        if found:
            return True, found[0] + " (names are gone from a proof file, too)" * bool(gone)
        if gone:
            return False, f"refused only by names that are gone from a proof file, which says nothing of the contract: {gone[0]}"
        said = [f"{it}: {self.verdicts.get(it, 'no line')}" for it in functions]
        if self.is_proved or said and all(": proved" in it for it in said):
            return False, "LET THROUGH: it is proved"
        return False, f"refused, but only through what it calls: {' '.join(said) or self.last()}"
