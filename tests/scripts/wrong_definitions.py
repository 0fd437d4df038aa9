"""Plants errors in the definition of scripts, tests/refused_memory/definition.py, and looks which rows tell each from the right one.

Every output NAME.expected of this folder has to be what the definition gives for NAME.script, and every planted error has to change the
output of one of them at least.
"""

import glob
import os
import sys

HERE = os.path.dirname(os.path.realpath(__file__))
CANCEL = """        if self.is_cancelled:
            return told, "ended"
"""
BAD = """        if self.is_bad:
            return [*told, b"error argument"], "ended"
"""
DOUBLE = """        if self.is_double:
            return [*told, b"error state"], "ended"
"""
ERROR = """        if self.closing and self.closing != b"complete" and not self.is_late:
            return [*told, self.closing], "ended"
"""
NOT_LATE = ' and self.closing != b"complete" and not self.is_late:'
LAST = "        if self.closing and len(items) == len(self.waiting):\n"
LATE = """        if self.has_begun:
            return b"refused 12 command"
        self.is_late = True
"""
IS_LATE = 'elif line == b"late":'
CANCELLED = """        if latest.is_cancelled:
            return b"ok"
"""
LONG = """        if len(text) > LONGEST_TEXT:
            return b"refused 6 line"
"""
CLOSED = """        if self.closing:
            return b"refused 2 closed"
        takers = [it for it in self.subscriptions if it.takes()]
        full = [it for it in takers if len(it.waiting) == self.capacity]
"""
FULL_FIRST = """        takers = [it for it in self.subscriptions if not it.has_ended]
        full = [it for it in takers if len(it.waiting) == self.capacity]
        if self.closing and not (word == b"submit" and full):
            return b"refused 2 closed"
"""
WAKES = "        latest.is_started = True\n"
WOKEN = "self.woken += [it for it in owing if it >= len(before) or not before[it]]"
TWICE = "self.woken += [it for it in owing if it >= len(before) or not before[it] or self.subscriptions[it].name == name]"
MOVES = f"self.woken = [it for it in self.woken if self.subscriptions[it].name != name]; {TWICE}"
TURN = "            if self.turn(self.subscriptions[number]):\n"
LIVE_TURN = "            if not self.subscriptions[number].has_ended and self.turn(self.subscriptions[number]):\n"
IS_64 = "if len(items) == ITEMS_IN_A_TURN:"
AGAIN = 'return told, "again"'
FULL_TURN = f"        {IS_64}\n            {AGAIN}\n"
ONE_CLOSE = """        if self.closing:
            return b"ok"
"""
REPLY = "        reply = call[0](*call[1:])\n"
BEGUN = "        self.has_begun = True\n        before"
TEXT = "call = [self.publish, word, rest]"
IS_TEXT = 'in (b"offer", b"retry", b"submit") and rest:'


def behind_items(check, when):
    """What ends a subscription, by this check, waits for the requested items in some cases."""
    return [(check, check.replace(":", f" and not ({when}):", 1)), (FULL_TURN, FULL_TURN + check)]


LATE_CASES = {"under `late`": "self.is_late and not self.closing", "while an error waits": "self.is_late and self.closing"}

# Each error, and what of the definition becomes what.
ERRORS = {
    **{f"a cancel waits for requested items {name}": behind_items(CANCEL, when) for name, when in LATE_CASES.items()},
    **{f"a bad request waits for requested items {name}": behind_items(BAD, when) for name, when in LATE_CASES.items()},
    **{f"a second subscribing waits for requested items {name}": behind_items(DOUBLE, when) for name, when in LATE_CASES.items()},
    "a second subscribing overtakes a bad request": [(BAD + DOUBLE, DOUBLE + BAD)],
    "an error overtakes a bad request": [(BAD + DOUBLE + ERROR, ERROR + BAD + DOUBLE)],
    "an error overtakes a second subscribing": [(DOUBLE + ERROR, ERROR + DOUBLE)],
    "an error overtakes the items under `late`": [(NOT_LATE, NOT_LATE.replace(" and not self.is_late", ""))],
    "an error waits for the items without `late`": [(NOT_LATE, NOT_LATE.replace("not self.is_late", "False"))],
    "an error under `late` is never told": [(LAST, LAST[:-2] + ' and (self.closing == b"complete" or not self.is_late):\n')],
    "an error under `late` comes with items left": [(LAST, LAST[:-2] + ' or self.closing and self.is_late and self.closing != b"complete":\n')],
    "an error under `late` is told as completion": [(LAST + "            return [*told, self.closing]", LAST + '            return [*told, b"complete"]')],
    "`late` is accepted at any time": [(LATE, "        self.is_late = True\n")],
    "`late` ends the time of `cap`": [(LATE, LATE + "        self.has_begun = True\n")],
    "`cap` ends the time of `late`": [(LATE, LATE.replace("self.has_begun:", "self.has_begun or self.capacity != 256:"))],
    "an error under `late` is told with the 64th item": [(IS_64, IS_64[:-1] + ' and not (self.is_late and self.closing != b"complete" and self.closing and items == self.waiting):')],
    "a second `fail` under `late` changes the code": [(ONE_CLOSE, ONE_CLOSE.replace(":", ' and not (self.is_late and b"error" in self.closing and b"error" in signal):', 1))],
    "a second `late` undoes it": [(LATE, LATE.replace("is_late = True", "is_late = not self.is_late"))],
    "`late` takes a word": [(IS_LATE, 'elif word == b"late":')],
    "an ending is told with the 64th item": [(IS_64, IS_64[:-1] + " and not (self.closing and items == self.waiting):")],
    "after just 64 items nothing wakes it": [(AGAIN, 'return told, "again" if self.closing or items != self.waiting else "lost"')],
    "a turn has 65 items": [("LARGEST_CAPACITY, ITEMS_IN_A_TURN = 4200, 4096, 65536, 64", "LARGEST_CAPACITY, ITEMS_IN_A_TURN = 4200, 4096, 65536, 65")],
    "it rests after 64 items": [(IS_64, IS_64[:-1] + " and self.closing:")],
    "a request at the bound wakes nobody": [(WAKES, "        latest.is_started |= number is None or number <= 0 or latest.asked < UNBOUNDED\n")],
    "a request that comes to the bound wakes nobody": [(WAKES, "        latest.is_started |= number is None or latest.asked + number <= UNBOUNDED\n")],
    "a bad request undoes a cancel": [(CANCELLED, CANCELLED[:-1].replace("return", "latest.is_bad = number is not None and number <= 0; latest.is_cancelled = not latest.is_bad; return") + "\n")],
    "who is woken twice is listed twice": [(WOKEN, TWICE), (TURN, LIVE_TURN)],
    "who is woken twice goes to the end": [(WOKEN, MOVES), (TURN, LIVE_TURN)],
    "a long text is refused 2": [(LONG, LONG.replace("LONGEST_TEXT:", "LONGEST_TEXT and not self.closing:"))],
    "a full buffer is refused 11 after a close": [(CLOSED, FULL_FIRST)],
    "a wrong line is a command": [('            return b"refused 12 command"\n        self.has', '            self.has_begun = True\n            return b"refused 12 command"\n        self.has')],
    "a long line is a command": [("        if len(line) > LONGEST_LINE:\n", "        if len(line) > LONGEST_LINE:\n            self.has_begun = True\n")],
    "a long text is no command": [(BEGUN, BEGUN.replace("True", "self.has_begun or len(rest) <= LONGEST_TEXT"))],
    "a refused command is none": [(BEGUN, BEGUN.replace("self", "begun = self.has_begun; self", 1)), (REPLY, REPLY + '        self.has_begun = begun or reply[:7] != b"refused"\n')],
    "there is one `cap`": [("        self.capacity = min(", "        self.has_begun = True\n        self.capacity = min(")],
    "a refused `cap` is the last": [("        if number == 0:\n", "        self.has_begun |= number == 0\n        if number == 0:\n")],
    "spaces before a text go": [(TEXT, TEXT.replace("rest", 'rest.lstrip(b" ") or rest'))],
    "spaces after a text go": [(TEXT, TEXT.replace("rest", 'rest.rstrip(b" ") or rest'))],
    "a text is more than spaces": [(IS_TEXT, IS_TEXT.replace("rest", 'rest.strip(b" ")'))],
}


def rows():
    """The name, the lines and the output of each row."""
    for file in sorted(glob.glob(f"{HERE}/*.expected")):
        with open(file, "rb") as output, open(file[: -len("expected")] + "script", "rb") as script:
            yield os.path.basename(file), script.readlines(), output.read()


def played(text):
    """What plays a script by a definition of this text."""
    names = {}
    exec(compile(text, "definition", "exec"), names)
    return names["play"]


def told_by(play, all_rows):
    """The rows whose output is another one."""
    return [name for name, lines, output in all_rows if b"".join(play(lines)[0]) != output]


def planted(text, edits):
    for old, new in edits:
        if text.count(old) != 1:
            raise SystemExit(f"it stands {text.count(old)} times in the definition: {old}")
        text = text.replace(old, new)
    return text


def main():
    with open(f"{HERE}/../refused_memory/definition.py", encoding="utf-8") as it:
        text = it.read()
    all_rows = list(rows())
    faults = [f"{name} is not by the definition" for name in told_by(played(text), all_rows)]
    for error, edits in ERRORS.items():
        if not told_by(played(planted(text, edits)), all_rows):
            faults.append(f"no row tells apart: {error}")
    print("\n".join(faults or [f"{len(all_rows)} rows are by the definition, and tell it from {len(ERRORS)} wrong ones"]))
    return 1 if faults or not all_rows else 0


if __name__ == "__main__":
    sys.exit(main())
