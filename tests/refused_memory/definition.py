"""What scripts are answered, as crates/lines_demo/specs/Script says it, written a second time.

`play(lines, refused)` plays the lines of a script where memory is refused at the point of this number, or at none. A point is
where the definition lets memory be refused: a command's own call, or a callback of a turn, by what it tells.
"""

import re

MOST_LIVE, STOCK, UNBOUNDED, LARGEST_CODE = 64, 1024, 2**63 - 1, 2**32 - 1
LONGEST_LINE, LONGEST_TEXT, LARGEST_CAPACITY, ITEMS_IN_A_TURN = 4200, 4096, 65536, 64
MEMORY = b"refused 5 memory"


class Subscription:
    """A subscription: what its buffer has, what was requested, and why it may end."""

    def __init__(self, name, number, closing, is_late):
        self.name, self.asked, self.closing, self.is_late = name, number, closing, is_late
        self.waiting, self.given, self.dropped = [], 0, 0
        self.is_cancelled = self.is_bad = self.is_double = False
        self.is_greeted = self.has_ended = False
        self.is_started = True

    def owes(self):
        return self.is_started and not self.has_ended

    def takes(self):
        return not self.has_ended and not self.closing

    def signals(self):
        """The signals of a turn that meets no want of memory, and what comes after it."""
        told = [] if self.is_greeted else [b"subscribed"]
        if self.is_cancelled:
            return told, "ended"
        if self.is_bad:
            return [*told, b"error argument"], "ended"
        if self.is_double:
            return [*told, b"error state"], "ended"
        if self.closing and self.closing != b"complete" and not self.is_late:
            return [*told, self.closing], "ended"
        items = self.waiting[: min(self.asked - self.given, ITEMS_IN_A_TURN)]
        told += [b"next " + it for it in items]
        if len(items) == ITEMS_IN_A_TURN:
            return told, "again"
        if self.closing and len(items) == len(self.waiting):
            return [*told, self.closing], "ended"
        return told, "resting"


class Script:
    """Where a script stands, with what it was answered so far."""

    def __init__(self, refused):
        self.refused, self.points, self.line = refused, [], 0
        self.capacity, self.has_begun, self.is_late, self.closing, self.stock = 256, False, False, None, STOCK
        self.subscriptions, self.woken, self.output = [], [], []

    def is_refused(self, kind):
        """A point: whether memory is refused here."""
        self.points.append((self.line, kind))
        return len(self.points) - 1 == self.refused

    def answer(self, line):
        """The reply to a line, if it has any."""
        if len(line) > LONGEST_LINE:
            return b"refused 6 line"
        word, _, rest = line.partition(b" ")
        name, _, digits = rest.partition(b" ")
        is_named = re.fullmatch(rb"[A-Za-z0-9_-]{1,32}", name)
        if line in (b"run", b"close"):
            call = [self.run] if line == b"run" else [self.close, b"complete"]
        elif word == b"fail" and number_of(rest, 0, LARGEST_CODE) is not None:
            call = [self.close, b"error published %d" % number_of(rest, 0, LARGEST_CODE)]
        elif word in (b"offer", b"retry", b"submit") and rest:
            call = [self.publish, word, rest]
        elif word == b"cap" and number_of(rest) is not None:
            return self.cap(number_of(rest))
        elif line == b"late":
            return self.late()
        elif word == b"sub" and is_named and number_of(digits) is not None:
            call = [self.subscribe, name, number_of(digits)]
        elif word == b"request" and is_named and number_of(digits, -UNBOUNDED - 1) is not None:
            call = [self.act, name, number_of(digits, -UNBOUNDED - 1)]
        elif word == b"cancel" and is_named and name == rest:
            call = [self.act, name, None]
        else:
            return b"refused 12 command"
        self.has_begun = True
        before = [it.owes() for it in self.subscriptions]
        reply = call[0](*call[1:])
        if call[0] != self.run:
            owing = [number for number, it in enumerate(self.subscriptions) if it.owes()]
            self.woken += [it for it in owing if it >= len(before) or not before[it]]
        return reply

    def cap(self, number):
        if self.has_begun:
            return b"refused 12 command"
        if number == 0:
            return b"refused 1 capacity"
        if self.is_refused("cap"):
            return MEMORY
        self.capacity = min(1 << (number - 1).bit_length(), LARGEST_CAPACITY)
        return b"cap %d" % self.capacity

    def late(self):
        if self.has_begun:
            return b"refused 12 command"
        self.is_late = True
        return b"late"

    def subscribe(self, name, number):
        if self.is_refused("places"):
            return MEMORY
        live = [it for it in self.subscriptions if not it.has_ended]
        for it in live:
            if it.name == name:
                it.is_double = it.is_started = True
                return b"refused 3 duplicate"
        if len(live) >= MOST_LIVE or self.stock == 0:
            return b"refused 4 many"
        if self.is_refused("sub"):
            return MEMORY
        self.stock -= 1
        self.subscriptions.append(Subscription(name, number, self.closing, self.is_late))
        return b"sub " + name

    def publish(self, word, text):
        if len(text) > LONGEST_TEXT:
            return b"refused 6 line"
        if self.is_refused(word.decode()):
            return MEMORY
        if self.closing:
            return b"refused 2 closed"
        takers = [it for it in self.subscriptions if it.takes()]
        full = [it for it in takers if len(it.waiting) == self.capacity]
        if word == b"submit" and full:
            return b"refused 11 wait"
        for it in takers:
            if it in full:
                it.dropped += 1
            else:
                it.waiting.append(text)
                it.is_started = True
        number = -len(full) or max((len(it.waiting) for it in takers), default=0)
        return b"%s %d" % (word, number) + (b" calls %d" % len(full) if word == b"retry" else b"")

    def act(self, name, number):
        """A request of this number, or a cancel where it is none. Nothing comes of either after a cancel."""
        named = [it for it in self.subscriptions if it.name == name]
        if not named:
            return b"refused 10 unknown"
        latest = named[-1]
        if latest.is_cancelled:
            return b"ok"
        latest.is_started = True
        if number is None:
            latest.is_cancelled = True
        elif number > 0:
            latest.asked = min(latest.asked + number, UNBOUNDED)
        else:
            latest.is_bad = True
        return b"ok"

    def close(self, signal):
        """A close, which this signal tells. Only the first one does anything."""
        if self.closing:
            return b"ok"
        if self.is_refused("close"):
            return MEMORY
        self.closing = signal
        for it in self.subscriptions:
            if not it.has_ended:
                it.closing, it.is_started = signal, True
        return b"ok"

    def run(self):
        while self.woken:
            number = self.woken.pop(0)
            if self.turn(self.subscriptions[number]):
                self.woken.append(number)
        return b"idle"

    def turn(self, subscription):
        """A turn, and whether another one is owed."""
        signals, after = subscription.signals()
        for signal in signals:
            is_next = signal.startswith(b"next ")
            if is_next:
                subscription.waiting.pop(0)
                subscription.given += 1
            if self.is_refused("next" if is_next else signal.decode().rstrip(" 0123456789")):
                self.output.append(subscription.name + b" memory\n")
                subscription.has_ended = True
                return False
            subscription.is_greeted = True
            self.output.append(subscription.name + b" " + signal + b"\n")
        subscription.has_ended = after == "ended"
        subscription.is_started = after != "resting"
        return after == "again"


def number_of(word, least=0, most=UNBOUNDED):
    """The number that the word spells, if it does and it is in this range. A `-` is only taken where the range goes below 0."""
    sign = rb"-?" if least < 0 else rb""
    if not re.fullmatch(sign + rb"[0-9]{1,19}", word):
        return None
    return int(word) if least <= int(word) <= most else None


def play(lines, refused=None):
    """The output of a script, as lines, and its points: for each the number of the line, and what asks for memory there."""
    script = Script(refused)
    for script.line, line in enumerate(lines):
        line = line.removesuffix(b"\n").removesuffix(b"\r")
        reply = script.answer(line) if line else None
        if reply is not None:
            script.output.append(reply + b"\n")
    return script.output, script.points
