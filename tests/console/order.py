"""What comes before what: `wait`, `close`, `fail` and the end wait for the sources, and what each source is answered stays as it is."""

import subprocess

from drive import SECONDS, Console, Stopped

# How often a session is repeated whose lines are all typed at once.
ROUNDS = 40


def typed_at_once(program, words, *typed):
    """The lines of a console to which all is typed at once, and which ends well by itself."""
    ran = subprocess.run([program, *words], input=b"".join(line + b"\n" for line in typed), capture_output=True, timeout=SECONDS)
    if ran.returncode or ran.stderr:
        raise Stopped(f"{typed}: {ran}")
    return ran.stdout.splitlines()


def answers(lines):
    """What the lines answer: `= ` is cut off."""
    return [line[2:] for line in lines if line.startswith(b"= ")]


def told(lines, name):
    """The texts that a subscriber was told."""
    return [line.split(b" ", 2)[2] for line in lines if line.startswith(name + b" next ")]


def closes_after_all(program):
    """A `close` and a `fail` come after the texts that were typed before them, also if all is typed at once; and so does the end."""
    for words in (["--workers", "1", "--cap", "1"], ["--workers", "8"]):
        for _ in range(ROUNDS):
            for last, then in ((b"close", b"complete"), (b"fail 7", b"error"), (None, b"complete")):
                typed = [b"sub a 9", b"submit 7 y", b"submit 7 z", b"submit 8 w"] + [last] * bool(last)
                lines = typed_at_once(program, words, *typed)
                got = [it for it in answers(lines) if not it.startswith(b"submit ")]
                # An error overtakes the items that wait, so a may be told fewer.
                count = len(told(lines, b"a"))
                if got != [b"sub a"] + [b"ok"] * bool(last) + [b"a %s %d" % (then, count), b"drained 1"] or last != b"fail 7" and count != 3:
                    raise Stopped(f"{last}: {lines}")
                done = [it for it in answers(lines) if it.startswith(b"submit ")]
                if sorted(it[:9] for it in done) != [b"submit 7 ", b"submit 7 ", b"submit 8 "] or any(b"refused" in it for it in done):
                    raise Stopped(f"{last}: {lines}")
                if last and lines.index(b"= ok") < max(lines.index(b"= " + it) for it in done):
                    raise Stopped(f"{last} was answered before a text: {lines}")


def closes_on_one_that_waits(program):
    """A `close` doesn't wait for room that only a later line can make: what waits for it is refused, and nothing else."""
    for _ in range(ROUNDS):
        typed = (b"sub a 1", b"sub b 9", b"submit 7 x", b"submit 7 y", b"submit 7 z", b"close", b"wait", b"request a 9")
        lines = typed_at_once(program, ["--cap", "1"], *typed)
        refused = [b"submit 7 refused 2 closed"]
        if sorted(answers(lines)) != sorted(
            [b"sub a", b"sub b", b"submit 7 1", b"submit 7 1", *refused, b"ok", b"wait", b"ok", b"a complete 2", b"b complete 2", b"drained 1"]
            + [it for it in answers(lines) if it.startswith(b"submit 7 waits")]
        ):
            raise Stopped(f"{lines}")
    # A text is told to wait for the one whose buffer is full, and then to be refused.
    with Console(program, ["--cap", "1"]) as it:
        it.say(b"sub a 9", b"= sub a", b"a subscribed")
        it.say(b"sub b 0", b"= sub b", b"b subscribed")
        it.say(b"submit 7 x", b"= submit 7 1", b"a next x")
        it.say(b"submit 7 y", b"= submit 7 waits for b (1 of 1)")
        it.say(b"close", b"= ok", b"a complete", b"= submit 7 refused 2 closed")
        it.say(b"wait", b"= wait")
        # Nothing waits after the close, though its buffer is still full.
        it.say(b"submit 7 z", b"= submit 7 refused 2 closed")
        it.say(b"publish 8 z", b"= publish 8 refused 2 closed")
        it.say(b"wait", b"= wait")
        it.say(b"request b 1", b"= ok", b"b next x", b"b complete")
        it.end(b"= a complete 1", b"= b complete 1", b"= drained 1")
    # One that only loses texts is no reason to refuse those of a source that goes past it.
    with Console(program, ["--cap", "1"]) as it:
        it.say(b"sub b 0 drop", b"= sub b", b"b subscribed")
        it.say(b"publish 7 x", b"= publish 7 1")
        it.say(b"submit 8 y", b"= submit 8 waits for b (1 of 1)")
        it.type(b"\n".join([b"publish 7 z"] * 200 + [b"close"]))
        it.take(*[b"= publish 7 1, 1 dropped"] * 200, b"= ok", b"= submit 8 refused 2 closed")
        it.end(b"= b open 0, 200 dropped", b"= drained 0")


def waits(program):
    """`wait` is answered once each source has answered its texts, or waits for a later line; and says which do."""
    with Console(program, ["--cap", "2", "--workers", "1"]) as it:
        it.say(b"wait", b"= wait")
        it.say(b"sub a 0", b"= sub a", b"a subscribed")
        it.say(b"sub b 1 drop", b"= sub b", b"b subscribed")
        it.say(b"submit 7 1", b"= submit 7 1", b"b next 1")
        it.say(b"wait", b"= wait")
        it.type(b"submit 7 2\nwait")
        it.take(b"= submit 7 2", b"= wait")
        it.say(b"submit 7 3", b"= submit 7 waits for a (2 of 2)")
        it.say(b"wait", b"= wait 7 waits for a (2 of 2)")
        it.say(b"request a 9", b"= ok", b"a next 1", b"a next 2", b"a next 3", b"= submit 7 2")
        it.say(b"wait", b"= wait")
        # Now b is full. A publish goes past it, and a submit does not.
        it.type(b"publish 7 4\nwait")
        it.take(b"= publish 7 2, 1 dropped", b"a next 4", b"= wait")
        it.say(b"submit 8 5", b"= submit 8 waits for b (2 of 2)")
        it.say(b"wait", b"= wait 8 waits for b (2 of 2)")
        it.type(b"publish 7 6\nwait")
        it.take(b"= publish 7 2, 1 dropped", b"a next 6", b"= wait 8 waits for b (2 of 2)")
        it.type(b"submit 7 7\nwait")
        it.take(b"= wait 7 waits for b (2 of 2), 8 waits for b (2 of 2)")
        it.say(b"lag", b"= lag 2")
        it.end(b"= submit 7 refused 2 closed", b"= submit 8 refused 2 closed", b"a complete", b"= a complete 5", b"= b open 1, 2 dropped", b"= drained 0")


def repeats(program):
    """With `wait` behind each text a session has the same answers each time, though all is typed at once."""
    typed, wanted = [b"sub a 3", b"sub b 9"], [b"sub a", b"sub b"]
    for text in range(5):
        typed += [b"submit %d %d" % (text % 3, text), b"wait"]
    wanted_last = [b"wait", b"wait", b"wait", b"wait", b"wait 1 waits for a (1 of 1)"]
    sessions = {tuple(answers(typed_at_once(program, ["--cap", "1"], *typed))) for _ in range(ROUNDS)}
    wanted += [it for text in range(4) for it in (b"submit %d 1" % (text % 3), wanted_last[text])]
    wanted += [b"submit 1 waits for a (1 of 1)", wanted_last[4], b"submit 1 refused 2 closed", b"a open 3", b"b complete 4", b"drained 0"]
    if sessions != {tuple(wanted)}:
        raise Stopped(f"the answers are {sessions}, and not {wanted}")


def ends_after_refusals(program):
    """Texts that were refused 11 are not waited for: not at the end, not by `wait`, and not by the next text."""
    with Console(program, ["--cap", "1"]) as it:
        it.say(b"sub a 0", b"= sub a", b"a subscribed")
        it.say(b"submit 7 0", b"= submit 7 1")
        it.say(b"submit 7 1", b"= submit 7 waits for a (1 of 1)")
        it.say(b"wait", b"= wait 7 waits for a (1 of 1)")
        it.type(b"\n".join(b"submit 7 %d" % text for text in range(2, 66)))
        it.type(b"\n".join([b"submit 7 x"] * 100))
        it.take(*[b"= submit 7 refused 11 wait"] * 100)
        it.say(b"request a 67", b"= ok", *[b"a next %d" % text for text in range(66)], *[b"= submit 7 1"] * 65)
        it.say(b"wait", b"= wait")
        it.say(b"submit 7 66", b"= submit 7 1", b"a next 66")
        it.say(b"submit 7 67", b"= submit 7 1")
        it.say(b"submit 7 68", b"= submit 7 waits for a (1 of 1)")
        it.say(b"request a 9", b"= ok", b"a next 67", b"a next 68", b"= submit 7 1")
        it.end(b"a complete", b"= a complete 69", b"= drained 1")


def answers_at_once(program):
    """After a submit that waited for one that may lose texts, a publish doesn't wait for it, and doesn't say so."""
    with Console(program, ["--cap", "1", "--workers", "1"]) as it:
        it.say(b"sub b 0 drop", b"= sub b", b"b subscribed")
        it.say(b"submit 7 x", b"= submit 7 1")
        it.say(b"publish 7 y", b"= publish 7 1, 1 dropped")
        it.say(b"submit 7 z", b"= submit 7 waits for b (1 of 1)")
        it.say(b"request b 1", b"= ok", b"b next x", b"= submit 7 1")
        for source in (7, 8):
            it.say(b"publish %d v" % source, b"= publish %d 1, 1 dropped" % source)
        it.say(b"lag", b"= lag 1")
        # 64 may wait for a source; a submit that goes on is no reason to refuse what comes after it.
        it.type(b"\n".join([b"publish 7 w"] * 200))
        it.take(*[b"= publish 7 1, 1 dropped"] * 200)
        it.end(b"= b open 1, 203 dropped", b"= drained 0")


def tells_the_longest(program):
    """A publish tells the longest backlog of any subscriber, also if that one has lost the text."""
    with Console(program, ["--cap", "4", "--workers", "1"]) as it:
        it.say(b"sub a 2", b"= sub a", b"a subscribed")
        for name in (b"b", b"c"):
            it.say(b"sub %s 0 drop" % name, b"= sub " + name, name + b" subscribed")
        for text in (b"1", b"2"):
            it.say(b"publish 7 " + text, b"= publish 7 " + text, b"a next " + text)
        it.say(b"publish 7 3", b"= publish 7 3")
        it.say(b"publish 7 4", b"= publish 7 4")
        it.say(b"publish 7 5", b"= publish 7 4, 2 dropped")
        it.say(b"request c 3", b"= ok", b"c next 1", b"c next 2", b"c next 3")
        it.say(b"publish 7 6", b"= publish 7 4, 1 dropped")
        stands = (b"= a lag 4, accepted 6, dropped 0", b"= b drop lag 4, accepted 4, dropped 2", b"= c drop lag 2, accepted 5, dropped 1")
        it.say(b"stats", b"= stats published 6, subscribed 3, reclaimed 0, live 3", *stands)
        it.say(b"request a 4", b"= ok", *[b"a next %d" % text for text in range(3, 7)])
        it.say(b"request b 1", b"= ok", b"b next 1")
        it.say(b"publish 7 7", b"= publish 7 4")
        it.end(b"= a open 6", b"= b open 1, 2 dropped", b"= c open 3, 1 dropped", b"= drained 0")


def whole_texts(program):
    """A text is whole that ends as `sub NAME N drop` does."""
    with Console(program) as it:
        it.say(b"sub a 99", b"= sub a", b"a subscribed")
        for word, lag in ((b"offer", b"offer 1"), (b"retry", b"retry 1 calls 0"), (b"submit 7", b"submit 7 1"), (b"publish 7", b"publish 7 1")):
            for text in (b"x drop", b" drop", b"a 1 drop", b"drop drop"):
                it.say(word + b" " + text, b"= " + lag, b"a next " + text)
                it.say(b"wait", b"= wait")
        it.type(b"# drop")
        it.say(b"cancel a drop", b"= refused 12 command: cancel NAME: too many words, drop")
        it.say(b"request a 1 drop", b"= refused 12 command: request NAME N: too many words, drop")
        it.end(b"a complete", b"= a complete 16", b"= drained 1")


def counts_those_that_left(program):
    """`stats` after a `leave` has those that are left, and counts the one that went."""
    with Console(program, ["--cap", "2"]) as it:
        for name in (b"a", b"b", b"c"):
            it.say(b"sub " + name + b" 9", b"= sub " + name, name + b" subscribed")
        it.say(b"offer 1", b"= offer 1", b"a next 1", b"b next 1", b"c next 1")
        it.say(b"cancel b", b"= ok")
        it.until(b"leave b", b"= b cancelled 1", (b"= refused 9 unsettled", b"= refused 8 held"))
        stands = [b"= a lag 0, accepted 1, dropped 0", b"= c lag 0, accepted 1, dropped 0"]
        it.say(b"stats", b"= stats published 1, subscribed 3, reclaimed 1, live 2", *stands)
        it.say(b"sub b 0", b"= sub b", b"b subscribed")
        it.say(b"offer 2", b"= offer 1", b"a next 2", b"c next 2")
        stands = [line.replace(b"accepted 1", b"accepted 2") for line in stands] + [b"= b lag 1, accepted 1, dropped 0"]
        it.say(b"stats", b"= stats published 2, subscribed 4, reclaimed 1, live 3", *stands)
        it.end(b"a complete", b"c complete", b"= a complete 2", b"= c complete 2", b"= b open 0", b"= drained 0")


PARTS = (
    closes_after_all,
    closes_on_one_that_waits,
    waits,
    repeats,
    ends_after_refusals,
    answers_at_once,
    tells_the_longest,
    whole_texts,
    counts_those_that_left,
)
