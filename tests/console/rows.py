"""Drives consoles by hand, as it were, and looks at each line.

usage: rows.py PROGRAM

Each part types lines and takes what is printed then; lines that come from several threads may come in any order.
"""

import os
import pty
import select
import signal
import subprocess
import sys
import termios
import threading

sys.dont_write_bytecode = True
import order
from drive import SECONDS, Console, Stopped

REFUSED, UNKNOWN, UNSETTLED, HELD = b"= refused 12 command", b"= refused 10 unknown", b"= refused 9 unsettled", b"= refused 8 held"

# A text of one byte too many.
LONG = b"x" * 4097

# The commands that a wrong one is told of.
LISTED = b"no such command (sub, request, cancel, leave, offer, retry, submit, publish, wait, close, fail, lag, stats, subscribers, closed, help, quit)"

DIGITS, NAME, SPACE = b"a number has digits alone", b"a name has 1 to 32 letters, digits, - and _", b"a space too many"
SHOWN = b"x" * 60 + b" .."

# Lines that spell no command, and what is said to be wrong with them.
MISTAKES = (
    (b"foo", b"foo: " + LISTED),
    (b"cap 3", b"cap: " + LISTED),
    (b"late", b"late: " + LISTED),
    (b"run", b"run: " + LISTED),
    (b"Offer x", b"Offer: " + LISTED),
    (b"\tlag", b"\\tlag: " + LISTED),
    (b"\xff", b"\\xff: " + LISTED),
    (b"x" * 4200, SHOWN + b": " + LISTED),
    (b"x" * 4200 + b"\r", SHOWN + b": " + LISTED),
    (b"sub", b"sub NAME N: the name is missing"),
    (b"sub a", b"sub NAME N: the number is missing"),
    (b"sub a ", b"sub NAME N: the number is missing"),
    (b"sub a -1", b"-1: " + DIGITS),
    (b"sub a x", b"x: " + DIGITS),
    (b"sub a 99999999999999999999", b"99999999999999999999: more than 19 digits"),
    (b"sub a 9999999999999999999", b"9999999999999999999: more than 9223372036854775807"),
    (b"sub a b 1", b"sub NAME N: too many words, 1"),
    (b"sub a 1 2 3", b"sub NAME N: too many words, 2 3"),
    (b"sub a 1 dropped", b"sub NAME N: too many words, dropped"),
    (b"sub a 1 2 drop", b"sub NAME N: too many words, 2 drop"),
    (b"sub a drop", b"drop: " + DIGITS),
    (b"publish", b"publish SOURCE TEXT: the source is missing"),
    (b"publish 1", b"publish SOURCE TEXT: the text is missing"),
    (b"sub a 1 ", SPACE),
    (b"sub  a 1", SPACE),
    (b"sub a  1", SPACE),
    (b"sub " + b"n" * 33 + b" 1", b"n" * 33 + b": " + NAME),
    (b"sub a.b 1", b"a.b: " + NAME),
    (b"request a +1", b"+1: " + DIGITS),
    (b"request a -", b"-: " + DIGITS),
    (b"request a 9223372036854775808", b"9223372036854775808: more than 9223372036854775807"),
    (b"request a -9223372036854775809", b"-9223372036854775809: less than -9223372036854775808"),
    (b"request a -99999999999999999999", b"-99999999999999999999: more than 19 digits"),
    (b"cancel", b"cancel NAME: the name is missing"),
    (b"offer", b"offer TEXT: the text is missing"),
    (b"offer ", b"offer TEXT: the text is missing"),
    (b"submit", b"submit SOURCE TEXT: the source is missing"),
    (b"submit x", b"x: " + DIGITS),
    (b"submit 1", b"submit SOURCE TEXT: the text is missing"),
    (b"submit 1 ", b"submit SOURCE TEXT: the text is missing"),
    (b"submit -1 x", b"-1: " + DIGITS),
    (b"submit 4294967296 x", b"4294967296: more than 4294967295"),
    (b"fail", b"fail C: the code is missing"),
    (b"fail 4294967296", b"4294967296: more than 4294967295"),
    (b"fail -1", b"-1: " + DIGITS),
    (b"close 1", b"close: too many words, 1"),
    (b"close ", SPACE),
    (b" lag", SPACE),
    (b"lag ", SPACE),
    (b"quit now", b"quit: too many words, now"),
    (b"wait 7", b"wait: too many words, 7"),
    (b"help me", b"help: too many words, me"),
    (b"leave", b"leave NAME: the name is missing"),
    (b"leave ", b"leave NAME: the name is missing"),
    (b"leave a b", b"leave NAME: too many words, b"),
    (b"leave  a", SPACE),
)


def commands(program):
    """Each command, and what it is answered."""
    with Console(program, ["--workers", "2", "--cap", "3"]) as it:
        it.say(b"lag", b"= lag 0")
        it.say(b"stats", b"= stats published 0, subscribed 0, reclaimed 0, live 0")
        it.say(b"subscribers", b"= subscribers 0")
        it.say(b"closed", b"= closed 0")
        it.say(b"offer x", b"= offer 0")
        it.say(b"sub a 1", b"= sub a", b"a subscribed")
        it.say(b"subscribers", b"= subscribers 1")
        it.say(b"offer  x y", b"= offer 1", b"a next  x y")
        it.say(b"offer 1", b"= offer 1")
        it.say(b"retry 2", b"= retry 2 calls 0")
        it.say(b"offer 3", b"= offer 3")
        it.say(b"offer 4", b"= offer 4")
        it.say(b"lag", b"= lag 4")
        it.say(b"stats", b"= stats published 6, subscribed 1, reclaimed 0, live 1", b"= a lag 4, accepted 5, dropped 0")
        it.say(b"offer 5", b"= offer -1")
        it.say(b"retry 5", b"= retry -1 calls 1")
        it.say(b"request a 2", b"= ok", b"a next 1", b"a next 2")
        it.say(b"lag", b"= lag 2")
        it.say(b"stats", b"= stats published 8, subscribed 1, reclaimed 0, live 1", b"= a lag 2, accepted 5, dropped 2")
        it.say(b"submit 4294967295 6", b"= submit 4294967295 3")
        it.say(b"cancel a", b"= ok")
        it.say(b"request a 9", b"= ok")
        it.say(b"close", b"= ok")
        it.say(b"closed", b"= closed 1")
        it.say(b"offer " + LONG, b"= refused 6 line")
        it.say(b"offer 7", b"= refused 2 closed")
        it.say(b"offer " + LONG, b"= refused 2 closed")
        it.say(b"submit 1 7", b"= submit 1 refused 2 closed")
        it.say(b"sub b 3", b"= sub b", b"b subscribed", b"b complete")
        it.say(b"fail 7", b"= ok")
        it.say(b"closed", b"= closed 1")
        it.end(b"= a cancelled 3, 2 dropped", b"= b complete 0", b"= drained 1")


def refusals(program):
    """Lines that are refused, as in scripts, and lines that are none."""
    with Console(program) as it:
        for line, reason in MISTAKES:
            it.say(line, REFUSED + b": " + reason)
        it.say(b"request a 1", b"= refused 10 unknown")
        it.say(b"cancel a", b"= refused 10 unknown")
        it.say(b"leave a", b"= refused 10 unknown")
        it.say(b"x" * 4201, b"= refused 6 line")
        it.say(b"x" * 4201 + b"\r", b"= refused 6 line")
        it.say(b"x" * 1000000, b"= refused 6 line")
        it.say(b"offer " + LONG, b"= refused 6 line")
        it.say(b"submit 3 " + LONG, b"= submit 3 refused 6 line")
        it.say(b"\n\r\n\nlag\r", b"= lag 0")
        it.say(b"sub a 1", b"= sub a", b"a subscribed")
        it.say(b"offer " + b"x" * 4096, b"= offer 1", b"a next " + b"x" * 4096)
        it.say(b"request a 0", b"= ok", b"a error argument")
        it.until(b"subscribers", b"= subscribers 0")
        it.say(b"sub a 0", b"= sub a", b"a subscribed")
        it.say(b"sub a 0", b"= refused 3 duplicate", b"a error state")
        it.say(b"fail 4294967295", b"= ok")
        it.say(b"closed", b"= closed 1 error 4294967295")
        it.say(b"sub b 0", b"= sub b", b"b subscribed", b"b error published 4294967295")
        it.it.stdin.write(b"lag")
        it.end(b"= lag 0", b"= a error 1", b"= a error 0", b"= b error 0", b"= drained 1")


def sources(program):
    """Sixteen sources, and no more."""
    with Console(program) as it:
        it.say(b"sub a 99", b"= sub a", b"a subscribed")
        for source in range(16):
            it.say(b"submit %d x" % source, b"= submit %d 1" % source, b"a next x")
        it.say(b"submit 16 x", b"= submit 16 refused 4 many")
        it.say(b"submit 015 y", b"= submit 15 1", b"a next y")
        it.end(b"a complete", b"= a complete 17", b"= drained 1")


def demands(program):
    """Two subscribers of different demand."""
    with Console(program, ["--cap", "4"]) as it:
        it.say(b"sub fast 9223372036854775807", b"= sub fast", b"fast subscribed")
        it.say(b"sub slow 1", b"= sub slow", b"slow subscribed")
        it.say(b"offer 1", b"= offer 1", b"fast next 1", b"slow next 1")
        for text in (b"2", b"3", b"4", b"5"):
            it.say(b"offer " + text, b"= offer %d" % (int(text) - 1), b"fast next " + text)
        it.say(b"offer 6", b"= offer -1", b"fast next 6")
        it.say(b"request slow 2", b"= ok", b"slow next 2", b"slow next 3")
        it.say(b"fail 3", b"= ok", b"fast error published 3", b"slow error published 3")
        it.end(b"= fast error 6", b"= slow error 3, 1 dropped", b"= drained 1")


def late_errors(program):
    """An error waits for the items, and is told when the last of them was requested."""
    with Console(program, ["--late"]) as it:
        it.say(b"sub a 1", b"= sub a", b"a subscribed")
        it.say(b"offer x", b"= offer 1", b"a next x")
        it.say(b"offer y", b"= offer 1")
        it.say(b"fail 7", b"= ok")
        it.quiet()
        it.say(b"request a 1", b"= ok", b"a next y", b"a error published 7")
        it.end(b"= a error 2", b"= drained 1")


def waiting(program):
    """A submit waits for room, and the terminal goes on meanwhile; the next one of its source waits behind it."""
    with Console(program, ["--cap", "1", "--workers", "1"]) as it:
        it.say(b"sub a 0", b"= sub a", b"a subscribed")
        it.say(b"submit 7 x", b"= submit 7 1")
        it.say(b"submit 7 y", b"= submit 7 waits for a (1 of 1)")
        it.type(b"submit 7 z")
        it.quiet()
        it.say(b"lag", b"= lag 1")
        it.say(b"offer v", b"= offer -1")
        it.say(b"request a 1", b"= ok", b"a next x", b"= submit 7 1")
        it.quiet()
        it.say(b"request a 1", b"= ok", b"a next y", b"= submit 7 1")
        it.say(b"request a 1", b"= ok", b"a next z")
        it.end(b"a complete", b"= a complete 3, 1 dropped", b"= drained 1")


def losing(program):
    """A publish waits for room at those that lose nothing; the others lose what finds their buffers full. A submit waits for all."""
    with Console(program, ["--cap", "1", "--workers", "1"]) as it:
        it.say(b"publish 7 nobody", b"= publish 7 0")
        it.say(b"sub a 1", b"= sub a", b"a subscribed")
        it.say(b"sub b 0 drop", b"= sub b", b"b subscribed")
        it.say(b"publish 7 u", b"= publish 7 1", b"a next u")
        it.say(b"publish 7 v", b"= publish 7 1, 1 dropped")
        it.say(b"publish 7 w", b"= publish 7 waits for a (1 of 1)")
        it.quiet()
        stands = (b"= a lag 1, accepted 2, dropped 0", b"= b drop lag 1, accepted 1, dropped 1")
        it.say(b"stats", b"= stats published 3, subscribed 2, reclaimed 0, live 2", *stands)
        it.say(b"request a 1", b"= ok", b"a next v", b"= publish 7 1, 1 dropped")
        it.say(b"request b 1", b"= ok", b"b next u")
        it.say(b"publish 7 x", b"= publish 7 waits for a (1 of 1)")
        it.quiet()
        it.say(b"request a 1", b"= ok", b"a next w", b"= publish 7 1")
        it.say(b"submit 7 y", b"= submit 7 waits for a (1 of 1)")
        it.say(b"request a 1", b"= ok", b"a next x")
        it.quiet()
        it.say(b"request b 1", b"= ok", b"b next x", b"= submit 7 1")
        it.end(b"= a open 4", b"= b open 2, 2 dropped", b"= drained 0")
    # At the end of the input a source goes on past the one that may lose texts, and is refused at the other.
    with Console(program, ["--cap", "1", "--workers", "1"]) as it:
        it.say(b"sub b 0 drop", b"= sub b", b"b subscribed")
        it.type(b"\n".join([b"publish 7 x"] * 70))
        it.end(b"= publish 7 1", *[b"= publish 7 1, 1 dropped"] * 69, b"= b open 0, 69 dropped", b"= drained 0")


def peak(it):
    """The KiB that a console had at most."""
    with open(f"/proc/{it.it.pid}/status", encoding="ascii") as status:
        return next(int(line.split()[1]) for line in status if line.startswith("VmHWM:"))


def full_source(program):
    """64 texts wait for the thread of a source, and no more: one that only a later line could make room for is refused, and not kept."""
    with Console(program, ["--cap", "1"]) as it:
        it.say(b"sub a 0", b"= sub a", b"a subscribed")
        it.say(b"submit 7 0", b"= submit 7 1")
        it.say(b"submit 7 1", b"= submit 7 waits for a (1 of 1)")
        it.quiet()
        for text in range(2, 66):
            it.type(b"submit 7 %d" % text)
        it.quiet()
        peaks = []
        for count in (1000, 10000):
            it.type(b"\n".join([b"submit 7 " + b"x" * 1000] * count))
            it.take(*[b"= submit 7 refused 11 wait"] * count)
            peaks.append(peak(it))
        if peaks[1] > peaks[0] + 1024:
            raise Stopped(f"it had {peaks[0]} KiB, and after 10,000 texts of 1,000 bytes more {peaks[1]}")
        it.type(b"submit 8 66")
        it.quiet()
        it.say(b"request a 67", b"= ok", *[b"a next %d" % text for text in range(67)], *[b"= submit 7 1"] * 65, b"= submit 8 1")
        it.say(b"submit 7 67", b"= submit 7 1")
        it.end(b"= a open 67", b"= drained 0")


def cancelling(program):
    """A cancel in the middle: at most one item more is told, and who waited for that room goes on."""
    with Console(program, ["--cap", "2"]) as it:
        it.say(b"sub a 0", b"= sub a", b"a subscribed")
        it.say(b"sub b 9", b"= sub b", b"b subscribed")
        for text in (b"1", b"2"):
            it.say(b"submit 1 " + text, b"= submit 1 " + text, b"b next " + text)
        it.say(b"submit 1 3", b"= submit 1 waits for a (2 of 2)")
        it.quiet()
        it.say(b"cancel a", b"= ok", b"= submit 1 1", b"b next 3")
        it.until(b"subscribers", b"= subscribers 1")
        it.say(b"cancel a", b"= ok")
        it.say(b"sub a 1", b"= sub a", b"a subscribed")
        it.say(b"offer 4", b"= offer 1", b"a next 4", b"b next 4")
        it.say(b"close", b"= ok", b"a complete", b"b complete")
        it.end(b"= a cancelled 0", b"= b complete 4", b"= a complete 1", b"= drained 1")


def left(it, name, wanted):
    """A subscription leaves that has ended, or does so in its next turn: until a thread has let go of its task, it stays."""
    it.until(b"leave " + name, wanted, (UNSETTLED, HELD))
    for line in (b"leave " + name, b"request " + name + b" 1", b"cancel " + name):
        it.say(line, UNKNOWN)


def leaving(program):
    """Subscriptions leave, however they ended, and their names are free; those that live stay, and the others are where they were."""
    with Console(program, ["--cap", "2"]) as it:
        it.say(b"leave a", UNKNOWN)
        it.say(b"sub b 9", b"= sub b", b"b subscribed")
        # At rest, with nothing and with items that wait, it stays, and goes on.
        it.say(b"sub a 1", b"= sub a", b"a subscribed")
        it.say(b"sub c 9", b"= sub c", b"c subscribed")
        it.say(b"leave a", UNSETTLED)
        it.say(b"offer 1", b"= offer 1", b"a next 1", b"b next 1", b"c next 1")
        it.say(b"offer 2", b"= offer 1", b"b next 2", b"c next 2")
        it.say(b"leave a", UNSETTLED)
        it.say(b"request a 1", b"= ok", b"a next 2")
        it.say(b"leave b", UNSETTLED)
        it.say(b"leave d", UNKNOWN)
        # Cancelled, also while a submit waits for its room.
        for text in (b"3", b"4"):
            it.say(b"submit 1 " + text, b"= submit 1 " + text.translate(bytes.maketrans(b"34", b"12")), b"b next " + text, b"c next " + text)
        it.say(b"submit 1 5", b"= submit 1 waits for a (2 of 2)")
        it.quiet()
        it.say(b"leave a", UNSETTLED)
        it.say(b"cancel a", b"= ok", b"= submit 1 1", b"b next 5", b"c next 5")
        left(it, b"a", b"= a cancelled 2")
        it.say(b"subscribers", b"= subscribers 2")
        # A bad request, and a second subscribing.
        it.say(b"sub a 0", b"= sub a", b"a subscribed")
        it.say(b"offer 6", b"= offer 1", b"b next 6", b"c next 6")
        it.say(b"request a 0", b"= ok", b"a error argument")
        left(it, b"a", b"= a error 0")
        it.say(b"sub a 0", b"= sub a", b"a subscribed")
        it.say(b"sub a 0", b"= refused 3 duplicate", b"a error state")
        left(it, b"a", b"= a error 0")
        # Of two of one name the latest leaves first.
        it.say(b"sub a 1", b"= sub a", b"a subscribed")
        it.say(b"offer 7", b"= offer 1", b"a next 7", b"b next 7", b"c next 7")
        it.say(b"cancel a", b"= ok")
        it.until(b"subscribers", b"= subscribers 2")
        it.say(b"sub a 0", b"= sub a", b"a subscribed")
        it.say(b"leave a", UNSETTLED)
        it.say(b"cancel a", b"= ok")
        it.until(b"leave a", b"= a cancelled 0", (UNSETTLED, HELD))
        left(it, b"a", b"= a cancelled 1")
        # Completed, and after the close.
        it.say(b"request b 1", b"= ok")
        it.say(b"sub a 0", b"= sub a", b"a subscribed")
        it.say(b"close", b"= ok", b"a complete", b"b complete", b"c complete")
        left(it, b"b", b"= b complete 7")
        it.say(b"sub b 0", b"= sub b", b"b subscribed", b"b complete")
        left(it, b"b", b"= b complete 0")
        it.say(b"sub b 3", b"= sub b", b"b subscribed", b"b complete")
        it.end(b"= c complete 7", b"= a complete 0", b"= b complete 0", b"= drained 1")
    for word, error in ((b"fail 7", b"error"), (b"close", b"complete")):
        with Console(program) as it:
            it.say(b"sub a 1", b"= sub a", b"a subscribed")
            it.say(word, b"= ok", b"a error published 7" if error == b"error" else b"a complete")
            left(it, b"a", b"= a " + error + b" 0")
            it.end(b"= drained 1")
    # One that is refused keeps its place in the report.
    with Console(program) as it:
        for name in (b"a", b"b", b"c"):
            it.say(b"sub " + name + b" 0", b"= sub " + name, name + b" subscribed")
        it.say(b"leave b", UNSETTLED)
        it.say(b"close", b"= ok", b"a complete", b"b complete", b"c complete")
        it.end(b"= a complete 0", b"= b complete 0", b"= c complete 0", b"= drained 1")
    # One name comes and goes more often than subscriptions may live, and one that waits for demand stays to the end.
    with Console(program, ["--workers", "1", "--cap", "1"]) as it:
        it.say(b"sub a 0", b"= sub a", b"a subscribed")
        for _ in range(100):
            it.say(b"sub b 0", b"= sub b", b"b subscribed")
            it.say(b"cancel b", b"= ok")
            it.until(b"leave b", b"= b cancelled 0", (UNSETTLED, HELD))
        it.say(b"submit 7 x", b"= submit 7 1")
        it.say(b"submit 7 y", b"= submit 7 waits for a (1 of 1)")
        it.end(b"= submit 7 refused 2 closed", b"= a open 0", b"= drained 0")


def ends(program):
    """The end of the input with a submit that waits, and with one that doesn't; `quit` ends as the end of the input does."""
    for end in (b"", b"quit\nlag\n"):
        with Console(program, ["--cap", "1"]) as it:
            it.say(b"sub a 0", b"= sub a", b"a subscribed")
            it.say(b"submit 7 x", b"= submit 7 1")
            it.say(b"submit 7 y", b"= submit 7 waits for a (1 of 1)")
            it.type(b"submit 7 z")
            it.quiet()
            it.it.stdin.write(end)
            it.end(b"= submit 7 refused 2 closed", b"= submit 7 refused 2 closed", b"= a open 0", b"= drained 0")
        with Console(program, ["--cap", "1"]) as it:
            it.it.stdin.write(b"sub a 3\nsubmit 7 x\nsubmit 8 y\nsubmit 7 z\nsubmit 8 w\nsubmit 8 v\n" + end)
            it.it.stdin.close()
            lines = []
            while (line := it.line()) is not None:
                lines.append(line)
            it.waited(0, b"")
            told = [line[7:] for line in lines if line.startswith(b"a next ")]
            done = sum(line in (b"= submit 7 1", b"= submit 8 1") for line in lines)
            over = sum(line in (b"= submit 7 refused 2 closed", b"= submit 8 refused 2 closed") for line in lines)
            if len(told) != 3 or done != 4 or over != 1 or lines[-2:] != [b"= a open 3", b"= drained 0"]:
                raise Stopped(f"at the end of the input came {lines}")
            for order in (b"xz", b"ywv"):
                got = b"".join(text for text in told if text in order)
                if not order.startswith(got):
                    raise Stopped(f"a was told {told}")


def many(program):
    """10,000 lines through a pipe, of four sources, and as many offers of the terminal; each line that comes out is looked at."""
    count = 10000
    for cap, workers in ((1, 1), (16, 4), (65536, 8)):
        typed = [b"sub a 9223372036854775807", b"sub b 9223372036854775807", b"sub late %d" % count]
        typed += [b"submit %d text %d of %d" % (it % 4, it, it % 4) for it in range(count)]
        typed += [b"request late %d" % count]
        with Console(program, ["--cap", str(cap), "--workers", str(workers)]) as it:
            writer = threading.Thread(target=lambda: (it.it.stdin.write(b"\n".join(typed) + b"\n"), it.it.stdin.close()))
            writer.start()
            lines = []
            while (line := it.line()) is not None:
                lines.append(line)
            writer.join()
            it.waited(0, b"")
        told = {name: [line.split(b" ", 2)[2] for line in lines if line.startswith(name + b" next ")] for name in (b"a", b"b", b"late")}
        wanted = [[b"text %d of %d" % (it, source) for it in range(source, count, 4)] for source in range(4)]
        for name, texts in told.items():
            for source, own in enumerate(wanted):
                if [text for text in texts if text.endswith(b" of %d" % source)] != own:
                    raise Stopped(f"{name} was told other lines of source {source}, or in another order")
        if told[b"a"] != told[b"b"] or told[b"a"] != told[b"late"]:
            raise Stopped("two subscribers were told the items in two orders")
        for source in range(4):
            lags = [line for line in lines if line.startswith(b"= submit %d " % source)]
            if len(lags) != count // 4 or any(not 1 <= int(line.split()[-1]) <= max(cap, 1) for line in lags):
                raise Stopped(f"source {source} was answered {len(lags)} times, for instance {lags[:3]}")
        rest = sorted(line for line in lines if b" next " not in line and not line.startswith(b"= submit "))
        if rest != sorted(
            [b"= sub a", b"= sub b", b"= sub late", b"= ok", b"= drained 1"]
            + [b"%s subscribed" % name for name in told]
            + [b"%s complete" % name for name in told]
            + [b"= %s complete %d" % (name, count) for name in told]
        ):
            raise Stopped(f"beside the items came {rest}")


def stamps(program):
    """Each line begins with a time, which doesn't go back."""
    with Console(program, ["--stamp"]) as it:
        it.it.stdin.write(b"sub a 9\noffer x\nsubmit 1 y\nlag\nhelp\n")
        it.it.stdin.close()
        stamped = []
        while (line := it.line()) is not None:
            stamped.append(line)
        it.waited(0, b"")
        times = [int(line.split(b" ", 1)[0]) for line in stamped]
        lines = [line.split(b" ", 1)[1] for line in stamped]
        if times != sorted(times) or times[-1] > SECONDS * 1_000_000:
            raise Stopped(f"the times are {times}")
        for line in (b"= sub a", b"a subscribed", b"a next x", b"a next y", b"a complete", b"= a complete 2", b"= drained 1"):
            if line not in lines:
                raise Stopped(f"{line!r} is missing")


def closed_output(program):
    """The reader of standard output goes away: it ends in silence, at the answer to the next line, at a callback while no line comes, and
    while a submit waits. A full disk is no such end."""
    begin, waits = (b"sub a 9\n", 2), (b"sub a 0\nsubmit 7 x\nsubmit 7 y\n", 3)
    for (typed, lines), last in ((begin, b"lag"), (begin, b"submit 7 x"), (waits, b"lag"), (waits, b"request a 1")):
        pipe = subprocess.PIPE
        with subprocess.Popen([program, "--cap", "1"], stdin=pipe, stdout=pipe, stderr=pipe, bufsize=0) as it:
            try:
                it.stdin.write(typed)
                for _ in range(lines):
                    it.stdout.readline()
                it.stdout.close()
                it.stdin.write(last + b"\n")
                ended = it.wait(SECONDS), it.stderr.read()
            except subprocess.TimeoutExpired:
                ended = "no end"
            finally:
                it.kill()
        if ended != (141, b""):
            raise Stopped(f"after {typed + last!r} it ended with {ended}")
    with open("/dev/full", "wb") as full:
        ran = subprocess.run([program], input=b"lag\n", stdout=full, stderr=subprocess.PIPE, timeout=SECONDS)
    if (ran.returncode, ran.stderr) != (1, b"console: write fault\n"):
        raise Stopped(f"on a full disk: {ran}")


def words(program):
    """The other words for the end and for help, and comments."""
    with Console(program) as it:
        it.type(b"# a comment")
        it.type(b"#")
        it.type(b"?")
        asked = [it.line() for _ in range(20)]
        it.type(b"help")
        if not asked[0].startswith(b"= sub NAME N ") or asked != [it.line() for _ in range(20)]:
            raise Stopped(f"help is {asked}")
        it.say(b"lag", b"= lag 0")
        it.say(b"exit", b"= drained 1")
        it.ended()


def terminal(program):
    """At a terminal it greets, and shows the control characters of a text; a pipe gets neither."""
    master, slave = pty.openpty()
    attributes = termios.tcgetattr(slave)
    attributes[3] &= ~termios.ECHO
    termios.tcsetattr(slave, termios.TCSANOW, attributes)
    with subprocess.Popen([program], stdin=slave, stdout=slave) as it:
        os.close(slave)
        shown = b""

        def until(wanted):
            nonlocal shown
            while wanted not in shown:
                if not select.select([master], [], [], SECONDS)[0]:
                    it.kill()
                    raise Stopped(f"{wanted!r} is not in {shown!r}")
                shown += os.read(master, 65536)

        until(b"`help` lists the commands, Ctrl-D ends\r\n")
        os.write(master, b"sub a 1\n")
        until(b"a subscribed\r\n")
        os.write(master, b"offer x\x16\x1b[31m\xc3\xa4\n")
        until(b"a next x\\x1b[31m\xc3\xa4\r\n")
        os.write(master, b"\x04")
        until(b"= drained 1\r\n")
        it.wait(SECONDS)
    os.close(master)
    with Console(program) as it:
        it.say(b"sub a 1", b"= sub a", b"a subscribed")
        it.say(b"offer x\x1b[31m", b"= offer 1", b"a next x\x1b[31m")


def signals(program):
    """A signal ends it: while it waits for a line, and while a submit waits for room."""
    for number in (signal.SIGTERM, signal.SIGINT):
        with Console(program) as it:
            it.say(b"sub a 9", b"= sub a", b"a subscribed")
            it.it.send_signal(number)
            it.ended(-number)
        with Console(program, ["--cap", "1"]) as it:
            it.say(b"sub a 0", b"= sub a", b"a subscribed")
            it.say(b"submit 7 x", b"= submit 7 1")
            it.say(b"submit 7 y", b"= submit 7 waits for a (1 of 1)")
            it.quiet()
            it.it.send_signal(number)
            it.ended(-number)


def command_lines(program):
    """Wrong command lines, and an input that can't be read."""
    with Console(program, [b"--cap=\xff"]) as it:
        it.ended(2, b"console: an argument is not UTF-8\n")
    folder = os.open("/", os.O_RDONLY)
    ran = subprocess.run([program], stdin=folder, capture_output=True, timeout=SECONDS)
    os.close(folder)
    if (ran.returncode, ran.stdout, ran.stderr) != (1, b"", b"console: read fault\n"):
        raise Stopped(f"a folder as standard input: {ran}")
    for words in (
        ["--nothing"], ["word"], ["--workers", "0"], ["--workers", "9"], ["--workers", "1" * 20], ["--workers", "x"], ["--cap", "0"], ["--cap", "x"],
        ["--cap"],
    ):
        ran = subprocess.run([program, *words], stdin=subprocess.DEVNULL, capture_output=True, timeout=SECONDS)
        if ran.returncode != 2 or ran.stdout or not ran.stderr.startswith(b"error: "):
            raise Stopped(f"{words}: {ran}")
    ran = subprocess.run([program, "--help"], stdin=subprocess.DEVNULL, capture_output=True, timeout=SECONDS)
    if ran.returncode or not ran.stdout.startswith(b"A publisher at a terminal") or ran.stderr:
        raise Stopped(f"--help: {ran}")


PARTS = (commands, refusals, sources, demands, late_errors, waiting, losing, full_source, cancelling, leaving, ends, many, stamps, closed_output, words, terminal, signals, command_lines, *order.PARTS)


def main(program):
    faults = []
    for part in PARTS:
        try:
            part(program)
        except Stopped as stopped:
            faults.append(f"{part.__name__}: {stopped}")
    print("\n".join([*faults, f"{len(PARTS)} parts, {len(faults)} faults"]))
    return 1 if faults else 0


if __name__ == "__main__":
    sys.exit(main(os.path.realpath(sys.argv[1])))
