"""What was where when a broker was killed, and the rules of docs/MACHINES.md about what arrives after that.

The lines have places: those that they have in the copy `a.log` of machine A, which is in the order in which its client got them.
"""
from collections import Counter

from machine import wait_for
from stage import all_of, require

# How many lines mosquitto_pub sends before it waits for an acknowledgement.
IN_FLIGHT = 20


def one_piece(places):
    """Whether there is nothing between these places."""
    return not places or places[-1] - places[0] == len(places) - 1


class Crash:
    """A broker is killed. Machine B `had` these lines then, and mosquitto's file has what was `saved`."""

    def __init__(self, stage, receiver):
        self.stage = stage
        self.had = set(receiver.told())
        stage.broker.kill()
        self.saved = stage.saved()

    def wait(self, receiver, sent):
        """Waits until machine B has what may come behind lines that are sent later: with mosquitto what was saved, with NATS what was under way."""
        wanted = set(all_of(sent)) if self.stage.broker.name == 'nats' else self.saved
        require('whether all comes that has to', wait_for(lambda: wanted <= set(receiver.lines()), receiver.moved))

    def look(self, told, order):
        """Finds the places of the lines that machine B was never told, and of those that it was told twice, and at how many places the first
        copies go back."""
        self.order = order
        self.at = {line: place for place, line in enumerate(order)}
        came = [self.at[line] for line in told if line in self.at]
        firsts = list(dict.fromkeys(came))
        self.breaks = sum(before > after for before, after in zip(firsts, firsts[1:]))
        self.lost = sorted(set(self.at.values()) - set(firsts))
        self.twice = sorted(place for place, copies in Counter(came).items() if copies > 1)

    def places(self, lines):
        return sorted(self.at[line] for line in lines if line in self.at)

    def saves_arrive(self):
        """mosquitto: what was saved arrives, and nothing else comes twice but what machine A sends again."""
        require('how many lines were saved and lost', len(set(self.places(self.saved)) & set(self.lost)), 0)
        again = set(self.twice) - set(self.places(self.saved))
        require('whether %d lines that came twice and were not saved are more than were in flight' % len(again), len(again) > IN_FLIGHT, False)

    def lost_behind_saves(self):
        """mosquitto with QoS 1: lost is one piece, behind all that was saved and all that machine B had."""
        self.saves_arrive()
        require('at how many places the order of a.log is broken', self.breaks, 0)
        require('whether the lost lines are one piece', one_piece(self.lost))
        behind = [place for place in self.places(self.saved | self.had) if place >= (self.lost or [len(self.order)])[0]]
        require('how many lines behind the first lost one were saved, or with machine B', len(behind), 0)

    def told_again(self):
        """NATS: nothing is lost, and what comes twice is one piece, up to the last line that machine B had, and what machine A sends again.
        What was under way may come behind later lines. On a busy machine what waits for longer than `ack_wait` comes again, too."""
        require('how many are lost', len(self.lost), 0)
        require('whether the order of a.log is broken at %d places' % self.breaks, self.breaks > 1, False)
        if self.twice and not self.stage.outlives_ack_wait():
            again = [place for n, place in enumerate(self.twice) if place - n != self.twice[0]]
            require('whether %d lines that came twice behind a piece are more than were in flight' % len(again), len(again) > IN_FLIGHT, False)
            require('whether the last of them is behind what machine B had', self.twice[-1] >= self.places(self.had)[-1])

    def beginning(self):
        """RabbitMQ: machine B has the beginning of a.log, without a gap, and what came twice is one piece."""
        require('at how many places the order of a.log is broken', self.breaks, 0)
        require('whether what is lost is all behind some line', not self.lost or one_piece(self.lost) and self.lost[-1] == len(self.order) - 1)
        require('whether the lines that came twice are one piece', one_piece(self.twice))

    def nothing(self):
        """Redis: nothing is lost, and nothing comes twice."""
        require('what was lost, what came twice, and at how many places the order is broken', (self.lost, self.twice, self.breaks), ([], [], 0))
