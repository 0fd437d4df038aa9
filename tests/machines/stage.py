"""A row's broker with its machines, the lines that go through it, and what is counted of those."""
import os
import re
import signal
import subprocess
import time

from machine import Broker, Receiver, Sender, wait_for


# What is there now.
stages = []


class Stage:
    """A broker, and the machines at it, which end with the row."""

    def __init__(self, folder, program, broker, **variables):
        self.folder, self.program = folder, program
        self.variables = variables
        self.begun = time.monotonic()
        self.machines = []
        self.broker = Broker(broker, f'{self.folder}/{broker}')
        stages.append(self)
        self.family = {'redis-plain': 'redis', 'redis': 'redis', 'kafka-mock': 'kafka', 'rabbitmq': 'rabbitmq'}.get(broker, 'mqtt')
        self.mqtt = self.family == 'mqtt'

    def __enter__(self):
        try:
            self.broker.start()
        except OSError:
            self.__exit__()
            raise
        return self

    def __exit__(self, *_):
        stages.remove(self)
        self.end()

    def end(self):
        """Ends all that was started."""
        for machine in self.machines:
            machine.end()
        self.broker.end()

    def machine(self, kind, name, **variables):
        self.machines.append(kind(f'{self.folder}/{name}', self.program, self.broker, **self.variables, **variables))
        return self.machines[-1]

    def sender(self, recipe=None):
        """Machine A, that sends."""
        machine = self.machine(Sender, f'a{len(self.machines)}')
        machine.run(recipe or f'{self.family}-send')
        return machine

    def receiver(self, recipe=None, name='b', probed=True):
        """Machine B, that has subscribed: of an MQTT broker that is so once a probe has come."""
        machine = self.machine(Receiver, name, NAME=name)
        machine.run(recipe or f'{self.family}-receive')
        if self.mqtt and probed:
            require('whether machine B subscribes', wait_for(lambda: self.probe() and machine.lines()))
        return machine

    def wait_for_saves(self):
        """Waits until mosquitto has saved all that it has now: the second of two saves began after this call."""
        saved = f'{self.broker.folder}/mosquitto.db'
        for _ in range(2):
            last = os.stat(saved).st_mtime_ns if os.path.exists(saved) else 0
            require('whether the broker saves', wait_for(lambda: os.path.exists(saved) and os.stat(saved).st_mtime_ns != last))

    def outlives_ack_wait(self):
        """Whether NATS may have sent lines again that had no answer for 10 seconds."""
        return self.broker.name == 'nats' and time.monotonic() - self.begun > 9

    def saved(self):
        """The lines that stand in the file of mosquitto, which has them as they are."""
        path = f'{self.broker.folder}/mosquitto.db'
        if not os.path.exists(path):
            return set()
        with open(path, 'rb') as file:
            return set(re.findall(rb'[ab] \d{7} \.*', file.read()))

    def wait_until_saved(self, lines, moved=lambda: None):
        """Waits until mosquitto has saved these, of which machine B has none."""
        require('whether the broker saves what it has', wait_for(lambda: self.saved() >= set(lines), moved))

    def probe(self, text='probe'):
        """Sends a line by itself."""
        subprocess.run(['mosquitto_pub', '-h', '127.0.0.1', '-p', str(self.broker.port), '-t', 'lines', '-q', '1', '-m', text],
                       check=True, timeout=60)
        return True


class Wrong(Exception):
    """What a row found wrong."""


def require(what, found, wanted=True):
    if found != wanted:
        raise Wrong('%s is %r, and not %r' % (what, found, wanted))


def make_lines(count, width=40, fixed=None):
    """The lines of two sources, of different lengths or of one."""
    half = count // 2
    return {name: [b'%s %07d %s' % (name.encode(), n, b'.' * (fixed or n % width)) for n in range(half)] for name in 'ab'}


def all_of(sent):
    return sent['a'] + sent['b']


def part(sent, begin, end):
    """The lines of each source from one share of them to another."""
    return {name: lines[int(len(lines) * begin):int(len(lines) * end)] for name, lines in sent.items()}


def judge(told, sent):
    """What was lost, twice, out of order and foreign. The order is that of the first copies."""
    wanted = set(all_of(sent))
    known = [line for line in told if line in wanted]
    firsts = list(dict.fromkeys(known))
    places = [[line for line in firsts if line.startswith(name.encode())] for name in sent]
    disorder = sum(before >= after for lines in places for before, after in zip(lines, lines[1:]))
    return {'lost': len(wanted) - len(firsts), 'twice': len(known) - len(firsts), 'disorder': disorder, 'foreign': len(told) - len(known)}


EXACT = {'lost': 0, 'twice': 0, 'disorder': 0, 'foreign': 0}


def heed_ends():
    """Has a signal that ends this program end what it has started."""
    def end(*_):
        for stage in list(stages):
            stage.end()
        os._exit(1)

    for number in (signal.SIGTERM, signal.SIGINT, signal.SIGHUP):
        signal.signal(number, end)
