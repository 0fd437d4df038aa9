"""Measures how many lines a second go from one fanout to another, through a pipe and through brokers, in turns: see bench/machines.sh.

usage: measure.py PROGRAM FOLDER BROKERS RUNS LINES
"""
import os
import statistics
import sys
import time

from machine import Sender
from stage import Stage, Wrong, heed_ends, make_lines, require

program, top, brokers = os.path.abspath(sys.argv[1]), sys.argv[2], sys.argv[3].split()
runs, most = int(sys.argv[4]), int(sys.argv[5])
# The name, the broker, the quality of service, and the share of the lines: a slow broker is sent fewer. The pipe is sent more, since its
# processes take a while to start.
ROWS = [('a pipe', None, None, 10), ('redis, each write on the disk', 'redis', None, 1), ('redis, nothing saved', 'redis-plain', None, 1),
        ('mosquitto, QoS 1', 'mosquitto', '1', 1), ('mosquitto, QoS 2', 'mosquitto', '2', 1), ('nats, QoS 1', 'nats', '1', 0.2),
        ('rabbitmq', 'rabbitmq', None, 0.1)]
WIDTH = 63
heed_ends()


class Pipe:
    """What stands for a broker that isn't there."""
    port = 0


def until_full(machine, size):
    """Waits until the file of machine B has this many bytes more than probes."""
    path = machine.path('b.log')
    seen, last = 0, time.monotonic()
    while seen < size:
        now, before = time.monotonic(), seen
        seen = os.path.getsize(path) if os.path.exists(path) else 0
        last = last if seen == before else now
        require('whether lines come within a minute', now - last < 60)
        time.sleep(0.005)


def through_a_broker(folder, kind, lines, size, **variables):
    """The seconds from the start of machine A to the last line in the file of machine B, which has subscribed before."""
    with Stage(folder, program, kind, **variables) as stage:
        receiver = stage.receiver()
        probes = sum(len(line) + 1 for line in receiver.lines())
        begun = time.monotonic()
        sender = stage.sender()
        sender.feed(lines)
        for parts in sender.queues.values():
            parts.put(None)
        until_full(receiver, size + probes)
        return time.monotonic() - begun


def through_a_pipe(folder, lines, size):
    """The same if the two programs share a pipe."""
    machine = Sender(folder, program, Pipe)
    os.mkfifo(machine.path('screen'))
    screen = os.open(machine.path('screen'), os.O_RDONLY | os.O_NONBLOCK)
    try:
        begun = time.monotonic()
        machine.run('pipe-both')
        machine.feed(lines)
        for parts in machine.queues.values():
            parts.put(None)
        until_full(machine, size)
        return time.monotonic() - begun
    finally:
        machine.end()
        os.close(screen)


def measure(run, row):
    """Lines a second of a row."""
    name, kind, quality, share = row
    lines = make_lines(int(most * share), fixed=WIDTH)
    size = sum(len(line) + 1 for part in lines.values() for line in part)
    folder = f'{top}/{run}-{name.replace(" ", "-").replace(",", "")}'
    if kind is None:
        taken = through_a_pipe(folder, lines, size)
    else:
        taken = through_a_broker(folder, kind, lines, size, **({'QOS': quality} if quality else {}))
    return int(most * share) / taken


rows = [row for row in ROWS if row[1] is None or row[1].split('-')[0] in brokers]
found = {row[0]: [] for row in rows}
for run in range(runs):
    for row in rows:
        try:
            found[row[0]].append(measure(run, row))
        except Wrong as error:
            print('%s: %s' % (row[0], error), file=sys.stderr)
pipe = statistics.median(found['a pipe'])
print('%-36s %8s %10s %10s %10s   %s' % ('', 'lines', 'lines/s', 'least', 'greatest', 'the pipe to it'))
for name, kind, _, share in rows:
    if rates := found[name]:
        middle = statistics.median(rates)
        print('%-36s %8d %10d %10d %10d   %.1f' % (name, most * share, middle, min(rates), max(rates), pipe / middle))
