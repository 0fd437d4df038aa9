"""The rows of tests/machines/rows.sh: each carries lines through a broker, and says what is wrong.

usage: rows.py PROGRAM FOLDER BROKERS [--whole] [ROW..]

Each row prints what it counted: the lines of the sources that are not in the file of machine B (lost), those that are there more than once
(twice), places at which the first copy of a line stands behind that of a later line of its source (disorder), and lines of no source
(foreign).
"""
import os
import signal
import subprocess
import sys
import threading
import time

from crash import IN_FLIGHT, Crash
from machine import Machine, wait_for
from stage import EXACT, Stage, Wrong, all_of, heed_ends, judge, make_lines, part, require

program, top, brokers = os.path.abspath(sys.argv[1]), sys.argv[2], sys.argv[3].split()
words = sys.argv[4:]
whole = '--whole' in words
names = [word for word in words if word != '--whole']
COUNT = 100000 if whole else 2000
# How many lines a broker sends to machine B before it waits for an acknowledgement. Machine B asks Redis for them.
UNDER_WAY = {'redis': 0, 'redis-plain': 0, 'mosquitto': 20, 'mosquitto-plain': 20, 'nats': 10000, 'rabbitmq': 100}
passed, failed = [], []


def count_of(broker):
    """How many lines a row has. A broker whose client starts a process for each is left at few."""
    return min(COUNT, 5000) if broker == 'rabbitmq' else COUNT


def look_at_screen(machine):
    """The screen of machine B has whole lines of its file, in the order of that."""
    shown = machine.shown().split(b'\n')
    at = iter(machine.lines())
    require('what is behind the last line of the screen', shown.pop(), b'')
    require('whether the screen has lines of the file in order', all(line in at for line in shown))


def wait_until_quiet(machine):
    """Waits until nothing has come for five seconds: where nothing tells which line is the last."""
    came = -1
    while came != len(machine.told()):
        came = len(machine.told())
        time.sleep(5)


def settle(stage, receiver, sent):
    """Waits until all has come that will come, ends machine B, and gives what was counted. A line that is sent last arrives last, unless the
    lines before it have QoS 2."""
    if stage.mqtt:
        # Where the broker drops what doesn't fit, this one may be dropped, too.
        require('whether the last line comes', wait_for(lambda: stage.probe('probe: the last') and b'probe: the last' in receiver.lines(),
                                                        receiver.moved))
        if stage.variables['QOS'] == '2':
            wait_until_quiet(receiver)
    else:
        require('whether all lines come', receiver.holds(len(all_of(sent))))
    require('the status of machine B', receiver.finish(), 0)
    look_at_screen(receiver)
    return judge(receiver.told(), sent)


def require_exact(stage, found):
    """Each line came once, in order. NATS may send lines again if the row took longer than its `ack_wait`, as on a busy machine."""
    require('what came', {**found, **({'twice': 0} if stage.outlives_ack_wait() else {})}, EXACT)


def flow(row, broker, **variables):
    """Lines go through while all is well: each comes once, those of a source in order."""
    with Stage(f'{top}/{row}', program, broker, **variables) as stage:
        sent = make_lines(count_of(broker))
        receiver = stage.receiver()
        sender = stage.sender()
        sender.feed(sent)
        require('the status of machine A', sender.close(), 0)
        found = settle(stage, receiver, sent)
        require_exact(stage, found)
        require('what machine A kept', judge(sender.lines('a.log'), sent), EXACT)
        return found


def stands_still(row, broker, queue=None, **variables):
    """Machine B stands still for two seconds, and until all was sent. Nothing is lost, unless the broker has a queue of some lines: then
    machine B gets the first ones, as many as it holds, and those that were under way."""
    with Stage(f'{top}/{row}', program, broker, **variables) as stage:
        sent = make_lines(count_of(broker))
        receiver = stage.receiver()
        receiver.signal(signal.SIGSTOP)
        begun = time.monotonic()
        sender = stage.sender()
        sender.feed(sent)
        require('the status of machine A', sender.close(), 0)
        time.sleep(max(0.0, begun + 2 - time.monotonic()))
        receiver.signal(signal.SIGCONT)
        found = settle(stage, receiver, sent)
        if queue is None:
            require_exact(stage, found)
        else:
            came = count_of(broker) - found['lost']
            require('what came', {**found, 'lost': 0}, EXACT)
            require('whether %d lines are those that wait and those under way' % came, queue < came <= queue + UNDER_WAY[broker])
            require('whether these are the first', receiver.told() == sender.lines('a.log')[:came])
        return found


def killed_amid(row, broker, rule, lost_later=False, **variables):
    """The broker is killed while lines go through, and started again. What comes is by the rule, and lines that are sent after that arrive."""
    with Stage(f'{top}/{row}', program, broker, **variables) as stage:
        sent = make_lines(count_of(broker))
        receiver = stage.receiver()
        if broker == 'mosquitto':
            # It keeps lines for machine B once it has saved that this subscribes.
            stage.wait_for_saves()
        sender = stage.sender()
        sender.feed(part(sent, 0, 0.5))
        require('whether a quarter comes', receiver.holds(count_of(broker) // 4))
        crash = Crash(stage, receiver)
        time.sleep(0.5)
        stage.broker.start()
        sender.feed(part(sent, 0.5, 1))
        status = sender.close()
        require('what machine A kept', judge(sender.lines('a.log'), sent), EXACT)
        if stage.mqtt:
            require('the status of machine A', status, 0)
        else:
            # The client of Redis ends, and machine A sends again what the broker hasn't got.
            require('whether machine A says that a sink failed', status not in (0, None))
            Machine.run(sender, 'redis-again')
            require('the status of machine A', sender.wait(), 0)
        crash.wait(receiver, sent)
        found = settle(stage, receiver, sent)
        require('how many lines of no source came', found['foreign'], 0)
        crash.look(receiver.told(), sender.lines('a.log'))
        rule(crash)
        if not lost_later:
            require('what is lost of the lines after the kill', judge(receiver.told(), part(sent, 0.5, 1))['lost'], 0)
        return found


def killed_behind_a_save(row, broker, rule, **variables):
    """Machine B stands still, and another one doesn't. The broker is killed when a quarter is saved, and the other one has lines that are not:
    machine B loses all behind the save, but what machine A sends again."""
    with Stage(f'{top}/{row}', program, broker, **variables) as stage:
        count = count_of(broker)
        sent = make_lines(count)
        receiver, other = stage.receiver(), stage.receiver(name='other')
        stage.wait_for_saves()
        receiver.signal(signal.SIGSTOP)
        sender = stage.sender()
        sender.feed(part(sent, 0, 0.25))
        stage.wait_until_saved(all_of(part(sent, 0, 0.25)), other.moved)
        # The broker saves once a second, so a save may come between: then some more lines are sent.
        for fed in range(30, 80, 5):
            sender.feed(part(sent, (fed - 5) / 100, fed / 100))
            require('whether lines come', other.holds(count * (2 * fed - 5) // 200))
            stage.broker.signal(signal.SIGSTOP)
            unsaved = set(other.told()) - stage.saved()
            if len(unsaved) > 2 * IN_FLIGHT:
                break
            stage.broker.signal(signal.SIGCONT)
        crash = Crash(stage, receiver)
        require('whether some lines are not saved', len(unsaved) > 2 * IN_FLIGHT)
        stage.broker.start()
        receiver.signal(signal.SIGCONT)
        sender.feed(part(sent, fed / 100, 1))
        require('the status of machine A', sender.close(), 0)
        require('what machine A kept', judge(sender.lines('a.log'), sent), EXACT)
        crash.wait(receiver, sent)
        found = settle(stage, receiver, sent)
        require('how many lines of no source came', found['foreign'], 0)
        crash.look(receiver.told(), sender.lines('a.log'))
        require('whether a quarter was saved', len(crash.places(crash.saved)) >= count // 4)
        require('the first lost line', crash.lost[:1], [crash.places(crash.saved)[-1] + 1])
        kept = set(crash.places(unsaved)) - set(crash.lost)
        require('whether %d lines that were not saved and not lost are more than were in flight' % len(kept), len(kept) > IN_FLIGHT, False)
        rule(crash)
        return found


def receiver_killed(row, broker, **variables):
    """Machine B is killed while lines go through, and goes on behind what its file has."""
    with Stage(f'{top}/{row}', program, broker, **variables) as stage:
        sent = make_lines(count_of(broker))
        receiver = stage.receiver()
        sender = stage.sender()
        sender.feed(part(sent, 0, 0.5))
        require('whether a quarter comes', receiver.holds(count_of(broker) // 4))
        receiver.signal(signal.SIGKILL)
        receiver.process.wait()
        # What the killed fanout has shown is looked at no more: its file may lack the last of it.
        require('whether it shows no more', wait_for(receiver.read_screen))
        receiver.seen.clear()
        sender.feed(part(sent, 0.5, 1))
        require('the status of machine A', sender.close(), 0)
        receiver.run('redis-count')
        require('the status of the count', receiver.wait(), 0)
        receiver.run('redis-receive')
        found = settle(stage, receiver, sent)
        require('what came', found, EXACT)
        return found


def sender_killed(row, broker, **variables):
    """The broker is killed while lines go through, and the client of machine A with it: no line comes that was fed after that."""
    with Stage(f'{top}/{row}', program, broker, **variables) as stage:
        sent = make_lines(count_of(broker))
        receiver = stage.receiver()
        sender = stage.sender()
        sender.feed(part(sent, 0, 0.5))
        require('whether a quarter comes', receiver.holds(count_of(broker) // 4))
        crash = Crash(stage, receiver)
        stage.broker.start()
        sender.feed(part(sent, 0.5, 1))
        require('whether machine A says that a sink failed', sender.close() not in (0, None))
        require('what machine A kept', judge(sender.lines('a.log'), sent), EXACT)
        wait_until_quiet(receiver)
        require('the status of machine B', receiver.finish(), 0)
        found = judge(receiver.told(), sent)
        require('how many lines of no source came', found['foreign'], 0)
        crash.look(receiver.told(), sender.lines('a.log'))
        crash.beginning()
        require('how many came of those that were fed later', count_of(broker) // 2 - judge(receiver.told(), part(sent, 0.5, 1))['lost'], 0)
        return found


def killed_full(row, broker, kept, **variables):
    """All lines are with the broker and none with machine B when the broker is killed."""
    with Stage(f'{top}/{row}', program, broker, **variables) as stage:
        sent = make_lines(count_of(broker))
        receiver = stage.receiver()
        receiver.signal(signal.SIGSTOP)
        sender = stage.sender()
        sender.feed(sent)
        require('the status of machine A', sender.close(), 0)
        if broker == 'mosquitto':
            stage.wait_until_saved(all_of(sent))
        if broker == 'rabbitmq':
            # It saves a moment later, and tells nobody who doesn't ask.
            time.sleep(5)
        crash = Crash(stage, receiver)
        stage.broker.start()
        receiver.signal(signal.SIGCONT)
        if broker == 'redis-plain':
            left = subprocess.run(['redis-cli', '-p', str(stage.broker.port), 'XLEN', 'lines'], capture_output=True, timeout=60).stdout
            require('what Redis has left', left, b'0\n')
            Machine.run(sender, 'redis-again')
            require('the status of machine A', sender.wait(), 0)
        if stage.mqtt:
            # Machine B has to come back first, or the last line isn't for it.
            require('whether machine B comes back', wait_for(lambda: stage.probe('probe: back') and b'probe: back' in receiver.lines()))
        if broker == 'nats':
            # It sends again what machine B has not acknowledged, after a while.
            crash.wait(receiver, sent)
        found = settle(stage, receiver, sent)
        crash.look(receiver.told(), sender.lines('a.log'))
        came = count_of(broker) - found['lost']
        if kept:
            require('how many lines came', came, count_of(broker))
        else:
            require('whether %d lines that came are more than were under way' % came, came > UNDER_WAY[broker], False)
        require('how many lines of no source came', found['foreign'], 0)
        require('whether %d lines that came twice are more than were under way' % found['twice'], found['twice'] > UNDER_WAY[broker], False)
        # NATS sends what was under way once it has waited for an answer, behind other lines.
        require('whether the order of a.log is broken at %d places' % crash.breaks, crash.breaks > (broker == 'nats'), False)
        return found


def share(row, broker, recipe, **variables):
    """Two machines share the lines: each line comes to one of them."""
    with Stage(f'{top}/{row}', program, broker, **variables) as stage:
        sent = make_lines(count_of(broker))
        receivers = [stage.receiver(recipe, name) for name in ('b1', 'b2')]
        sender = stage.sender()
        sender.feed(sent)
        require('the status of machine A', sender.close(), 0)
        require('whether all lines come', wait_for(lambda: sum(len(machine.told()) for machine in receivers) >= count_of(broker),
                                                   lambda: [machine.moved() for machine in receivers]))
        for machine in receivers:
            require('the status of a machine', machine.finish(), 0)
            require('the order within a machine', judge(machine.told(), sent)['disorder'], 0)
        parts = [len(machine.told()) for machine in receivers]
        found = judge([line for machine in receivers for line in machine.told()], sent)
        require('what came', {**found, 'disorder': 0}, EXACT)
        require('whether both have some', min(parts) > 0)
        return parts


def each(row, broker, **variables):
    """Two machines that don't share each get all."""
    with Stage(f'{top}/{row}', program, broker, **variables) as stage:
        sent = make_lines(count_of(broker))
        receivers = [stage.receiver(name=name) for name in ('b1', 'b2')]
        sender = stage.sender()
        sender.feed(sent)
        require('the status of machine A', sender.close(), 0)
        for machine in receivers:
            require_exact(stage, settle(stage, machine, sent))
        orders = [list(dict.fromkeys(machine.told())) for machine in receivers]
        require('whether the order is the same', orders[0] == orders[1])
        return EXACT


def late(row, broker, given, **variables):
    """A machine comes once all was sent, and another has it: it gets all from the first line on, or none of it."""
    with Stage(f'{top}/{row}', program, broker, **variables) as stage:
        sent = make_lines(count_of(broker))
        first = stage.receiver()
        sender = stage.sender()
        sender.feed(sent)
        require('the status of machine A', sender.close(), 0)
        require('whether all lines come', first.holds(count_of(broker)))
        require_exact(stage, judge(first.told(), sent))
        second = stage.receiver(name='late')
        found = settle(stage, second, sent)
        require('what the late one has', found, EXACT if given else {**EXACT, 'lost': count_of(broker)})
        return found


def client_alone(row, broker, **variables):
    """mosquitto_pub by itself, which keeps in memory what the broker doesn't take: at its end it waits for the wrong answer if more than
    65,535 lines wait. The broker stands still until it has read all."""
    count = 70000
    with Stage(f'{top}/{row}', program, broker, **variables) as stage:
        receiver = stage.receiver()
        text = b''.join(b'%d\n' % n for n in range(count))
        client = subprocess.Popen(['mosquitto_pub', '-h', '127.0.0.1', '-p', str(stage.broker.port), '-q', '1', '-t', 'lines', '-l'],
                                  stdin=subprocess.PIPE)
        try:
            client.stdin.write(b'probe: begun\n')
            client.stdin.flush()
            require('whether a line comes', receiver.has(b'probe: begun'))
            stage.broker.signal(signal.SIGSTOP)
            client.stdin.write(text)
            client.stdin.close()
            time.sleep(2)
            stage.broker.signal(signal.SIGCONT)
            require('the status of the client', client.wait(600), 0)
        finally:
            client.kill()
            client.wait()
        stage.probe('probe: the last')
        require('whether the last line comes', receiver.has(b'probe: the last'))
        require('the status of machine B', receiver.finish(), 0)
        came = len(receiver.told())
        require('whether %d lines are 65,535 fewer, or somewhat more' % came, count - 65535 <= came < count // 2)
        return {'lost': count - came}


def hostile(row, broker, lost, nul=False, **variables):
    """Lines of any bytes: those that don't arrive are the ones that the page names."""
    with Stage(f'{top}/{row}', program, broker, **variables) as stage:
        lines = [b'first', b'', b'\xff\xfe\x01', b'cr\r', b'x' * 5000, b'y' * 100000, b'z' * 900000, b' blanks  ', b'"quoted" \\n $a', b'last']
        if nul:
            lines.insert(2, b'nul\x00nul')
        receiver = stage.receiver()
        sender = stage.sender()
        sender.feed({'a': lines, 'b': []})
        require('the status of machine A', sender.close(), 0)
        wanted = [line for line in lines if line not in lost]
        require('whether the last line comes', receiver.has(b'last'))
        require('the status of machine B', receiver.finish(), 0)
        require('whether what came is what was sent but for %r' % lost, list(dict.fromkeys(receiver.told())) == list(dict.fromkeys(wanted)))
        return {'lost': len(lines) - len(wanted)}


def broker_stands(row, broker, most, **variables):
    """The broker stands still: the sources wait, once the pipes and the client have what they hold, at most so many KiB."""
    with Stage(f'{top}/{row}', program, broker, **variables) as stage:
        receiver = stage.receiver()
        sender = stage.sender()
        sender.feed(part(make_lines(1000), 0, 0.1))
        require('whether lines come', receiver.holds(100))
        stage.broker.signal(signal.SIGSTOP)
        lines = [b'%07d %s' % (n, b'-' * 1000) for n in range(40000)]
        sender.feed({'a': lines, 'b': lines})
        stood = [time.monotonic(), sender.taken]

        def stands():
            if sender.taken != stood[1]:
                stood[:] = time.monotonic(), sender.taken
            return time.monotonic() - stood[0] > 3

        require('whether the sources wait in the end', wait_for(stands, lambda: sender.taken))
        require('whether %d KiB are more than is held' % (sender.taken // 1024), sender.taken // 1024 > most, False)
        return {'KiB taken in': sender.taken // 1024}


ROWS = [
    ('redis-flow', 'redis', flow, ()),
    ('redis-stands-still', 'redis', stands_still, ()),
    ('redis-killed-amid', 'redis', killed_amid, (Crash.nothing,)),
    ('redis-killed-full', 'redis', killed_full, (True,)),
    ('redis-receiver-killed', 'redis', receiver_killed, ()),
    ('redis-plain-killed-full', 'redis-plain', killed_full, (True,)),
    ('redis-share', 'redis', share, ('redis-share',)),
    ('redis-each', 'redis', each, ()),
    ('redis-late', 'redis', late, (True,)),
    ('redis-hostile', 'redis', hostile, ([], True)),
    ('redis-broker-stands', 'redis', broker_stands, (8000,)),
    ('mosquitto-flow-1', 'mosquitto', flow, (), '1'),
    ('mosquitto-flow-2', 'mosquitto', flow, (), '2'),
    ('mosquitto-stands-still', 'mosquitto', stands_still, (), '1'),
    ('mosquitto-plain-stands-still', 'mosquitto-plain', stands_still, (1000,), '1'),
    ('mosquitto-killed-amid-1', 'mosquitto', killed_amid, (Crash.lost_behind_saves,), '1'),
    ('mosquitto-killed-amid-2', 'mosquitto', killed_amid, (Crash.saves_arrive, True), '2'),
    ('mosquitto-killed-behind-a-save-1', 'mosquitto', killed_behind_a_save, (Crash.lost_behind_saves,), '1'),
    ('mosquitto-killed-behind-a-save-2', 'mosquitto', killed_behind_a_save, (Crash.saves_arrive,), '2'),
    ('mosquitto-killed-full', 'mosquitto', killed_full, (True,), '1'),
    ('mosquitto-plain-killed-full', 'mosquitto-plain', killed_full, (False,), '1'),
    ('mosquitto-share', 'mosquitto', share, ('mqtt-share',), '1'),
    ('mosquitto-each', 'mosquitto', each, (), '1'),
    ('mosquitto-late', 'mosquitto', late, (False,), '1'),
    ('mosquitto-hostile', 'mosquitto', hostile, ([b''],), '1'),
    ('mosquitto-broker-stands', 'mosquitto', broker_stands, (12000,), '1'),
    ('mosquitto-client-alone', 'mosquitto', client_alone, (), '1'),
    ('nats-flow', 'nats', flow, (), '1'),
    ('nats-stands-still', 'nats', stands_still, (), '1'),
    ('nats-killed-amid', 'nats', killed_amid, (Crash.told_again,), '1'),
    ('nats-killed-full', 'nats', killed_full, (True,), '1'),
    ('nats-each', 'nats', each, (), '1'),
    ('nats-late', 'nats', late, (False,), '1'),
    ('nats-hostile', 'nats', hostile, ([b''],), '1'),
    ('nats-broker-stands', 'nats', broker_stands, (12000,), '1'),
    ('rabbitmq-flow', 'rabbitmq', flow, ()),
    ('rabbitmq-stands-still', 'rabbitmq', stands_still, ()),
    ('rabbitmq-killed-amid', 'rabbitmq', sender_killed, ()),
    ('rabbitmq-killed-full', 'rabbitmq', killed_full, (True,)),
    ('rabbitmq-hostile', 'rabbitmq', hostile, ([],)),
    ('rabbitmq-share', 'rabbitmq', share, ('rabbitmq-receive',)),
    ('rabbitmq-broker-stands', 'rabbitmq', broker_stands, (8000,)),
    ('kafka-mock-flow', 'kafka-mock', flow, ()),
    ('kafka-mock-late', 'kafka-mock', late, (True,)),
]
# Rows that take long, and only run with --whole or by their names: RabbitMQ needs half a minute to start.
LONG = ['mosquitto-killed-amid-2', 'mosquitto-killed-behind-a-save-2', 'mosquitto-client-alone']
LONG += [name for name, broker, *_ in ROWS if broker == 'rabbitmq']


def play(broker):
    """Plays the rows of a broker, one after another."""
    for name, kind, row, arguments, *qos in ROWS:
        if kind not in (broker, f'{broker}-plain') or names and name not in names:
            continue
        if name in LONG and not whole and not names:
            print('%s: skipped: it takes long, and is run with --whole' % name, flush=True)
            continue
        begun = time.monotonic()
        try:
            found = row(name, kind, *arguments, **({'QOS': qos[0]} if qos else {}))
            passed.append(name)
            print('%s: %s, %.1f s' % (name, found, time.monotonic() - begun), flush=True)
        except (Wrong, OSError, subprocess.SubprocessError) as error:
            failed.append(name)
            print('%s: WRONG: %s' % (name, str(error)[:400]), flush=True)


heed_ends()
# The rows wait more than they work: so each broker has a thread.
threads = [threading.Thread(target=play, args=(broker,)) for broker in brokers]
for thread in threads:
    thread.start()
for thread in threads:
    thread.join()
print('%d passed, %d failed' % (len(passed), len(failed)))
sys.exit(1 if failed else 0)
