"""Rows about files, sources and ends: what fails ends alone, and the program ends in any case."""
import json
import os
import signal
import threading
import time

from common import LINGER, SECONDS, driver, expect, feed, split_lines, wait_for


def appends():
    """--append keeps what a file has, and without it nothing is kept."""
    driver.run(b'one\n', 'kept')
    driver.run(b'two\n', 'kept', '--append')
    expect('append', 'the file', driver.read('kept'), b'one\ntwo\n')
    driver.run(b'three\n', 'kept')
    expect('append', 'the file', driver.read('kept'), b'three\n')


def full_disk():
    """A sink whose disk is full ends alone."""
    data = b'line\n' * 100000
    run = driver.run(data, '/dev/full', 'copy')
    expect('full', 'the status', run.status, 3)
    expect('full', 'the copy', driver.read('copy'), data)
    full = run.sink('/dev/full')
    expect('full', 'what it has written', (full['lines'], full['bytes'], full['lost']), (0, 0, 100000))
    expect('full', 'its end', full['end'], 'cannot write: No space left on device')
    expect('full', "the other's end", run.sink('copy')['end'], 'complete')
    run = driver.run(data, 'no/such/folder', 'copy')
    expect('no folder', 'the status', run.status, 3)
    expect('no folder', 'the copy', driver.read('copy'), data)
    expect('no folder', 'its end', run.sink('no/such/folder')['end'], 'cannot open: No such file or directory')


def nothing_to_write():
    """A full disk is no failure if nothing has to be written."""
    run = driver.run(b'', '/dev/full')
    expect('nothing', 'the status', run.status, 0)
    row = run.sink('/dev/full')
    expect('nothing', 'what is reported', (row['lines'], row['bytes'], row['end']), (0, 0, 'complete'))


def reader_leaves():
    """A sink whose reader goes away ends alone."""
    data = b'a line of some length\n' * 100000
    process = driver.start('-', 'copy')
    feeder = threading.Thread(target=feed, args=(process.stdin, data))
    feeder.start()
    process.stdout.read(10)
    process.stdout.close()
    feeder.join()
    said = process.stderr.read()
    expect('gone', 'the status', process.wait(SECONDS), 3)
    expect('gone', 'the copy', driver.read('copy'), data)
    expect('gone', 'what is said', b'"cannot write: Broken pipe"' in said and said.startswith(b'fanout: -: Broken pipe\n'), True)


def all_fail():
    """The program ends if no sink is left, though the input goes on."""
    process = driver.start('/dev/full')
    process.stdin.write(b'a line\n')
    process.stdin.flush()
    expect('all fail', 'the status', process.wait(SECONDS), 3)
    row = json.loads(process.stderr.read().splitlines()[-1])['sources'][0]
    expect('all fail', 'the source', (row['lines'], row['end']), (1, 'not ended'))
    process.stdin.close()


def stopped_source():
    """A source that hears that no sink is left has not failed. It may come to its end before that, unless it has none: so it is a pipe that
    is written as long as it is read."""
    os.mkfifo(driver.path('much'))
    process = driver.start('--from', 'much', '/dev/full')
    feeder = threading.Thread(target=write_on, args=('much', b'a line\n' * 10000))
    feeder.start()
    run = driver.end(process)
    feeder.join()
    expect('stopped', 'the status', run.status, 3)
    expect('stopped', 'its end', run.source('much')['end'] in ('no sink was left', 'not ended'), True)
    expect('stopped', 'what is said before the report', run.said.splitlines()[:-1], [b'fanout: /dev/full: No space left on device'])
    sink = run.sink('/dev/full')
    expect('stopped', 'written and lost', (sink['lines'], sink['lost']), (0, run.source('much')['lines']))


def write_on(name, data):
    """Writes this again and again, until nobody reads it."""
    try:
        with open(driver.path(name), 'wb', buffering=0) as pipe:
            while True:
                pipe.write(data)
    except BrokenPipeError:
        pass


def both_fail():
    """If a source and a sink fail, the status is that of the source."""
    driver.write('input', b'there\n')
    run = driver.run(b'', '--from', 'nowhere', '--from', 'input', '/dev/full', 'copy')
    expect('both', 'the status', run.status, 1)
    expect('both', 'the copy', driver.read('copy'), b'there\n')


def no_input():
    """A source that can't be opened is an input error, and the others go on."""
    with open(driver.path('input'), 'wb') as file:
        file.write(b'there\n')
    run = driver.run(b'', '--from', 'nowhere', '--from', 'input', 'copy')
    expect('no input', 'the status', run.status, 1)
    expect('no input', 'the copy', driver.read('copy'), b'there\n')
    expect('no input', 'its end', run.source('nowhere')['end'], 'cannot open: No such file or directory')
    expect('no input', 'what is said', run.said.startswith(b'fanout: nowhere: No such file or directory\n'), True)
    os.mkdir(driver.path('folder'))
    run = driver.run(b'', '--from', 'folder', '--from', 'input', 'copy')
    expect('no input', 'the status of a folder', run.status, 1)
    expect('no input', 'the end of a folder', run.source('folder')['end'], 'cannot read: Is a directory')


def last_lines():
    """The last line of one of several sources goes on at its end, with a line feed of its own; a single source is copied as it is."""
    for name in ('first', 'second'):
        os.mkfifo(driver.path(name))
    process = driver.start('--from', 'first', '--from', 'second', 'ended', '--lossy', 'ended too', '--linger', LINGER)
    first = open(driver.path('first'), 'wb', buffering=0)
    second = open(driver.path('second'), 'wb', buffering=0)
    first.write(b'one')
    first.close()
    wait_for(lambda: driver.read('ended') == driver.read('ended too') == b'one\n')
    expect('last lines', 'the file while a source is open', driver.read('ended'), b'one\n')
    expect('last lines', 'the lossy file then', driver.read('ended too'), b'one\n')
    second.write(b'x' * 4096)
    second.close()
    run = driver.end(process)
    expect('last lines', 'the status', run.status, 0)
    expect('last lines', 'the file', driver.read('ended'), b'one\n' + b'x' * 4096 + b'\n')
    expect('last lines', 'the bytes of the sources', [row['bytes'] for row in run.report['sources']], [4, 4097])
    expect('last lines', 'what is reported', [(row['lines'], row['bytes'], row['lost']) for row in run.report['sinks']], [(2, 4101, 0)] * 2)
    driver.write('one', b'a\nb')
    driver.run(b'', '--from', 'one', 'copy')
    expect('last lines', 'the copy of one source', driver.read('copy'), b'a\nb')


def two_sources():
    """Two pipes: the lines of each keep their order, and none is cut, also a long one."""
    sent = {}
    for name in ('a', 'b'):
        os.mkfifo(driver.path(name))
        lines = [b'%s %d %s\n' % (name.encode(), n, b'.' * (n % 7)) for n in range(20000)]
        lines[1000] = name.encode() + b' ' + b'-' * 50000 + b'\n'
        sent[name] = lines
    process = driver.start('--from', 'a', '--from', 'b', 'mixed')
    threads = [threading.Thread(target=write_pipe, args=(name, b''.join(sent[name]))) for name in sent]
    for thread in threads:
        thread.start()
    run = driver.end(process)
    for thread in threads:
        thread.join()
    expect('two', 'the status', run.status, 0)
    found = split_lines(driver.read('mixed'))
    for name, lines in sent.items():
        own = [line for line in found if line.startswith(name.encode() + b' ')]
        expect('two', 'the lines of ' + name, own == lines, True)
    expect('two', 'the number of lines', len(found), 40000)


def write_pipe(name, data):
    with open(driver.path(name), 'wb') as pipe:
        pipe.write(data)


def many_sources():
    """As many sources and sinks as there may be."""
    words = []
    sinks = ['all%d' % number for number in range(64)]
    for number in range(64):
        name = 'many%d' % number
        with open(driver.path(name), 'wb') as file:
            file.write(b''.join(b'%d %d\n' % (number, n) for n in range(1000)))
        words += ['--from', name]
    run = driver.run(b'', *words, *sinks)
    expect('many', 'the status', run.status, 0)
    found = split_lines(driver.read('all0'))
    for name in sinks:
        expect('many', 'whether %s is as the first' % name, driver.read(name) == driver.read('all0'), True)
    expect('many', 'the lines of all', len(found), 64000)
    for number in range(64):
        own = [line for line in found if line.startswith(b'%d ' % number)]
        expect('many', 'the lines of %d' % number, own == [b'%d %d\n' % (number, n) for n in range(1000)], True)


def signals():
    """A signal ends the program, and what was read before has been written; one that is stopped goes on."""
    for number in (signal.SIGTERM, signal.SIGINT, signal.SIGHUP):
        told = 'told%d' % number
        process = driver.start(told, '-')
        process.stdin.write(b'one line\nand')
        process.stdin.flush()
        expect('signals', 'the output', process.stdout.read(9), b'one line\n')
        wait_for(lambda: driver.read(told))
        process.send_signal(number)
        expect('signals', 'the status', process.wait(SECONDS), -number)
        expect('signals', 'the file', driver.read(told), b'one line\n')
        process.stdin.close()
    data = b''.join(b'%d\n' % n for n in range(200000))
    process = driver.start('told')
    feeder = threading.Thread(target=feed, args=(process.stdin, data))
    feeder.start()
    for _ in range(5):
        process.send_signal(signal.SIGSTOP)
        time.sleep(0.02)
        process.send_signal(signal.SIGCONT)
        time.sleep(0.01)
    feeder.join()
    run = driver.end(process)
    expect('signals', 'the status after a stop', run.status, 0)
    expect('signals', 'the file after a stop', driver.read('told') == data, True)
