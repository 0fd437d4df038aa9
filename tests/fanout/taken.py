"""Rows about what was written: a sink that fails, or is given up, tells the lines and bytes that its file has."""
import itertools
import json
import os
import resource

from common import SECONDS, drain, driver, expect, feed, feed_until_full, fill, moody, read_until, wait_for


def limited(size):
    """What has no file grow beyond so many bytes."""
    return lambda: resource.setrlimit(resource.RLIMIT_FSIZE, (size, size))


def judge(row, what, found, data, whole):
    """A sink has written a beginning of the input, and tells the lines and bytes of that."""
    expect(what, 'whether it is a beginning', whole.startswith(data), True)
    expect(what, 'what is reported', (row['lines'], row['bytes']), (data.count(b'\n'), len(data)))
    expect(what, 'the sum', row['lines'] + row['left_out'] + row['lost'], found)


def file_limit():
    """A sink at the limit of a file's size ends alone, and no signal ends the program. What its file has is what it tells."""
    data = b''.join(b'%d %s\n' % (n, b'.' * (n % 50)) for n in range(20000))
    for size in (1, 20480, 30000):
        run = driver.run(data, 'limited', '-', '--append', before=limited(size))
        expect('file limit', 'the status', run.status, 3)
        expect('file limit', 'the output', run.output == data, True)
        expect('file limit', 'its end', run.sink('limited')['end'], 'cannot write: File too large')
        expect('file limit', 'what is said', run.said.startswith(b'fanout: limited: File too large\n'), True)
        found = driver.read('limited')
        expect('file limit', 'the size of the file', len(found), size)
        judge(run.sink('limited'), 'file limit', run.source()['lines'], found, data)
        os.remove(driver.path('limited'))
    with open(driver.path('output'), 'wb') as output:
        run = driver.run(data, 'copy', '-', before=limited(4096), stdout=output)
    expect('file limit', 'the status of two', run.status, 3)
    for name in ('copy', 'output'):
        expect('file limit', 'the size of ' + name, len(driver.read(name)), 4096)
    judge(run.sink('-'), 'file limit', run.source()['lines'], driver.read('output'), data)


def no_space():
    """A write that fails after some bytes were taken, a few at a time: what was taken is told."""
    data = b''.join(b'%d %s\n' % (n, b'.' * (n % 50)) for n in range(2000))
    for seed in range(4):
        run = driver.run(data, 'short', '-', before=limited(20480), env={**os.environ, 'LD_PRELOAD': moody, 'MOODY': str(seed)})
        expect('no space', 'the status', run.status, 3)
        expect('no space', 'the output', run.output == data, True)
        expect('no space', 'the size of the file', len(driver.read('short')), 20480)
        judge(run.sink('short'), 'no space', 2000, driver.read('short'), data)


def given_up():
    """A lossy sink that is given up tells what is in its pipe, of which nobody has read; and what waited for it."""
    for number, length in enumerate((70, 1000, 4000, 6000)):
        reader = driver.pipe('unread%d' % number)
        process = driver.start('copy', '--lossy', 'unread%d' % number, '--linger', '1')
        # It is given up in the middle of a write, and not before that.
        data = feed_until_full(process.stdin, 'unread%d' % number, numbered(length))
        lines = data.splitlines(True)
        wait_for(lambda: driver.size('copy') == len(data))
        run = driver.end(process)
        expect('given up', 'the status', run.status, 3)
        row = run.sink('unread%d' % number)
        expect('given up', 'its end', row['end'], 'not ended')
        expect('given up', 'what is said', run.said.splitlines()[0], b'fanout: unread%d: given up' % number)
        expect('given up', 'the copy', driver.read('copy') == data, True)
        found = drain(reader)
        whole = found[:found.rfind(b'\n') + 1].splitlines(True)
        expect('given up', 'whether each line is one of the input', set(whole) <= set(lines), True)
        expect('given up', 'the bytes', row['bytes'], len(found))
        expect('given up', 'the lines', row['lines'], len(whole))
        expect('given up', 'the sum', row['lines'] + row['lost'], len(lines))
        expect('given up', 'the backlog', row['backlog'], 32)


def numbered(length):
    """Parts of 400,000 bytes and more, of lines that are so long and have numbers."""
    for first in itertools.count(0, 400000 // length + 100):
        yield b''.join(b'%06d %s\n' % (n, b'-' * length) for n in range(first, first + 400000 // length + 100))


def lingers_alone():
    """A sink that may lose is given up so many seconds after the sources have ended, also if there is no other sink."""
    reader = driver.pipe('alone')
    fill('alone')
    process = driver.start('--lossy', 'alone', '--linger', '1')
    feed_part(process.stdin, b'a line of some length\n' * 20000)
    ended = wait_for(lambda: process.poll() is not None, 4)
    expect('lingers alone', 'whether it has ended while its source is open', ended, False)
    run = driver.end(process)
    expect('lingers alone', 'the status', run.status, 3)
    expect('lingers alone', 'the source', run.source()['end'], 'complete')
    expect('lingers alone', 'the end', run.sink('alone')['end'], 'not ended')
    os.close(reader)


def feed_part(stdin, data):
    stdin.write(data)
    stdin.flush()


def lossy_alone():
    """A lossy sink alone, whose source pauses for longer than --linger, has each line before the next one comes, and is not given up."""
    process = driver.start('--lossy', 'slowly', '--linger', '5')
    wanted = b''
    for number in range(3):
        line = b'line %d\n' % number
        feed_part(process.stdin, line)
        wanted += line
        wait_for(lambda: driver.read('slowly') == wanted)
        expect('lossy alone', 'the file', driver.read('slowly'), wanted)
        if number == 1:
            wait_for(lambda: process.poll() is not None, 7)
    run = driver.end(process)
    expect('lossy alone', 'the status', run.status, 0)
    expect('lossy alone', 'what is reported', (run.sink('slowly')['lines'], run.sink('slowly')['lost']), (3, 0))


def said_at_once():
    """A sink or a source that fails says so in a line, while the others go on, whatever the report is."""
    reader, writer = os.pipe()
    process = driver.start('/dev/full', 'copy', '--from', '-', '--from', 'nowhere', form='none', stderr=writer)
    os.close(writer)
    feed_part(process.stdin, b'a line\n')
    said = read_until(reader, lambda said: said.count(b'\n') >= 2)
    wait_for(lambda: driver.read('copy') == b'a line\n')
    expect('at once', 'whether it has ended', process.poll(), None)
    expect('at once', 'what is said', set(said.splitlines()),
           {b'fanout: /dev/full: No space left on device', b'fanout: nowhere: No such file or directory'})
    feed(process.stdin, b'more\n')
    process.stdin = None
    process.communicate(timeout=SECONDS)
    expect('at once', 'what is said later', os.read(reader, 1000), b'')
    expect('at once', 'the copy', driver.read('copy'), b'a line\nmore\n')
    os.close(reader)


def sums():
    """What a sink has written, left out and lost are all lines of the sources, also if the program ends while a source publishes."""
    driver.write('endless', b''.join(b'%d\n' % n for n in range(300000)))
    for _ in range(40):
        process = driver.start('--from', 'endless', '--from', 'also', '-', '--grep', '7', '/dev/full')
        # It may end before its second source has failed, if that isn't waited for.
        said = read_until(process.stderr.fileno(), lambda said: b'fanout: also: No such file or directory\n' in said)
        process.stdout.read(500)
        process.stdout.close()
        said += process.stderr.read()
        expect('sums', 'the status', process.wait(SECONDS), 1)
        report = json.loads(said.splitlines()[-1])
        published = sum(row['lines'] for row in report['sources'])
        for row in report['sinks']:
            expect('sums', 'the lines of ' + row['name'], row['lines'] + row['left_out'] + row['lost'], published)
