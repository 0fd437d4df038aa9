"""Rows about slow readers: a lossy sink loses whole lines, which are counted, and the memory stays as it is."""
import json
import os
import subprocess
import threading

from common import LINGER, SECONDS, driver, expect, feed, fill, split_lines, wait_for, waits_in


def counts_lines():
    """What a lossy sink with a filter has written, left out and lost are lines, and not texts: with a slow reader it has written exactly
    the lines that it says, and each that it was told passes."""
    count = 300000
    lines = [b'%06d %s\n' % (n, b'ab' if n % 3 else b'ba') for n in range(count)]
    data = b''.join(lines)
    process = driver.start('counted', '--grep', 'ab', '--lossy', '-', '--linger', LINGER)
    found = []
    reader = threading.Thread(target=read_behind, args=(process.stdout, found, 'counted', len(data)))
    reader.start()
    feed(process.stdin, data)
    reader.join()
    said = process.stderr.read()
    process.wait(SECONDS)
    told = split_lines(b''.join(found))
    row = json.loads(said)['sinks'][1]
    passing = {line for line in lines if b'ab' in line}
    expect('counts', 'the copy', driver.read('counted') == data, True)
    expect('counts', 'whether each line is one that passes', set(told) <= passing, True)
    expect('counts', 'the order', told == sorted(told), True)
    expect('counts', 'what is reported', (row['lines'], row['lines'] + row['left_out'] + row['lost']), (len(told), count))
    # A line that is left out was seen if one beside it was told, since texts have lines that stand together.
    numbers = {int(line.split()[0]) for line in told}
    beside = [(n - 1 in numbers) + (n + 1 in numbers) for n in range(0, count, 3)]
    expect('counts', 'how many are left out', beside.count(2) - 10 <= row['left_out'] <= len(beside) - beside.count(0) + 10, True)
    expect('counts', 'whether some are lost, and some are not', 0 < row['lost'] < count - 1000, True)


def read_behind(stream, found, copy, whole):
    """Reads an output slower than a copy is written: a part each time that the copy has grown by more than twice as much, and the rest once
    it is whole."""
    due = 0
    while True:
        due = min(due + 200000, whole)
        if not wait_for(lambda: driver.size(copy) >= due):
            # The copy waits for the reader: the row finds nothing lost, and doesn't wait again.
            whole = due = 0
        part = stream.read(80000)
        if not part:
            return
        found.append(part)


def memory_of(process):
    """The memory of a running process, in KiB, apart from pages of files: the most that it had, and what it has. (How many pages of the
    program and the C library are mapped hangs on how the system holds these files.)"""
    figures = {}
    with open('/proc/%d/status' % process.pid) as file:
        for line in file:
            if line.startswith(('VmHWM:', 'RssAnon:', 'RssFile:', 'RssShmem:')):
                figures[line.split(':')[0]] = int(line.split()[1])
    return figures['VmHWM'] - figures['RssFile'] - figures['RssShmem'], figures['RssAnon']


def stuck():
    """A lossy sink that nobody reads stops nobody, takes no memory, and loses whole lines, which are counted."""
    peaks = []
    for count in (100000, 1000000):
        os.mkfifo(driver.path('pipe%d' % count))
        reader = os.open(driver.path('pipe%d' % count), os.O_RDONLY | os.O_NONBLOCK)
        lines = [b'%08d %s\n' % (n, b'-' * (n % 60)) for n in range(count)]
        data = b''.join(lines)
        process = driver.start('copy', '--lossy', 'pipe%d' % count, 'other', '--linger', LINGER)
        # It isn't to end before its memory was looked at, also if the thread of the lossy sink has come late and isn't stuck.
        process.stdin.write(data)
        process.stdin.flush()
        wait_for(lambda: driver.size('copy') == driver.size('other') == len(data) and waits_in(reader))
        expect('stuck', 'the copies', driver.read('copy') == driver.read('other') == data, True)
        peaks.append(memory_of(process)[0])
        process.stdin.close()
        os.set_blocking(reader, True)
        found = b''
        while part := os.read(reader, 65536):
            found += part
        os.close(reader)
        run = driver.end(process)
        expect('stuck', 'the status', run.status, 0)
        told = split_lines(found)
        expect('stuck', 'whether each line is whole', set(told) <= set(lines), True)
        expect('stuck', 'the order', told == sorted(told), True)
        row = run.sink('pipe%d' % count)
        expect('stuck', 'what is reported', (row['lines'], row['lines'] + row['lost']), (len(told), count))
        expect('stuck', 'whether most are lost', row['lost'] > count / 2, True)
    expect('stuck', 'the memory %r' % peaks, peaks[1] - peaks[0] < 1000, True)


# How often a program is run for the median of its memory: single runs differ by 20 KiB.
RUNS = 5


def flat():
    """The memory is the same for a million lines and for ten, while nobody reads one of the sinks: so are the medians of several runs."""
    for count in (10**6, 10**7):
        figures = [beside_a_deaf_sink(count, run) for run in range(RUNS)]
        for name, most, column in zip(('peak', 'rest'), (900, 800), zip(*figures)):
            found = sorted(column)[RUNS // 2]
            expect('flat', 'whether a %s of %d KiB is %d at most for %d lines' % (name, found, most, count), found <= most, True)


def beside_a_deaf_sink(count, run):
    """Copies lines beside a sink that nobody reads, and gives the memory of that. What the sink is told and what it lost are all lines."""
    pipe = 'deaf%d-%d' % (count, run)
    os.mkfifo(driver.path(pipe))
    reader = os.open(driver.path(pipe), os.O_RDONLY | os.O_NONBLOCK)
    process = driver.start('copy', '--grep', '77', 'some', '--lossy', pipe, '--linger', LINGER)
    subprocess.run(['seq', str(count)], stdout=process.stdin)
    wait_for(lambda: ends_with(driver.path('copy'), b'\n%d\n' % count) and waits_in(reader))
    figures = memory_of(process)
    process.stdin.close()
    os.set_blocking(reader, True)
    told = read_all(reader).split()
    ended = driver.end(process)
    expect('flat', 'the status', ended.status, 0)
    for name, command in (('copy', 'seq %d' % count), ('some', 'seq %d | grep 77' % count)):
        same = subprocess.run('%s | cmp - %s' % (command, name), shell=True, cwd=driver.folder).returncode
        expect('flat', 'how %s compares' % name, same, 0)
    row = ended.sink(pipe)
    expect('flat', 'told and lost', (row['lines'], row['lines'] + row['lost']), (len(told), count))
    numbers_told = [int(number) for number in told]
    expect('flat', 'the order', all(a < b for a, b in zip(numbers_told, numbers_told[1:])), True)
    expect('flat', 'the backlog', row['backlog'], 32)
    return figures


def ends_with(path, end):
    """Whether a file ends with these bytes."""
    with open(path, 'rb') as file:
        file.seek(max(0, os.path.getsize(path) - len(end)))
        return file.read() == end


def read_all(reader):
    """What comes from a descriptor up to its end, which is closed then."""
    with open(reader, 'rb') as pipe:
        return pipe.read()


def slow():
    """A lossy sink whose reader is slow gets whole lines alone, short and long, in order."""
    lines = []
    for number in range(6000):
        length = (50, 5000, 300, 20000, 4096)[number % 5]
        lines.append(b'%06d ' % number + b'%c' % (97 + number % 26) * length + b'\n')
    lines.append(b'the last ' + b'!' * 9000)
    data = b''.join(lines)
    process = driver.start('ahead', '--lossy', '-', '--cap', '16', '--linger', LINGER)
    found = []
    reader = threading.Thread(target=read_behind, args=(process.stdout, found, 'ahead', len(data)))
    reader.start()
    feed(process.stdin, data)
    reader.join()
    said = process.stderr.read()
    process.wait(SECONDS)
    told = split_lines(b''.join(found))
    rows = json.loads(said)['sinks']
    expect('slow', 'the copy', driver.read('ahead') == data, True)
    sent, kept = set(lines), set(told)
    expect('slow', 'whether each line is whole', [line[:20] for line in told if line not in sent], [])
    expect('slow', 'the order', told == [line for line in lines if line in kept], True)
    expect('slow', 'what is reported', (rows[1]['lines'], rows[1]['lines'] + rows[1]['lost']), (len(told), len(lines)))
    expect('slow', 'whether some are lost, and some are not', 0 < rows[1]['lost'] < len(lines) - 10, True)


def lingers():
    """A lossy sink that is stuck at the end is given up after --linger seconds."""
    reader = driver.pipe('unread')
    fill('unread')
    process = driver.start('copy', '--lossy', 'unread', '--linger', '1')
    run = driver.end(process, b'a line of some length\n' * 100000)
    expect('lingers', 'the status', run.status, 3)
    expect('lingers', 'the end', run.sink('unread')['end'], 'not ended')
    os.close(reader)
