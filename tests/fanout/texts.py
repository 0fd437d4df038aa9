"""Rows about bytes and lines: what is written is what was read, however it is cut, and filters look at lines."""
import os
import random

from common import LINGER, driver, expect, moody, split_lines, wait_for


def hostile():
    """Inputs that are cut at odd places."""
    noise = random.Random(7)
    x = b'x'
    return {
        'empty': b'',
        'one byte': b'a',
        'one line feed': b'\n',
        'line feeds': b'\n' * 70000,
        'no last line feed': b'a\nb\nc',
        'NUL': b'\0\n\0\0\n\0',
        'returns': b'a\r\nb\r\r\n\rc',
        'every byte': bytes(range(256)) * 300,
        'around 4096': b''.join(x * n + b'\n' for n in (4094, 4095, 4096, 4097, 8190, 8191, 8192, 8193, 12287)),
        'line feeds after 4096': x * 4096 + b'\n\n\n' + x * 4096 + b'\n' + x * 4095 + b'\n\n',
        'a line of 10 MB': x * 10000000,
        'two long lines': x * 3000000 + b'\n' + b'y' * 2999999 + b'\n',
        'noise': noise.randbytes(1000000),
        'short lines': b''.join(b'%d\n' % n for n in range(100000)),
        'lengths': b''.join(x * noise.randrange(9000) + b'\n' for _ in range(500)),
    }


def copies():
    """Each sink has the bytes of the input, however it is cut."""
    for name, data in hostile().items():
        run = driver.run(data, 'copy', '--to', '-', '--lossy', 'other', '--linger', LINGER, '--cap', '65536')
        expect(name, 'the status', run.status, 0)
        expect(name, 'the copy', driver.read('copy'), data)
        expect(name, 'the output', run.output, data)
        lines = len(split_lines(data))
        for row in run.report['sinks'][:2] + run.report['sources']:
            expect(name, 'what is reported', (row['lines'], row['bytes'], row['end']), (lines, len(data), 'complete'))
        lossy = run.sink('other')
        expect(name, 'told and lost', lossy['lines'] + lossy['lost'], lines)
        if lossy['lost'] == 0:
            expect(name, 'the lossy copy', driver.read('other'), data)


def bytes_at_a_time():
    """A writer that writes a byte at a time."""
    data = b'ab\n\n' + b'z' * 5000 + b'\nend'
    process = driver.start('copy', '-')
    for byte in data:
        process.stdin.write(bytes([byte]))
        process.stdin.flush()
    run = driver.end(process)
    expect('bytes', 'the output', run.output, data)
    expect('bytes', 'the copy', driver.read('copy'), data)


def pauses():
    """A line is in the file while the input pauses."""
    process = driver.start('paused')
    for number in range(3):
        process.stdin.write(b'line %d\nand' % number)
        process.stdin.flush()
        wanted = b''.join(b'%sline %d\n' % (b'and' if at else b'', at) for at in range(number + 1))
        wait_for(lambda: driver.read('paused') == wanted)
        expect('pauses', 'the file', driver.read('paused'), wanted)
    run = driver.end(process)
    expect('pauses', 'the status', run.status, 0)
    expect('pauses', 'the end', driver.read('paused').endswith(b'line 2\nand'), True)


def has(line, word):
    """Whether a filter finds a word in a line: it looks at 4,096 bytes."""
    return word in line[:4096]


def filters():
    """A filter lets a line through by its first 4,096 bytes."""
    noise = random.Random(3)
    words = [b'error', b'warn', b'info', b'err', b'or']
    lines = [b' '.join(noise.choice(words) for _ in range(noise.randrange(5))) + b'\n' for _ in range(5000)]
    lines += [b'x' * 4090 + b' error\n', b'x' * 4096 + b' error\n', b'error' + b'y' * 9000 + b'\n', b'error at last']
    data = b''.join(lines)
    words = ['all', '--grep', 'error', 'e', '--not', 'error', 'n', '--grep', 'error', '--not', 'warn', '--to', 'both']
    run = driver.run(data, *words)
    expect('filters', 'the status', run.status, 0)
    wanted = {
        'all': data,
        'e': b''.join(line for line in lines if has(line, b'error')),
        'n': b''.join(line for line in lines if not has(line, b'error')),
        'both': b''.join(line for line in lines if has(line, b'error') and not has(line, b'warn')),
    }
    for name, bytes_of in wanted.items():
        expect('filters', name, driver.read(name), bytes_of)
        row = run.sink(name)
        told = len(split_lines(bytes_of))
        expect('filters', 'the report of ' + name, (row['lines'], row['left_out'], row['lost']),
               (told, len(lines) - told, 0))


def through_filters(row, data, feed_it=None):
    """Runs data through --grep ab and --not ab, each with a copy, and compares what they write and count."""
    lines = split_lines(data)
    words = ['all', '--grep', 'ab', 'with', '--not', 'ab', 'without', '--not', 'ab', '--grep', 'b', '--to', 'other']
    wanted = {
        'all': lines,
        'with': [line for line in lines if has(line, b'ab')],
        'without': [line for line in lines if not has(line, b'ab')],
        'other': [line for line in lines if has(line, b'b') and not has(line, b'ab')],
    }
    process = driver.start(*words)
    if feed_it:
        feed_it(process.stdin, data)
        run = driver.end(process)
    else:
        run = driver.end(process, data)
    expect(row, 'the status', run.status, 0)
    for name, told in wanted.items():
        expect(row, name, driver.read(name), b''.join(told))
        found = run.sink(name)
        expect(row, 'the report of ' + name, (found['lines'], found['left_out'], found['lost']), (len(told), len(lines) - len(told), 0))
    expect(row, 'the lines of the source', run.source()['lines'], len(lines))


def many_in_one():
    """Each of the many lines of one text passes by itself: every one, none, every other, and in runs; also empty ones."""
    noise = random.Random(11)
    mixed = [noise.choice((b'', b'', b'a', b'b', b'ab', b'a b', b'bab')) + b'\n' for _ in range(20000)]
    for name, data in {
        'all pass': b'ab\n' * 9000,
        'none passes': b'ba\n' * 9000,
        'in turn': b'ab\nba\n' * 9000,
        'runs': (b'ab\n' * 50 + b'x\n' * 50) * 90,
        'empty lines': b'\n' * 9000 + b'ab\n' + b'\n' * 9000,
        'a mark': b'\n\nab\n\n\n',
        'mixed': b''.join(mixed),
        'no last line feed': b''.join(mixed) + b'x ab',
    }.items():
        through_filters('many in one: ' + name, data)


def edges():
    """Lines of 4,095 to 4,097 bytes and twice that, among short and empty ones: what a filter says of a line's first piece holds to its
    end, also if the rest has the word, or if the word stands on both sides of the cut."""
    noise = random.Random(5)
    lines = []
    for _ in range(600):
        length = noise.choice((1, 1, 2, 5, 70, 4094, 4095, 4096, 4097, 4098, 8190, 8191, 8192, 12286))
        line = bytearray(b'.' * (length - 1) + b'\n')
        for place in noise.sample((0, 60, 4092, 4093, 4094, 4095, 4096, 4097, 8189, 8190, 8191), 2):
            if place + 3 < length:
                line[place:place + 2] = noise.choice((b'ab', b'ba', b'..'))
        lines.append(bytes(line))
    data = b''.join(lines) + b'.' * 4095 + b'ab'
    through_filters('edges', data)
    through_filters('edges, a few bytes at a time', data[:300000], dribble)
    through_filters('edges, one byte at a time', b'ab\n\nba\n' * 300 + b'.' * 4095 + b'ab\n\n\nab', byte_by_byte)


def dribble(stdin, data):
    """Writes parts of odd lengths."""
    noise = random.Random(9)
    place = 0
    while place < len(data):
        length = noise.choice((1, 3, 100, 4095, 4096, 4097, 9000))
        stdin.write(data[place:place + length])
        stdin.flush()
        place += length


def byte_by_byte(stdin, data):
    for byte in data:
        stdin.write(bytes([byte]))
        stdin.flush()


def moods():
    """Reads and writes that move some of the bytes, are interrupted, or are told that a descriptor doesn't block: each copy is whole."""
    data = b''.join(b'%d %s\n' % (n, b'.' * (n * 37 % 9000)) for n in range(60)) + b'the end'
    for seed in range(1, 6):
        for name in ('moody', 'moodier'):
            if os.path.exists(driver.path(name)):
                os.remove(driver.path(name))
        run = driver.run(data, 'moody', '-', '--lossy', 'moodier', '--cap', '4096', '--linger', LINGER,
                         env={**os.environ, 'LD_PRELOAD': moody, 'MOODY': str(seed)})
        expect('moods', 'the status', run.status, 0)
        for what, found in (('the copy', driver.read('moody')), ('the output', run.output), ('the lossy copy', driver.read('moodier'))):
            expect('moods', what, found == data, True)
        for row in run.report['sources'] + run.report['sinks']:
            expect('moods', 'what is reported', (row['lines'], row['bytes'], row['end']), (61, len(data), 'complete'))


def long_lines():
    """Two sources with sixty lines of 9,000 bytes each: every line is whole in every sink, and those of each source are in order."""
    lines = {name: [b'%s %d ' % (name, n) + b'-' * 9000 + b'\n' for n in range(60)] for name in (b'a', b'b')}
    for name, own in lines.items():
        driver.write('long ' + name.decode(), b''.join(own))
    run = driver.run(b'', '--from', 'long a', '--from', 'long b', 'long lines', '-')
    expect('long lines', 'the status', run.status, 0)
    expect('long lines', 'whether both sinks have the same', driver.read('long lines') == run.output, True)
    found = split_lines(run.output)
    for name, own in lines.items():
        expect('long lines', 'the lines of %s' % name, [line for line in found if line.startswith(name)] == own, True)
    expect('long lines', 'their number', len(found), 120)
