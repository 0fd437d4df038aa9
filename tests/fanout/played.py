"""Draws runs of fanout, and plays them: who writes to the sources, and who reads the sinks."""
import os
import random
import resource
import signal
import subprocess
import sys
import threading
import time

CHUNKS = (7, 100, 4096, 65536, 1 << 20)
WORDS = (b'ab', b'ba', b'..', b'\xff', b' ')
SECONDS = 110


class Source:
    """A source: its kind, its name, what it has, and how it is written."""

    def __init__(self, noise, number, kind, has_giants, is_small):
        self.kind = kind
        self.name = '-' if kind == 'input' else 'source%d' % number
        self.chunk = noise.choice(CHUNKS)
        self.pauses = noise.choice((0, 0, 1, 3))
        self.is_blocking = noise.random() < 0.7
        most = 3000 if self.chunk == 7 or is_small else noise.choice((0, 300, 30000, 600000))
        self.lines = [] if kind in ('missing', 'folder') else draw_lines(noise, number, most, has_giants)
        self.data = b''.join(self.lines)

    def __repr__(self):
        return '%s %s of %d lines, %d bytes' % (self.kind, self.name, len(self.lines), len(self.data))


class Sink:
    """A sink: its kind, its name, its filters, and how it is read."""

    def __init__(self, noise, number, kind):
        self.kind = kind
        self.name = {'output': '-', 'full': '/dev/full', 'missing': 'no/such/sink%d' % number}.get(kind, 'sink%d' % number)
        self.is_lossy = kind == 'deaf' or noise.random() < 0.3
        self.chunk = noise.choice(CHUNKS)
        self.patience = noise.choice((0, 500, 70000))
        self.is_blocking = noise.random() < 0.7
        self.rules = [(noise.random() < 0.5, noise.choice(WORDS)) for _ in range(noise.choice((0, 0, 0, 1, 2)))]

    def passes(self, line):
        return all((word in line[:4096]) == is_wanted for is_wanted, word in self.rules)

    def __repr__(self):
        return '%s%s %s %r' % ('lossy ' if self.is_lossy else '', self.kind, self.name, self.rules)


class Plan:
    def __repr__(self):
        return '%r -> %r %r' % (self.sources, self.sinks, {name: value for name, value in vars(self).items() if name not in ('sources', 'sinks')})


def draw_lines(noise, source, most, has_giants):
    """Lines of which each says whose and which it is. The last one may have no line feed."""
    lines = []
    size = 0
    while size < most:
        length = noise.choice((0, 3, 60, 60, 60, 300))
        if noise.random() < 0.05:
            length = noise.choice((4050, 4085, 4086, 4087, 4088, 4089, 4090, 4091, 4092, 8180, 9000, 20000))
        if has_giants and noise.random() < 0.02:
            length = 300000
        parts = [noise.choice(WORDS) for _ in range(6)]
        line = b'%d:%d:' % (source, len(lines)) + b''.join(parts) + b'-' * length + noise.choice(WORDS) + b'\n'
        lines.append(line)
        size += len(line)
    if lines and noise.random() < 0.5:
        lines[-1] = lines[-1][:-1]
    return lines


def draw(number):
    """The plan of the run with this number."""
    noise = random.Random(number)
    plan = Plan()
    plan.is_moody = noise.random() < 0.25
    plan.append = noise.random() < 0.2
    plan.cap = noise.choice((None, 1, 3, 16, 256))
    plan.workers = noise.choice((None, 1, 8))
    plan.linger = noise.choice((0, 0, 1))
    plan.limit = noise.choice((None, None, None, 1, 4096, 20480))
    kinds = noise.choices(('file', 'pipe', 'missing', 'folder'), (4, 6, 1, 1), k=noise.choice((1, 1, 1, 2, 3, 4)))
    if noise.random() < 0.4:
        kinds[0] = 'input'
    sink_kinds = noise.choices(('file', 'pipe', 'leaves', 'deaf', 'full', 'missing'), (5, 4, 1, 1, 1, 1), k=noise.choice((1, 2, 3, 5)))
    if noise.random() < 0.4:
        sink_kinds[0] = 'output'
    # A disk that is full may be named once: it is a device.
    plan.sinks = [Sink(noise, at, kind) for at, kind in enumerate(sink_kinds) if kind != 'full' or at == sink_kinds.index('full')]
    plan.sinks = [sink for sink in plan.sinks] or [Sink(noise, 0, 'file')]
    has_giants = len(kinds) == 1 and not any(sink.is_lossy for sink in plan.sinks)
    plan.sources = [Source(noise, at, kind, has_giants, plan.is_moody) for at, kind in enumerate(kinds)]
    plan.read_fails = None
    if plan.is_moody and kinds[0] == 'input' and plan.sources[0].data and noise.random() < 0.5:
        plan.read_fails = noise.randrange(len(plan.sources[0].data))
    plan.preset = b'kept\n' if plan.append else b''
    return plan


def words_of(plan):
    """The command line of a plan."""
    words = ['--report', 'json', '--linger', str(plan.linger)]
    for name in ('cap', 'workers'):
        if getattr(plan, name):
            words += ['--' + name, str(getattr(plan, name))]
    if plan.append:
        words.append('--append')
    for source in plan.sources:
        words += ['--from', source.name]
    for sink in plan.sinks:
        for is_wanted, word in sink.rules:
            words += ['--grep' if is_wanted else '--not', word]
        words += ['--lossy' if sink.is_lossy else '--to', sink.name]
    return words


def write_chunks(descriptor, source):
    """Writes what a source has, with pauses."""
    try:
        for number, at in enumerate(range(0, len(source.data), source.chunk)):
            os.write(descriptor, source.data[at:at + source.chunk])
            if number < source.pauses:
                time.sleep(0.05)
    except OSError:
        pass
    finally:
        os.close(descriptor)


def write_pipe(path, source):
    try:
        descriptor = os.open(path, os.O_WRONLY)
    except OSError:
        return
    write_chunks(descriptor, source)


def read_chunks(descriptor, sink, found):
    """Reads what a sink writes, up to its end, or until the reader leaves."""
    count = 0
    got = bytearray()
    while part := os.read(descriptor, sink.chunk):
        got += part
        count += 1
        if count <= 20:
            time.sleep(0.003)
        if sink.kind == 'leaves' and len(got) > sink.patience:
            break
    found[sink.name] = bytes(got)
    os.close(descriptor)


def read_pipe(path, sink, found):
    read_chunks(os.open(path, os.O_RDONLY), sink, found)


class Done:
    """What came of a run."""

    def __init__(self, status, said, found, sizes):
        self.status = status
        self.said = said
        self.found = found


def lay_out(plan, place):
    """Makes the files and pipes, and gives the readers of the sinks that nobody reads before the end."""
    deaf = {}
    for source in plan.sources:
        path = os.path.join(place, source.name)
        if source.kind == 'pipe':
            os.mkfifo(path)
        elif source.kind == 'folder':
            os.mkdir(path)
        elif source.kind == 'file':
            with open(path, 'wb') as file:
                file.write(source.data)
    for sink in plan.sinks:
        path = os.path.join(place, sink.name)
        if sink.kind in ('pipe', 'leaves', 'deaf'):
            os.mkfifo(path)
        elif sink.kind == 'file' and plan.preset:
            with open(path, 'wb') as file:
                file.write(plan.preset)
        if sink.kind == 'deaf':
            deaf[sink.name] = os.open(path, os.O_RDONLY | os.O_NONBLOCK)
    return deaf


def prepare(limit):
    """What a process does before it becomes the program."""
    for number in (signal.SIGTERM, signal.SIGINT, signal.SIGHUP):
        signal.signal(number, signal.SIG_DFL)
    if limit:
        resource.setrlimit(resource.RLIMIT_FSIZE, (limit, limit))


def play(plan, program, place, moody):
    """Runs the program by a plan, and gives what came of it."""
    deaf = lay_out(plan, place)
    has_input = plan.sources[0].kind == 'input'
    has_output = plan.sinks[0].kind == 'output'
    given, input_end = os.pipe()
    output, taken = os.pipe()
    os.set_blocking(given, plan.sources[0].is_blocking)
    os.set_blocking(taken, plan.sinks[0].is_blocking)
    env = dict(os.environ)
    if plan.is_moody:
        env.update(LD_PRELOAD=moody, MOODY=str(len(plan.sources[0].data)))
        if plan.read_fails is not None:
            env.update(READ_FAILS=str(plan.read_fails))
    process = subprocess.Popen([program, *words_of(plan)], cwd=place, stdin=given, stdout=taken, stderr=subprocess.PIPE, env=env,
                               preexec_fn=lambda: prepare(plan.limit))
    os.close(given)
    os.close(taken)
    found = {sink.name: b'' for sink in plan.sinks}
    threads = []

    def begin(run, *given):
        thread = threading.Thread(target=run, args=given, daemon=True)
        thread.start()
        threads.append(thread)

    for source in plan.sources:
        if source.kind == 'pipe':
            begin(write_pipe, os.path.join(place, source.name), source)
    if has_input:
        begin(write_chunks, input_end, plan.sources[0])
    else:
        os.close(input_end)
    for sink in plan.sinks:
        if sink.kind in ('pipe', 'leaves'):
            begin(read_pipe, os.path.join(place, sink.name), sink, found)
    if has_output:
        begin(read_chunks, output, plan.sinks[0], found)
    try:
        said = process.communicate(timeout=SECONDS)[1]
    except subprocess.TimeoutExpired:
        process.kill()
        process.communicate()
        return Done(None, b'', found, {})
    release(plan, place)
    for thread in threads:
        thread.join(20)
    for sink in plan.sinks:
        if sink.kind == 'file' and os.path.exists(os.path.join(place, sink.name)):
            with open(os.path.join(place, sink.name), 'rb') as file:
                found[sink.name] = file.read()
        elif sink.kind == 'deaf':
            os.set_blocking(deaf[sink.name], True)
            with open(deaf[sink.name], 'rb') as pipe:
                found[sink.name] = pipe.read()
    return Done(process.returncode, said, found, {})


def release(plan, place):
    """Ends those that still wait for the program to open a pipe."""
    for kind, flags in (('sources', os.O_RDONLY), ('sinks', os.O_WRONLY)):
        for one in getattr(plan, kind):
            if one.kind in ('pipe', 'leaves'):
                try:
                    os.close(os.open(os.path.join(place, one.name), flags | os.O_NONBLOCK))
                except OSError:
                    pass
