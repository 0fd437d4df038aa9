"""What the rows of fanout have in common: the program, and what was found wrong."""
import fcntl
import itertools
import os
import select
import struct
import sys
import termios
import time

from drive import SECONDS, Driver

driver = Driver(sys.argv[1], sys.argv[2])
# How long a lossy sink is waited for that is not to be given up.
LINGER = str(SECONDS)
# A library that has each read and write move some of the bytes only.
moody = os.path.join(driver.folder, 'moody.so')
wrong = []


def expect(row, what, found, wanted):
    if found != wanted:
        text = '%s: %s is %r, and not %r' % (row, what, found, wanted)
        wrong.append(text[:400])


def split_lines(data):
    """The lines of these bytes, each with its line feed if it has one."""
    parts = data.split(b'\n')
    return [part + b'\n' for part in parts[:-1]] + ([parts[-1]] if parts[-1] else [])


def feed(stdin, data):
    try:
        stdin.write(data)
        stdin.close()
    except BrokenPipeError:
        pass


def wait_for(holds, seconds=SECONDS):
    """Waits until this holds, and tells whether it does."""
    until = time.monotonic() + seconds
    while time.monotonic() < until and not holds():
        time.sleep(0.01)
    return holds()


def read_until(descriptor, holds):
    """What is read until this holds of it, or for as long as anything may take."""
    found = b''
    until = time.monotonic() + SECONDS
    while not holds(found) and select.select([descriptor], [], [], max(0, until - time.monotonic()))[0]:
        part = os.read(descriptor, 65536)
        if not part:
            break
        found += part
    return found


def is_full(name):
    """Whether a named pipe takes no more."""
    writer = os.open(driver.path(name), os.O_WRONLY | os.O_NONBLOCK)
    try:
        return not select.select([], [writer], [], 0)[1]
    finally:
        os.close(writer)


def fill(name):
    """Writes to a named pipe, which somebody has open for reading, until it takes no more: who writes to it from now on is stuck."""
    writer = os.open(driver.path(name), os.O_WRONLY | os.O_NONBLOCK)
    try:
        while True:
            os.write(writer, b'x' * 4096)
    except BlockingIOError:
        pass
    finally:
        os.close(writer)


def feed_until_full(stdin, name, parts):
    """Feeds parts until the program has filled a named pipe that nobody reads, and then one more, of which some waits for the pipe. What was
    fed. (One part need not be enough, however long it is: of what comes before the thread of a lossy sink runs it gets no more than a
    buffer has.)"""
    fed = b''
    was_full = False
    for part in itertools.islice(parts, SECONDS):
        stdin.write(part)
        stdin.flush()
        fed += part
        if was_full:
            break
        was_full = wait_for(lambda: is_full(name), 1)
    return fed


def waits_in(reader):
    """How many bytes wait in a pipe."""
    return struct.unpack('i', fcntl.ioctl(reader, termios.FIONREAD, bytes(4)))[0]


def drain(reader):
    """What is in a pipe, of which no writer is left."""
    os.set_blocking(reader, True)
    with open(reader, 'rb') as pipe:
        return pipe.read()


def read_slowly(stream, found):
    while part := stream.read(20000):
        found.append(part)
        time.sleep(0.002)
