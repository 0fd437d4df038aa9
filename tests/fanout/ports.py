"""Rows about what the program is started with: standard streams that are closed, or don't block, and two names of one file."""
import fcntl
import os
import subprocess
import threading
import time

from common import LINGER, SECONDS, driver, expect, read_slowly, wait_for


def closing(*numbers):
    """What closes these descriptors."""
    return lambda: [os.close(number) for number in numbers]


def closed_streams():
    """A standard stream that is closed is /dev/null: no file takes its place, and none is written to that isn't named."""
    for numbers in ((1,), (2,), (1, 2), (0, 1, 2)):
        driver.write('input', b'one\ntwo\n')
        run = driver.end(driver.start('--from', 'input', '-', 'oc', 'too', '--progress', before=closing(*numbers)))
        expect('closed %r' % (numbers,), 'the status', run.status, 0)
        for name in ('oc', 'too'):
            expect('closed %r' % (numbers,), name, driver.read(name), b'one\ntwo\n')
        expect('closed %r' % (numbers,), 'the input', driver.read('input'), b'one\ntwo\n')
    run = driver.end(driver.start('oc', before=closing(0)))
    expect('closed input', 'the status', run.status, 0)
    expect('closed input', 'what is reported', (run.source()['lines'], run.source()['end']), (0, 'complete'))


def not_blocking():
    """Streams that don't block are waited for: a slow reader gets every line, a slow writer is heard to its end, and the report is whole."""
    lines = [b'%d %s\n' % (n, b'-' * (n % 200)) for n in range(5001)]
    given, input_end = os.pipe()
    output, taken = os.pipe()
    said, errors = os.pipe()
    for end in (given, taken, errors):
        os.set_blocking(end, False)
    fcntl.fcntl(errors, fcntl.F_SETPIPE_SZ, 4096)
    process = driver.start('-', 'copy', stdin=given, stdout=taken, stderr=errors)
    os.write(errors, b'x' * 4000)
    for end in (given, taken, errors):
        os.close(end)
    found = []
    reader = threading.Thread(target=read_slowly, args=(open(output, 'rb', buffering=0), found))
    reader.start()
    with open(input_end, 'wb', buffering=0) as stdin:
        for at in range(0, 5001, 500):
            stdin.write(b''.join(lines[at:at + 500]))
            time.sleep(0.02)
    wait_for(lambda: driver.read('copy') == b''.join(found) == b''.join(lines))
    with open(said, 'rb') as stream:
        report = stream.read()
    reader.join()
    expect('not blocking', 'the status', process.wait(SECONDS), 0)
    expect('not blocking', 'the output', b''.join(found) == b''.join(lines), True)
    expect('not blocking', 'the copy', driver.read('copy') == b''.join(lines), True)
    expect('not blocking', 'whether the report is whole', report[4000:4001] + report[-3:], b'{]}\n')


def one_file():
    """A file that is named twice, by whatever names, is refused, and nothing is emptied; devices may be named twice."""
    driver.write('kept', b'kept\n')
    os.link(driver.path('kept'), driver.path('linked'))
    os.symlink('kept', driver.path('pointed'))
    os.mkfifo(driver.path('fifo'))
    for words in (['kept', 'kept'], ['kept', './kept'], ['kept', 'linked'], ['kept', '--lossy', 'pointed'], ['--from', 'kept', 'linked'],
                  ['--from', 'kept', '--append', driver.path('kept')], ['--from', 'kept', '--from', 'pointed', 'copy'], ['new', './new'],
                  ['new', driver.path('new')], ['fifo', 'copy', '--from', 'fifo'], ['-', '-'], ['--from', '-', '--from', '-', 'copy']):
        status, _, said = driver.plain(b'line\n', *words)
        expect('one file %r' % words, 'the status', status, 2)
        expect('one file %r' % words, 'what is said', said.endswith(b' are the same file\n'), True)
        expect('one file %r' % words, 'the file', driver.read('kept'), b'kept\n')
    expect('one file', 'whether a file was made', os.path.exists(driver.path('new')), False)
    with open(driver.path('kept'), 'rb') as stdin:
        status = subprocess.run([driver.program, 'kept'], cwd=driver.folder, stdin=stdin, capture_output=True, timeout=SECONDS).returncode
    expect('one file', 'the status of input that is a sink', status, 2)
    with open(driver.path('kept'), 'ab') as stdout:
        status, _, _ = driver.plain(b'line\n', '-', 'kept', stdout=stdout)
    expect('one file', 'the status of output that is a sink', status, 2)
    expect('one file', 'the file', driver.read('kept'), b'kept\n')
    status, _, _ = driver.plain(b'line\n', '/dev/null', '/dev/null', '--lossy', '/dev/null', '--linger', LINGER)
    expect('one file', 'the status of a device', status, 0)
