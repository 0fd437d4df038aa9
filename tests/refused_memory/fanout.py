"""Runs fanout with requests for memory refused, or a thread not started: it ends by itself, and no sink has a wrong line.

usage: fanout.py PROGRAM REFUSE.so NO_THREAD.so
"""
from concurrent.futures import ThreadPoolExecutor
import os
import subprocess
import sys
import tempfile

program, refuse, no_thread = (os.path.abspath(word) for word in sys.argv[1:4])
SECONDS = 600
LINES = [b'line %d %s\n' % (n, b'.' * (n % 90)) for n in range(300)] + [b'long ' + b'-' * 9000 + b'\n', b'the end']
DATA = b''.join(LINES)


def read(folder, name):
    path = os.path.join(folder, name)
    if not os.path.exists(path):
        return b''
    with open(path, 'rb') as file:
        return file.read()


def run(hook, name, number):
    """What is wrong with a run, and whether it met a refusal."""
    what = '%s %s %d' % (os.path.basename(hook), name, number)
    with tempfile.TemporaryDirectory() as folder:
        with open(os.path.join(folder, 'input'), 'wb') as file:
            file.write(DATA)
        command = [program, '--from', 'input', 'copy', '--grep', 'long', '--lossy', 'some', '--report', 'none']
        try:
            done = subprocess.run(command, cwd=folder, capture_output=True, timeout=SECONDS,
                                  env={**os.environ, 'LD_PRELOAD': hook, name: str(number)})
        except subprocess.TimeoutExpired:
            return ['%s: it does not end' % what], True
        wrong = judge(done.returncode, read(folder, 'copy'), read(folder, 'some'))
        is_met = b'refused' in done.stderr or b'started' in done.stderr
        return ['%s: %s' % (what, text) for text in wrong], is_met


def judge(status, copy, some):
    """A run that was refused something has the status of a failure, or has copied everything; no sink has a wrong line."""
    wrong = []
    if status not in (0, 1, 3):
        wrong.append('the status is %d' % status)
    if status == 0 and copy != DATA:
        wrong.append('the status is 0, and the copy is cut')
    if not DATA.startswith(copy):
        wrong.append('the copy is no beginning of the input')
    if some not in (b'', LINES[-2]):
        wrong.append('the filtered sink has %d bytes' % len(some))
    return wrong


def rows(pool, hook, name):
    """Refuses each request in turn, a hundred at a time, up to a hundred runs that meet none."""
    wrong = []
    for first in range(1, 10000, 100):
        answers = list(pool.map(lambda number: run(hook, name, number), range(first, first + 100)))
        wrong += [text for answer in answers for text in answer[0]]
        if not any(is_met for _, is_met in answers):
            break
    print('%s %s: up to %d' % (os.path.basename(hook), name, first), flush=True)
    return wrong


with ThreadPoolExecutor(2 * os.cpu_count()) as pool:
    wrong = [text for hook, name in ((refuse, 'REFUSE'), (no_thread, 'REFUSE'), (refuse, 'REFUSE_FROM'))
             for text in rows(pool, hook, name)]
for text in wrong:
    print(text)
print('fanout with refusals: %d wrong' % len(wrong))
sys.exit(1 if wrong else 0)
