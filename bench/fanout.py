#!/usr/bin/env python3
"""Measures fanout beside tee, grep and Java's class, and prints a table: see fanout.sh.

usage: fanout.py PROGRAM FOLDER ROWS RUNS LINES [CLASSES]

Each row is also written to the file ROWS, as picture.py reads it.
"""
import math
import os
import shutil
import signal
import subprocess
import sys
import time

from picture import PROGRAMS, fanout_head, fanout_lines
from turns import is_quiet, ticks

program, folder, rows = os.path.abspath(sys.argv[1]), sys.argv[2], sys.argv[3]
runs, lines = int(sys.argv[4]), int(sys.argv[5])
java = f'java -cp {os.path.abspath(sys.argv[6])} Fanout 2 256' if len(sys.argv) > 6 else None
SECONDS = 120


def memory_of(group):
    """How many KiB the processes of a group have had at their peaks, together."""
    total = 0
    for name in filter(str.isdigit, os.listdir('/proc')):
        try:
            with open(f'/proc/{name}/stat') as file:
                if int(file.read().rsplit(') ', 1)[1].split()[2]) != group:
                    continue
            with open(f'/proc/{name}/status') as file:
                total += next((int(line.split()[1]) for line in file if line.startswith('VmHWM')), 0)
        except (OSError, IndexError):
            continue
    return total


def begin_anew(place):
    """Makes an empty folder: to write into files that are there would take the time in which the system empties them, too."""
    shutil.rmtree(place, ignore_errors=True)
    os.mkdir(place)


def measure(command, place, seconds):
    """The seconds that a command takes in an empty folder, those of processors, and its KiB; or nothing if it doesn't end."""
    begin_anew(place)
    with open(os.path.join(folder, 'lines'), 'rb') as source:
        begun = time.monotonic()
        child = subprocess.Popen(['sh', '-c', command], cwd=place, stdin=source, start_new_session=True)
    peak = 0
    while True:
        ended, status, used = os.wait4(child.pid, os.WNOHANG)
        if ended:
            if status != 0 and '--lossy' not in command:
                sys.exit(f'{command}: status {status}')
            return time.monotonic() - begun, used.ru_utime + used.ru_stime, peak
        if time.monotonic() - begun > seconds:
            os.killpg(child.pid, signal.SIGKILL)
            os.waitpid(child.pid, 0)
            return None
        peak = max(peak, memory_of(child.pid))
        time.sleep(0.02)


def measure_quietly(command, place, seconds):
    """What a run took beside which the machine's host took little: another is made again."""
    while True:
        before = ticks()
        found = measure(command, place, seconds)
        if found is None or is_quiet(before, ticks()):
            return found


def middle(figures):
    return sorted(figures)[len(figures) // 2]


def same(peers, names, wanted=None):
    """Whether each of these peers wrote the same bytes to each of these files as the first did, or as there are in the wanted one."""
    for written in (f'{peer}/{name}' for peer in peers for name in names):
        wanted = wanted or written
        if subprocess.run(['cmp', wanted, written], cwd=folder).returncode:
            sys.exit(f'{wanted} and {written} differ')


def medians(figures):
    """The milliseconds, those of processors, and the KiB: zeros if nothing was measured, and inf if a run didn't end."""
    if not figures:
        return [0, 0, 0]
    if None in figures:
        return [math.inf] * 3
    clock, processors, peak = (middle(column) for column in zip(*figures))
    return [round(clock * 1000), round(processors * 1000), peak]


def row(name, commands, seconds=SECONDS):
    """Measures commands in turns, and prints the medians of each."""
    taken = {peer: [] for peer in PROGRAMS}
    for _ in range(runs):
        for peer, command in commands.items():
            taken[peer].append(measure_quietly(command, os.path.join(folder, peer), seconds))
    found = [medians(taken[peer]) for peer in PROGRAMS]
    with open(rows, 'a') as file:
        print(name, *(figure for figures in found for figure in figures), sep='\t', file=file)
    print('\n'.join(fanout_lines(name, found)), flush=True)


def with_java(commands, words):
    return {**commands, 'Java': f'exec {java} {words}'} if java else commands


with open(os.path.join(folder, 'lines'), 'wb') as file:
    for number in range(lines):
        file.write((b'%d the line that goes to each of the sinks, and has seventy-four bytes' % number).ljust(73, b'.')[:73] + b'\n')
print(fanout_head())
quiet = '--report none'
peers = [peer for peer in PROGRAMS if java or peer != 'Java']
row('a copy', with_java({'fanout': f'exec {program} a {quiet}', 'tee': 'exec tee a >/dev/null'}, 'a'))
same(peers, 'a', 'lines')
row('a copy and the lines with 77', with_java(
    {'fanout': f'exec {program} a --grep 77 b {quiet}', 'tee': 'tee a | grep 77 >b'}, 'a b:77'))
same(peers, 'a', 'lines')
same(peers, 'b')
row('four copies', with_java(
    {'fanout': f'exec {program} a b c d {quiet}', 'tee': 'exec tee a b c >d'}, 'a b c d'))
same(peers, 'abcd', 'lines')
os.mkfifo(os.path.join(folder, 'pipe'))
reader = os.open(os.path.join(folder, 'pipe'), os.O_RDONLY | os.O_NONBLOCK)
row('a copy, and a pipe that nobody reads', {
    'fanout': f'exec {program} a --lossy ../pipe --linger 0 {quiet}', 'tee': 'exec tee a >../pipe'}, 10)
same(['fanout'], 'a', 'lines')
