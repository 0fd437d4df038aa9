"""Plays drawn runs of fanout, and judges each by what docs/FANOUT.md says.

usage: hostile.py PROGRAM FOLDER RUNS FIRST
Each run has a number, by which it is drawn: hostile.py PROGRAM FOLDER 1 N plays the run N alone.
"""
import multiprocessing
import os
import shutil
import sys

from judged import judge
from played import draw, play

program, folder = os.path.abspath(sys.argv[1]), os.path.abspath(sys.argv[2])
runs, first = int(sys.argv[3]), int(sys.argv[4])


def one(number):
    """What is wrong with the run of this number."""
    place = os.path.join(folder, 'run%d' % number)
    os.mkdir(place)
    try:
        plan = draw(number)
        done = play(plan, program, place, os.path.join(folder, 'moody.so'))
        return number, judge(plan, done), plan
    except Exception as error:
        return number, ['the test fails: %r' % error], None
    finally:
        shutil.rmtree(place, ignore_errors=True)


wrong = 0
with multiprocessing.Pool(2 * os.cpu_count() + 4) as pool:
    for number, faults, plan in pool.imap_unordered(one, range(first, first + runs)):
        if faults:
            wrong += 1
            print('run %d: %s' % (number, '; '.join(text[:300] for text in faults[:4])), flush=True)
            print('    %s' % (plan,), flush=True)
print('fanout: %d drawn runs, %d wrong' % (runs, wrong))
sys.exit(1 if wrong else 0)
