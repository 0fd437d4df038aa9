"""Cuts scripts after each of their bytes, and compares what the program answers with the definition of scripts.

usage: cut.py PROGRAM SCRIPT..
"""

import io
import os
import subprocess
import sys

sys.dont_write_bytecode = True
HERE = os.path.dirname(os.path.realpath(__file__))
sys.path.insert(0, f"{HERE}/../refused_memory")
from definition import play


def answer(text):
    """What the definition answers."""
    return b"".join(play(io.BytesIO(text).readlines())[0])


def wrong(program, text):
    """What is wrong with the program's answers, if anything is."""
    try:
        ran = subprocess.run([program, "script"], input=text, capture_output=True, timeout=600)
    except subprocess.TimeoutExpired:
        return "it had not ended after ten minutes"
    if (ran.returncode, ran.stdout, ran.stderr) == (0, answer(text), b""):
        return None
    return f"status {ran.returncode}, output {ran.stdout!r:.200}, standard error {ran.stderr!r:.100}"


def main(program, *files):
    count = 0
    for file in files:
        with open(file, "rb") as it:
            text = it.read()
        for at in range(len(text) + 1):
            count += 1
            why = wrong(program, text[:at])
            if why:
                print(f"{file}, cut after {at} bytes: {why}")
                return 1
    print(f"{count} scripts that are cut are answered as they are")
    return 0 if count else 1


if __name__ == "__main__":
    sys.exit(main(*sys.argv[1:]))
