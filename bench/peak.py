"""Prints how many KiB of memory a program has at its peak: peak.py SCRIPT OUTPUT PROGRAM WORD.., which reads SCRIPT and writes OUTPUT.
The number is at least what Python has itself, since the program begins as a copy of it."""

import resource
import subprocess
import sys

with open(sys.argv[1], "rb") as script, open(sys.argv[2], "wb") as output:
    subprocess.run(sys.argv[3:], stdin=script, stdout=output, check=True)
print(resource.getrusage(resource.RUSAGE_CHILDREN).ru_maxrss)
