"""Runs fanout, and reads its report."""
import json
import os
import subprocess
import sys

sys.path.append(os.path.realpath(f'{os.path.dirname(os.path.realpath(__file__))}/..'))
from heed import heed_signals

# How long anything may take, on a machine that has much else to do.
SECONDS = 600


class Run:
    """A run that has ended: its status, and what it wrote on standard output and in its report."""

    def __init__(self, status, output, said):
        self.status = status
        self.output = output
        self.said = said
        self.report = None
        for line in said.splitlines():
            if line.startswith(b'{'):
                self.report = json.loads(line)

    def sink(self, name):
        """The row of a sink in the report."""
        return next(row for row in self.report['sinks'] if row['name'] == name)

    def source(self, name='-'):
        """The row of a source in the report."""
        return next(row for row in self.report['sources'] if row['name'] == name)


class Driver:
    """Runs the program in a folder."""

    def __init__(self, program, folder):
        self.program = os.path.abspath(program)
        self.folder = folder

    def path(self, name):
        return os.path.join(self.folder, name)

    def read(self, name):
        """The bytes of a file; none if it isn't there yet."""
        if not os.path.exists(self.path(name)):
            return b''
        with open(self.path(name), 'rb') as file:
            return file.read()

    def size(self, name):
        """How many bytes a file has; none if it isn't there yet."""
        return os.path.getsize(self.path(name)) if os.path.exists(self.path(name)) else 0

    def start(self, *words, before=None, form='json', **options):
        """Starts a run with a report, in JSON. `before` is called in the new process before it is the program."""
        def prepare():
            heed_signals()
            if before:
                before()

        command = [self.program, *words, '--report', form]
        for name in ('stdin', 'stdout', 'stderr'):
            options.setdefault(name, subprocess.PIPE)
        return subprocess.Popen(command, cwd=self.folder, preexec_fn=prepare, **options)

    def end(self, process, data=None):
        """Waits for the end of a run, which is handed this input before."""
        if process.stdin and process.stdin.closed:
            process.stdin = None
        output, said = process.communicate(data, timeout=SECONDS)
        return Run(process.returncode, output, said)

    def run(self, data, *words, **options):
        return self.end(self.start(*words, **options), data)

    def plain(self, data, *words, **options):
        """A run with these words alone."""
        options.setdefault('stdout', subprocess.PIPE)
        options.setdefault('stderr', subprocess.PIPE)
        done = subprocess.run([self.program, *words], cwd=self.folder, input=data, timeout=SECONDS, **options)
        return done.returncode, done.stdout, done.stderr

    def write(self, name, data):
        with open(self.path(name), 'wb') as file:
            file.write(data)

    def pipe(self, name):
        """Makes a named pipe, and opens it for reading at once."""
        os.mkfifo(self.path(name))
        return os.open(self.path(name), os.O_RDONLY | os.O_NONBLOCK)
