"""Brokers and machines of the rows: each machine is a folder in which a command of docs/MACHINES.md runs."""
import os
import queue
import re
import signal
import socket
import subprocess
import sys
import threading
import time

here = os.path.dirname(os.path.realpath(__file__))
sys.path.append(os.path.realpath(f'{here}/..'))
from heed import heed_signals

TOP = os.path.realpath(f'{here}/../..')
# How many seconds a wait may take during which nothing moves, and how many at all.
STILL = 180
MOST = 900


def blocks():
    """The commands of docs/MACHINES.md, by the names that stand behind ```sh."""
    with open(f'{TOP}/docs/MACHINES.md') as file:
        return dict(re.findall(r'(?ms)^```sh ([a-z-]+)\n(.*?)^```$', file.read()))


RECIPES = blocks()


def wait_for(condition, moved=lambda: None):
    """Whether this comes true, while what moves does so."""
    begun = last = time.monotonic()
    before = moved()
    while not condition():
        now, after = time.monotonic(), moved()
        if after != before:
            last, before = now, after
        if now - last > STILL or now - begun > MOST:
            return False
        time.sleep(0.1)
    return True


class Broker:
    """A broker in a folder of its own, which can be killed and started again."""

    def __init__(self, name, folder):
        self.name, self.folder, self.process = name, folder, None

    def start(self):
        """Starts it, and waits until it takes connections."""
        os.makedirs(self.folder, exist_ok=True)
        with open(f'{self.folder}/said', 'ab') as said:
            self.process = subprocess.Popen(['nice', '-n', '10', f'{TOP}/tools/machines.sh', 'serve', self.name, self.folder],
                                            stdin=subprocess.DEVNULL, stdout=said, stderr=said, preexec_fn=heed_signals)
        wait_for(lambda: self.is_up() or self.process.poll() is not None, self.worked)
        if self.process.poll() is not None or not self.is_up():
            raise OSError(f'{self.name} was not started: {self.folder}/said')

    def worked(self):
        """What the broker said, and how long it had a processor."""
        try:
            with open(f'/proc/{self.process.pid}/stat') as file:
                times = file.read().rsplit(') ', 1)[1].split()[11:13]
        except OSError:
            times = None
        return os.path.getsize(f'{self.folder}/said'), times

    def is_up(self):
        try:
            with open(f'{self.folder}/port') as file:
                self.port = int(file.read() or 0)
            socket.create_connection(('127.0.0.1', self.port), 1).close()
            return self.port != 0
        except (OSError, ValueError):
            return False

    def signal(self, number):
        self.process.send_signal(number)

    def kill(self):
        """Kills it: it has no chance to save anything."""
        self.process.kill()
        self.process.wait()

    def end(self):
        if self.process is not None and self.process.poll() is None:
            self.kill()


class Machine:
    """A machine: a folder in which one command runs, and the processes of that."""

    options = []

    def __init__(self, folder, program, broker, **variables):
        self.folder = folder
        os.makedirs(f'{folder}/bin')
        os.symlink(program, f'{folder}/bin/fanout')
        self.variables = {**os.environ, 'HOST': '127.0.0.1', 'PORT': str(broker.port), 'PATH': f'{folder}/bin:{os.environ["PATH"]}',
                          **variables}
        self.process = None

    def path(self, name):
        return f'{self.folder}/{name}'

    def run(self, recipe):
        """Starts a command of the page, in a group of processes of its own. If it is to send, no part of it may fail; the status of one that
        receives is that of fanout, since the rest is ended."""
        text = RECIPES.get(recipe.split('-')[0], '') + RECIPES[recipe]
        with open(self.path('said'), 'ab') as said:
            self.process = subprocess.Popen(['nice', '-n', '10', 'bash', *self.options, '-c', text], cwd=self.folder, env=self.variables, stdout=said,
                                            stderr=said, stdin=subprocess.DEVNULL, start_new_session=True, preexec_fn=heed_signals)

    def others(self):
        """The processes of the command, apart from its shell and from fanout."""
        found = []
        for name in filter(str.isdigit, os.listdir('/proc')):
            try:
                with open(f'/proc/{name}/stat') as file:
                    head, rest = file.read().rsplit(') ', 1)
            except OSError:
                continue
            state, _, group = rest.split()[:3]
            if int(group) == self.process.pid and int(name) != self.process.pid and state != 'Z' and not head.endswith('(fanout'):
                found.append(int(name))
        return found

    def signal(self, number):
        """Signals the whole machine."""
        os.killpg(self.process.pid, number)

    def wait(self):
        """The status of the command, once it has ended; or None."""
        return self.process.returncode if wait_for(lambda: self.process.poll() is not None, self.moved) else None

    def moved(self):
        return [os.path.getsize(self.path(name)) for name in sorted(os.listdir(self.folder)) if name.endswith('.log')]

    def lines(self, name='b.log'):
        if not os.path.exists(self.path(name)):
            return []
        with open(self.path(name), 'rb') as file:
            return file.read().split(b'\n')[:-1]

    def end(self):
        """Ends it, whatever it does."""
        if self.process is not None:
            try:
                self.signal(signal.SIGKILL)
            except ProcessLookupError:
                pass
            self.process.wait()


class Sender(Machine):
    """Machine A: two sources, which are pipes."""

    options = ['-o', 'pipefail']

    def __init__(self, *words, **variables):
        super().__init__(*words, **variables)
        self.queues = {}
        self.taken = 0

    def run(self, recipe):
        """Starts the command, and a thread for each source, which writes what it is fed."""
        for name in 'ab':
            os.mkfifo(self.path(name))
        super().run(recipe)
        for name in 'ab':
            self.queues[name] = queue.Queue()
            threading.Thread(target=self.write, args=(self.path(name), self.queues[name]), daemon=True).start()

    def write(self, path, parts):
        """Writes what comes through a queue up to None into a pipe, in pieces that a pipe takes at once."""
        try:
            with open(path, 'wb', buffering=0) as pipe:
                while (part := parts.get()) is not None:
                    for at in range(0, len(part), 4096):
                        pipe.write(part[at:at + 4096])
                        self.taken += len(part[at:at + 4096])
        except BrokenPipeError:
            pass

    def feed(self, sent):
        """Has the threads write the lines of both sources."""
        for name, lines in sent.items():
            self.queues[name].put(b''.join(line + b'\n' for line in lines))

    def close(self):
        """Ends the sources, and gives the status of the command."""
        for parts in self.queues.values():
            parts.put(None)
        return self.wait()

    def moved(self):
        return self.taken


class Receiver(Machine):
    """Machine B: a file that waits, and a screen, which nobody reads before the end."""

    def __init__(self, *words, **variables):
        super().__init__(*words, **variables)
        self.size, self.kept = -1, []
        os.mkfifo(self.path('screen'))
        self.screen = os.open(self.path('screen'), os.O_RDONLY | os.O_NONBLOCK)
        self.seen = []

    def holds(self, count):
        """Waits until its file has this many lines, apart from probes."""
        return wait_for(lambda: len(self.told()) >= count, self.moved)

    def told(self):
        """The whole lines of its file, apart from probes."""
        size = os.path.getsize(self.path('b.log')) if os.path.exists(self.path('b.log')) else 0
        if size != self.size:
            self.size, self.kept = size, [line for line in self.lines() if not line.startswith(b'probe')]
        return self.kept

    def has(self, line):
        return wait_for(lambda: line in self.lines(), self.moved)

    def read_screen(self):
        """Reads what is there. Whether nobody writes to it any more."""
        while True:
            try:
                part = os.read(self.screen, 65536)
            except OSError:
                return False
            if not part:
                return True
            self.seen.append(part)

    def finish(self):
        """Ends what reads from the broker: then fanout has its end. Gives the status of the command."""
        os.set_blocking(self.screen, True)
        reader = threading.Thread(target=self.read_screen, daemon=True)
        reader.start()
        self.signal(signal.SIGCONT)

        def alone():
            for pid in self.others():
                try:
                    os.kill(pid, signal.SIGTERM)
                except ProcessLookupError:
                    pass
            return not self.others()

        wait_for(alone)
        status = self.wait()
        reader.join(STILL)
        return status

    def shown(self):
        return b''.join(self.seen)

    def end(self):
        super().end()
        os.close(self.screen)
