"""Has signals end what a test starts, also if whoever runs the test ignores them, as a shell does for what it runs in the background."""
import signal


def heed_signals():
    """What a process does before it becomes the program."""
    for number in (signal.SIGTERM, signal.SIGINT, signal.SIGHUP):
        signal.signal(number, signal.SIG_DFL)
