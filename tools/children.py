"""children.py: starts programs, and ends them where a signal asks for the end. No program of its own."""
import os
import signal
import subprocess
import threading

SIGNALS = signal.SIGINT, signal.SIGTERM, signal.SIGHUP
LOCK, RUNNING, ENDS = threading.Lock(), set(), threading.Event()


class Stopped(Exception):
    """A signal, whose number it has, asks for the end."""


def watch_signals():
    """From here on the first of these signals raises Stopped in the main thread; those after it do nothing."""

    def stop(number, _):
        for it in SIGNALS:
            signal.signal(it, signal.SIG_IGN)
        raise Stopped(number)

    for it in SIGNALS:
        signal.signal(it, stop)


def run(words, folder, given=os.devnull, stderr=subprocess.PIPE):
    """Runs a program in the folder, and returns its status, its output and what it wrote to standard error."""
    with open(given, "rb") as stdin:
        with LOCK:
            if ENDS.is_set():
                return 1, b"", b""
            started = subprocess.Popen(words, cwd=folder, stdin=stdin, stdout=subprocess.PIPE, stderr=stderr)
            RUNNING.add(started)
        try:
            wrote, said = started.communicate()
        finally:
            RUNNING.discard(started)
    return started.returncode, wrote, said


def end_all():
    """Starts nothing more, and ends what runs: rt ends what it began itself, and only where it doesn't within ten seconds it is killed."""
    with LOCK:
        ENDS.set()
        left = list(RUNNING)
    for it in left:
        it.terminate()
    for it in left:
        try:
            it.wait(10)
        except subprocess.TimeoutExpired:
            it.kill()
