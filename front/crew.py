"""Workers, a process each with a line program of its own, so that all cores work and a file that hangs stops none."""

import json
import os
import selectors
import signal
import subprocess
import sys
import time
from collections import deque
from dataclasses import asdict

from . import results
from .extras import Extras
from .outputs import NotWritten
from .program import ROOT, Program, ProgramFailed
from .unexpected import words_of

START = "import sys; sys.path.insert(0, sys.argv[1]); from front.crew import work; work(sys.argv[2])"
# What a worker has in hand: enough that it does not wait for the next.
IN_HAND = 16
# What a worker may take to start on a busy machine, in seconds; no file is to blame for that.
STARTING = 60
# And to end.
TIDYING = 3


def leave(*_):
    """Asked to end: what is half written goes with it. Asked again, it stays on its way out, without a word."""
    signal.signal(signal.SIGTERM, lambda *_: None)
    sys.exit(1)


def work(wanted="{}"):
    """A worker: a line when it is up, then a path a line in, its row a line out."""
    answers, sys.stdout = sys.stdout, sys.stderr
    signal.signal(signal.SIGTERM, leave)
    extras = Extras(**json.loads(wanted))
    print("{}", file=answers, flush=True)
    with Program() as program:
        for line in sys.stdin:
            try:
                told = results.worked(json.loads(line), program, extras)
            except (ProgramFailed, NotWritten) as failed:
                told = {"failed": str(failed)}
            except Exception as fault:
                told = {"outcome": results.SKIPPED, "words": words_of(fault), "unexpected": True}
            print(json.dumps(told), file=answers, flush=True)


class Worker:
    def __init__(self, extras):
        words = [sys.executable, "-c", START, str(ROOT), json.dumps(asdict(extras))]
        pipes = {"stdin": subprocess.PIPE, "stdout": subprocess.PIPE}
        # A session of its own: Ctrl-C is for the front end, which ends its workers when it has tidied up.
        self.process = subprocess.Popen(words, start_new_session=True, **pipes)
        self.in_hand, self.rest, self.since, self.is_up = deque(), b"", time.monotonic(), False

    def give(self, path):
        if not self.in_hand:
            self.since = time.monotonic()
        self.in_hand.append(path)
        try:
            self.process.stdin.write(json.dumps(path).encode() + b"\n")
            self.process.stdin.flush()
        except BrokenPipeError:
            # It has ended; that is seen when it is listened to.
            pass

    def told(self):
        """What it has told since: a path and its row each; None at its end."""
        got = os.read(self.process.stdout.fileno(), 1 << 16)
        *lines, self.rest = (self.rest + got).split(b"\n")
        self.since = time.monotonic()
        if lines and not self.is_up:
            self.is_up = bool(lines.pop(0))
        return [(self.in_hand.popleft(), json.loads(line)) for line in lines] if got else None

    def left(self, patience):
        """The seconds that it still has for the file in hand."""
        return self.since + patience + (0 if self.is_up else STARTING) - time.monotonic()

    def end(self):
        """It may tidy up first; one that does not even die is not waited for."""
        self.process.terminate()
        try:
            self.process.wait(TIDYING)
        except subprocess.TimeoutExpired:
            self.process.kill()
        for pipe in (self.process.stdin, self.process.stdout):
            try:
                pipe.close()
            except BrokenPipeError:
                pass


class Crew:
    """Use as a context. `patience` is how many seconds a file may take."""

    def __init__(self, count, patience, extras=Extras()):
        self.patience, self.extras = patience, extras
        self.workers = [Worker(extras) for _ in range(count)]

    def __enter__(self):
        return self

    def __exit__(self, *_):
        for worker in self.workers:
            worker.process.terminate()
        for worker in self.workers:
            worker.end()

    def rows(self, paths, stopped):
        """Each path with its row, as they come. Once `stopped()`, what is in hand is ended and nothing more begun."""
        waiting = deque(paths)
        while True:
            for worker in self.workers:
                while waiting and len(worker.in_hand) < IN_HAND and not stopped():
                    worker.give(waiting.popleft())
            busy = [worker for worker in self.workers if worker.in_hand]
            if not busy:
                return
            for worker in self.ready(busy):
                told = worker.told()
                yield from told if told is not None else self.lost(worker, waiting, "its worker ended")
            for worker in busy:
                if worker.in_hand and worker.left(self.patience) < 0:
                    yield from self.lost(worker, waiting, f"no answer in {self.patience} seconds")

    def ready(self, busy):
        with selectors.DefaultSelector() as selector:
            for worker in busy:
                selector.register(worker.process.stdout, selectors.EVENT_READ, worker)
            first = min(worker.left(self.patience) for worker in busy)
            return [key.data for key, _ in selector.select(max(first, 0))]

    def lost(self, worker, waiting, why):
        """The job in hand is skipped, the others go to a new worker."""
        first, *others = worker.in_hand or [None]
        waiting.extendleft(reversed(others))
        worker.in_hand.clear()
        worker.end()
        self.workers[self.workers.index(worker)] = Worker(self.extras)
        if first is not None:
            yield first, {"outcome": results.SKIPPED, "words": why}
