"""How far a long work has come: on a terminal a bar with the seconds passed, redrawn until it ends; else nothing."""

import os
import sys
import threading
import time

WIDTH = 30
EACH_SECONDS = 1.0
CLEAR = "\r\x1b[K"


def bar(done, total):
    """A bar as wide as always, filled by the share that is done."""
    filled = WIDTH * done // total
    return "[" + "#" * filled + "." * (WIDTH - filled) + "]"


def say(line, out):
    """A line of a work that goes on, though whoever reads its lines has gone, as head does."""
    try:
        print(line, file=out, flush=True)
    except BrokenPipeError:
        silence(out or sys.stdout)


def silence(stream):
    """Nothing more goes to a stream whose reader has gone, at exit neither."""
    os.dup2(os.open(os.devnull, os.O_WRONLY), stream.fileno())


class Ticker:
    def __init__(self, total, what, err, out=None):
        self.total, self.what, self.err, self.out = total, what, err, out
        self.done, self.began = 0, time.monotonic()
        self.shows = err.isatty()
        self.over, self.drawing = threading.Event(), threading.Lock()
        self.thread = threading.Thread(target=self.run, daemon=True)
        if self.shows:
            self.draw()
            self.thread.start()

    def run(self):
        while not self.over.wait(EACH_SECONDS):
            self.draw()

    def draw(self):
        told = f"{self.done} of {self.total} {self.what}, {int(time.monotonic() - self.began)} s"
        with self.drawing:
            print(f"{CLEAR}{bar(self.done, self.total)} {told}", end="", file=self.err, flush=True)

    def say(self, line):
        """A line above the bar."""
        with self.drawing:
            if self.shows:
                print(CLEAR, end="", file=self.err, flush=True)
            say(line, self.out)

    def end(self):
        if self.shows:
            self.over.set()
            self.thread.join()
            self.draw()
            print(file=self.err, flush=True)
