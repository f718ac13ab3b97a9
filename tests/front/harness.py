"""Counting what is checked, and running the front end as people do."""

import contextlib
import io
import os
import pty
import select
import subprocess
import time
from pathlib import Path
from unittest import mock

ROOT = Path(__file__).resolve().parents[2]
LAUNCHER = ROOT / "endakuro"
MOST_SHOWN, LONGEST = 5, 600


class Tally:
    """One test's checks: the first wrong ones are printed, all are counted."""

    def __init__(self, name):
        self.name, self.checked, self.wrong = name, 0, 0

    def check(self, right, words):
        self.checked += 1
        if not right:
            self.wrong += 1
            if self.wrong <= MOST_SHOWN:
                print(f"{self.name}: {words}")
        return right

    def same(self, found, expected, words):
        return self.check(found == expected, f"{words}: expected {expected!r}, found {found!r}")

    def holds(self, text, part, words):
        return self.check(part in text, f"{words}: expected {part!r} in {text[-LONGEST:]!r}")


def run(*words, given="", folder="/", env=None):
    """A command's exit status, output and complaints; from another folder than the repository's."""
    done = subprocess.run(
        [str(LAUNCHER), *map(str, words)], input=given, capture_output=True, text=True, cwd=folder, env=env, timeout=120
    )
    return done.returncode, done.stdout, done.stderr


def called(*words, given=""):
    """The same without processes of its own, which is quicker where there are many."""
    from inside import main

    read = io.TextIOWrapper(io.BytesIO(given.encode()), encoding="utf-8")
    out, err = (io.TextIOWrapper(io.BytesIO(), encoding="utf-8", write_through=True) for _ in range(2))
    with contextlib.redirect_stdout(out), contextlib.redirect_stderr(err), mock.patch("sys.stdin", read):
        status = main([str(word) for word in words])
    return status, *(stream.buffer.getvalue().decode() for stream in (out, err))


def at_terminal(command, typed="", seconds=60, folder="/", env=None):
    """The same on a terminal: what is shown on it, and the exit status."""
    mine, theirs = pty.openpty()
    process = subprocess.Popen(command, stdin=theirs, stdout=theirs, stderr=theirs, cwd=folder, env=env, close_fds=True)
    os.close(theirs)
    os.write(mine, typed.encode())
    shown, end = b"", time.monotonic() + seconds
    while time.monotonic() < end:
        ready, _, _ = select.select([mine], [], [], 0.2)
        if ready:
            try:
                got = os.read(mine, 65536)
            except OSError:
                break
            if not got:
                break
            shown += got
        elif process.poll() is not None:
            break
    process.wait(10)
    os.close(mine)
    return process.returncode, shown.decode("utf-8", "replace").replace("\r\n", "\n")
