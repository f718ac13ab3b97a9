"""The line program as one open process: a line asked, its answer read."""

import subprocess
from dataclasses import dataclass
from pathlib import Path

ROOT = Path(__file__).resolve().parents[1]
RUNNER = ROOT / "tests" / "endakuro"
LONGEST_SHOWN = 200


class ProgramFailed(Exception):
    """The line program does not start, stops, or does not take a line that it should."""


@dataclass(frozen=True)
class Refusal:
    number: int
    record: int


class Refused(Exception):
    def __init__(self, refusal):
        super().__init__(f"refused {refusal.number} {refusal.record}")
        self.refusal = refusal


class Program:
    """Use as a context: the process ends with it. It starts with the first line, after `prepare` has built it, so that
    a bad file is told without either."""

    def __init__(self, prepare=lambda: None):
        self.prepare, self.process = prepare, None

    def __enter__(self):
        return self

    def start(self):
        self.prepare()
        # A session of its own: Ctrl-C is for the front end, which ends the program when it has tidied up.
        pipes = {"stdin": subprocess.PIPE, "stdout": subprocess.PIPE}
        try:
            self.process = subprocess.Popen([str(RUNNER)], start_new_session=True, **pipes)
        except OSError as fault:
            raise ProgramFailed(f"{RUNNER} does not start: {fault.strerror}") from fault

    def ready(self):
        """Up and answering, before anything is begun that must not be left half done."""
        self.ask("cpl", 0, 0, 0, 4)

    def __exit__(self, *_):
        if not self.process:
            return
        try:
            self.process.stdin.close()
        except BrokenPipeError:
            pass
        # An answer that nobody waits for any more is taken all the same: a write that fails would end in an error.
        self.process.stdout.read()
        self.process.stdout.close()
        self.process.wait()

    def answer(self, *words):
        """The answer's words to a line."""
        line = " ".join(str(word) for word in words)
        if not self.process:
            self.start()
        try:
            self.process.stdin.write(line.encode() + b"\n")
            self.process.stdin.flush()
            told = self.process.stdout.readline()
        except OSError as fault:
            raise ProgramFailed("the line program has stopped") from fault
        if not told.endswith(b"\n"):
            raise ProgramFailed("the line program has stopped")
        return told.decode("ascii").split()

    def ask(self, *words):
        """The values of an `ok`, as texts; a refusal is raised."""
        kind, *values = self.answer(*words)
        if kind == "ok":
            return values
        if kind == "refused":
            raise Refused(Refusal(int(values[0]), int(values[1])))
        line = " ".join(str(word) for word in words)
        raise ProgramFailed(f"the line program does not take this line: {line[:LONGEST_SHOWN]}")

    def numbers(self, *words):
        """The values of an `ok`, as numbers."""
        return [int(value) for value in self.ask(*words)]


def hexed(octets):
    return octets.hex() or "-"
