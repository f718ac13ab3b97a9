"""Where the steps of a book session come from: a file, which is checked whole before the first is done, a pipe, or the
keyboard, with history and editing."""

import sys

from .badfile import BadFile, Fault
from .book_steps import BadStep, step_of
from .jobfiles import File, octets_of

PROMPT = "book> "
MARK = "\ufeff"
ALONE = ("quit", "exit", "help")


class Steps:
    """The lines of a source that hold a step, each with its number."""

    keyboard = False

    def __init__(self, name, lines):
        self.name, self.lines = name, lines

    def steps(self):
        for place, text in enumerate(self.lines, 1):
            text = text.removeprefix(MARK).strip()
            if text and not text.startswith("#"):
                yield place, text

    def bad(self, faults):
        """Lines that are no steps."""
        return BadFile("", "", "", [Fault(self.name, place, "", str(told)) for place, told in faults.items()])


def of_file(path):
    file = File(path, octets_of(path), "steps, a line each")
    source = Steps(file.path, file.lines)
    faults = {}
    for place, text in source.steps():
        if text in ("quit", "exit"):
            break
        try:
            step_of(text) if text not in ALONE else None
        except BadStep as bad:
            faults[place] = bad
    if faults:
        raise source.bad(faults)
    return source


class Keyboard(Steps):
    keyboard = True

    def __init__(self):
        try:
            # Python's input has history and editing once this is there.
            import readline
        except ImportError:
            pass
        super().__init__("keyboard", self.typed())

    def typed(self):
        while True:
            try:
                yield input(PROMPT)
            except EOFError:
                print()
                return


def of_standard_input():
    if not sys.stdin:
        raise BadFile("standard input", "", "is closed: expected steps, or the name of a session file")
    return Keyboard() if sys.stdin.isatty() else Steps("standard input", sys.stdin)
