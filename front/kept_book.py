"""A book that is kept between sessions: a file of one step, load, written whole after each change."""

import os

from . import outputs
from .badfile import BadFile
from .book_steps import BadStep, load_text, step_of
from .hints import plain
from .jobfiles import File, octets_of

HEAD = """\
# The book of waiting requests; ./endakuro book --keep goes on from it.
# Last served, the lines of shippers 0 to 3, their reserves, their ceilings.
"""


class NoBook:
    """Nothing is kept."""

    def begin(self, desk):
        pass

    def save(self, book):
        return []


class KeptBook:
    def __init__(self, path):
        # The file's bytes as they were last seen, and the book that they hold; None where there is none.
        self.path, self.content, self.book = path, None, None
        self.notes = HEAD

    def begin(self, desk):
        """The book of the file, made the desk's. A file that is not there, or is empty, is a new book."""
        if self.path == outputs.STANDARD or outputs.is_special(self.path):
            raise BadFile(self.path, "--keep", "is no file: expected one that can be kept")
        if not os.path.exists(self.path):
            return
        self.content = octets_of(self.path)
        lines = File(self.path, self.content).lines
        steps = [line for line in lines if line.strip() and not line.startswith("#")]
        if len(steps) > 1 or not all(step.startswith("load ") for step in steps):
            raise self.no_book("expected one that book --keep has written, or a new file")
        # What somebody has noted there stays.
        self.notes = "".join(f"{line}\n" for line in lines if line.startswith("#")) or HEAD
        for step in steps:
            try:
                desk.do(step_of(step))
            except BadStep as bad:
                raise self.no_book(bad) from bad
            self.book = desk.book()
            if not self.book:
                raise self.no_book(f"it is not sound: {'; '.join(desk.broken())}")

    def no_book(self, why):
        return BadFile(self.path, "--keep", f"holds no kept book: {why}")

    def save(self, book):
        """The book as it stands, if it changed: a file without figures stays as it is until then. What is to be said
        of it."""
        if book is None:
            return [f"  the book is not sound: {plain(self.path)} keeps the last one that was"]
        if book == self.book:
            return []
        now = octets_of(self.path) if os.path.exists(self.path) else None
        if now != self.content:
            raise outputs.NotWritten(self.path, "another session has changed it since; its book stays")
        content = f"{self.notes}{load_text(book)}\n".encode()
        outputs.write(self.path, content)
        self.content, self.book = content, book
        return []
