"""The places of the book: what it holds, and how a sound one is asked of the program and shown."""

from dataclasses import dataclass

from .fields import CEILING, RESERVE
from .program import Refused

SHIPPERS, PLACES = 4, 16


@dataclass(frozen=True)
class Figures:
    """Reserve and ceiling of each shipper."""

    reserves: tuple
    ceilings: tuple

    @classmethod
    def of(cls, eight):
        """As steps and lines have them: the four reserves, then the four ceilings."""
        return cls(tuple(eight[:SHIPPERS]), tuple(eight[SHIPPERS:]))

    @property
    def words(self):
        return *self.reserves, *self.ceilings


DEFAULT = Figures.of([RESERVE.default] * SHIPPERS + [CEILING.default] * SHIPPERS)


@dataclass(frozen=True)
class Book:
    """The shipper last served, each shipper's waiting numbers in order, the figures."""

    last: int
    lines: tuple
    figures: Figures

    @property
    def counts(self):
        return tuple(len(line) for line in self.lines)

    @property
    def words(self):
        """The operands of the program's line load: every place, the unused ones zero."""
        places = (place for line in self.lines for place in [*line] + [0] * (PLACES - len(line)))
        return self.last, *self.counts, *self.figures.words, *places


@dataclass(frozen=True)
class Sound(Book):
    """A sound book, with its commons and how many of them are in use."""

    commons: int
    used: int


def asked(program):
    """The program's book, None where it is not sound."""
    try:
        last, *rest = program.numbers("book")
        *eight, commons, used = program.numbers("figures")
    except Refused:
        return None
    lines = []
    for _ in range(SHIPPERS):
        count, *rest = rest
        lines.append(tuple(rest[:count]))
        rest = rest[count:]
    return Sound(last, tuple(lines), Figures.of(eight), commons, used)


def shown(book):
    """A line a shipper. Its numbers come last, so that the columns stand however many wait."""
    if book is None:
        return ["  the book is not sound"]
    figures = (book.figures.reserves, book.figures.ceilings, book.counts)
    columns = zip(*(aligned(column) for column in figures), book.lines)
    told = [
        f"  shipper {who}  reserve {reserve}  ceiling {ceiling}  {count} waiting{listed(line)}"
        for who, (reserve, ceiling, count, line) in enumerate(columns)
    ]
    return [*told, f"  commons: {book.used} of {book.commons} in use", f"  last served: shipper {book.last}"]


def aligned(column):
    width = max(len(str(each)) for each in column)
    return [str(each).rjust(width) for each in column]


def listed(line):
    return f": {' '.join(map(str, line))}" if line else ""
