"""A look-up as a value that can be varied, the tables that it is asked of, and its line."""

import struct
from dataclasses import dataclass, replace
from typing import NamedTuple

from .ends import COMPRESSIBILITY, GRAVITY, TEMPERATURE
from .proving_days import within
from .shapes import hexed, line

ROW = struct.Struct("<hHHBB")
HALF = 5  # a half degree, in tenths
MOST = 4096  # records that can be lent

TEMPERATURES = range(TEMPERATURE[0], TEMPERATURE[1] + 1, HALF)
GRAVITIES = range(GRAVITY[0], GRAVITY[1] + 1, HALF)
FACTORS = range(COMPRESSIBILITY[0], COMPRESSIBILITY[1] + 1)


class Row(NamedTuple):
    """A record of the table, its last two bytes apart."""

    temperature: int
    gravity: int
    compressibility: int = 448
    byte_6: int = 0
    byte_7: int = 0

    @property
    def rank(self):
        """What the table rises by."""
        return self.gravity, self.temperature


@dataclass(frozen=True)
class LookUp:
    temperature: int
    gravity: int
    rows: tuple
    tail: bytes = b""

    @property
    def line(self):
        lent = b"".join(ROW.pack(*row) for row in self.rows) + self.tail
        return line("look_up", self.temperature, self.gravity, hexed(lent))

    @classmethod
    def read(cls, text):
        """The look-up that a line asks for."""
        _, temperature, gravity, table = text.decode("ascii").split(" ")
        lent = bytes.fromhex(table.removeprefix("-"))
        whole = len(lent) // ROW.size * ROW.size
        rows = tuple(map(Row._make, ROW.iter_unpack(lent[:whole])))
        return cls(int(temperature), int(gravity), rows, lent[whole:])

    def with_row(self, at, **fields):
        rows = list(self.rows)
        rows[at] = rows[at]._replace(**fields)
        return replace(self, rows=tuple(rows))

    def without_row(self, at):
        return replace(self, rows=self.rows[:at] + self.rows[at + 1 :])

    def asking(self, row):
        return replace(self, temperature=row.temperature, gravity=row.gravity)


def nearest(tenths):
    """The nearest half degree: two tenths go down, three go up, below zero too."""
    return (tenths + 2) // HALF * HALF


def rows_of(ranks, rng):
    """Records in the order of a table, no two with the same compressibility."""
    ranks = sorted(ranks)
    factors = rng.sample(FACTORS, len(ranks))
    return tuple(Row(t, g, factor) for (g, t), factor in zip(ranks, factors))


def any_rows(count, rng, temperatures=TEMPERATURES, gravities=GRAVITIES):
    """So many of all the pairs that there can be."""
    across = len(temperatures)
    places = rng.sample(range(across * len(gravities)), count)
    return rows_of(((gravities[at // across], temperatures[at % across]) for at in places), rng)


def beside(tenths, steps):
    """The nearest half degree, and of those beside it what a table can have."""
    middle = nearest(tenths)
    return [at for at in (middle - HALF, middle, middle + HALF) if at in steps]


def among_neighbours(temperature, gravity, rng):
    """Asked of a table that has all half degrees around it, each with its own compressibility."""
    ranks = (
        (by_gravity, by_temperature)
        for by_gravity in beside(gravity, GRAVITIES)
        for by_temperature in beside(temperature, TEMPERATURES)
    )
    return LookUp(temperature, gravity, rows_of(ranks, rng))


def without_its_own(look_up):
    """The same where only the neighbours are in the table."""
    pair = nearest(look_up.temperature), nearest(look_up.gravity)
    return replace(look_up, rows=tuple(row for row in look_up.rows if row[:2] != pair))


def asked_of(rows, rng):
    """One of the records, by any numbers that go to it."""
    row = rng.choice(rows)
    temperature = within(row.temperature + rng.randint(-2, 2), TEMPERATURE)
    return LookUp(temperature, within(row.gravity + rng.randint(-2, 2), GRAVITY), rows)
