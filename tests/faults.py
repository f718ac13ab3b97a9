"""The faults of a bidirectional draw, each found whatever others there are."""

from typing import NamedTuple

from cases import ends
from cases.shapes import NAMED

FILLS = range(3, 61)
PASSES = range(6, 21, 2)

NOT_WHOLE, FEW_FILLS, MANY_FILLS = "records not whole", "too few fills", "too many fills"
SETTING = "a setting"
FIELD, UNNAMED = "a field", "an unnamed byte"
PASS, PRESSURE = "a pass", "a second pressure in a pass"
FEW, ODD, MANY = "too few passes", "an odd count of passes", "too many passes"
GROUP = "no group"  # what the passes come to, and no matter of this module

OF_LENGTH = (NOT_WHOLE, FEW_FILLS, MANY_FILLS)
OF_RECORDS = (FIELD, UNNAMED, PASS, PRESSURE)
OF_COUNT = (FEW, ODD, MANY)
NUMBERS = {
    **dict.fromkeys(OF_LENGTH, 1),
    SETTING: 3,
    **dict(zip(OF_RECORDS, (5, 2, 6, 6))),
    **dict.fromkeys(OF_COUNT, 1),
    GROUP: 9,
}

PIPE = {name: ends.PROVER[name] for name in ("inside", "wall", "modulus")}
CERTIFICATE = {"certificate": ends.PROVER["certificate"]}


class Fault(NamedTuple):
    kind: str
    record: int = 0


def in_range(values, table):
    """Whether all that the table names are."""
    return all(low <= getattr(values, name) <= high for name, ((low, high), _) in table.items())


def is_metal(prover):
    """One of the four, or no name and a certificate, which wins over a name."""
    if prover.certificate:
        return prover.metal <= len(NAMED) and in_range(prover, CERTIFICATE)
    return prover.metal < len(NAMED)


def faults(draw):
    """All of them, in the order in which they are to be found."""
    if draw.tail:
        yield Fault(NOT_WHOLE)
    if len(draw.fills) not in FILLS:
        yield Fault(FEW_FILLS if len(draw.fills) < FILLS[0] else MANY_FILLS)
    if not (is_metal(draw.prover) and in_range(draw.prover, PIPE)):
        yield Fault(SETTING)
    number, pressure = 0, None
    for record, fill in enumerate(draw.fills, 1):
        if not in_range(fill, ends.FILL):
            yield Fault(FIELD, record)
        if fill.byte_17 or any(fill.unnamed):
            yield Fault(UNNAMED, record)
        if record > 1 and fill.pass_number == number:
            if fill.pressure != pressure:
                yield Fault(PRESSURE, record)
        elif fill.pass_number != number + 1:
            yield Fault(PASS, record)
        number, pressure = fill.pass_number, fill.pressure
    if number not in PASSES:
        yield Fault(FEW if number < PASSES[0] else MANY if number > PASSES[-1] else ODD)
