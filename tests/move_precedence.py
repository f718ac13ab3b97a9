"""The faults of moves that must be reached: each alone and at each place, and of every two the one
that is answered."""

from itertools import product

from cases.move_shapes import BACK, MOST
from move_faults import (
    CUT_SHORT,
    FIELD,
    FRACTION,
    LENGTHS,
    MANY,
    NO_RECORD,
    NUMBERS,
    OF_RECORDS,
    UNNAMED,
)
from precedence import LATER, TOGETHER, order

FIRST, MIDDLE, LAST = "at the first of some", "in the middle", "at the last of some"
ONLY, LAST_OF_ALL = "of the only record", f"at record {MOST}"
PLACES = (ONLY, FIRST, MIDDLE, LAST, LAST_OF_ALL)


def alone(kind):
    return f"{kind} alone"


def place_of(record, count):
    if count == 1:
        return ONLY
    if record == MOST:
        return LAST_OF_ALL
    return FIRST if record == 1 else LAST if record == count else MIDDLE


def reached(asked, found):
    """Of the faults found."""
    if not found:
        return
    first, *others = found
    if not others:
        yield alone(first.kind)
        if first.record:
            yield f"{first.kind} {place_of(first.record, len(asked.records))}"
    for other in others:
        if not (first.record and other.record):
            yield order(first.kind, other.kind)
        else:
            where = TOGETHER if first.record == other.record else LATER
            yield order(first.kind, other.kind, where)


def orders(way):
    """Every two faults that can be told apart, the one that is answered first."""
    of_records = OF_RECORDS[way]
    yield from product((LENGTHS,), (CUT_SHORT, NO_RECORD, MANY, *of_records))
    yield from product((CUT_SHORT, MANY), of_records)
    yield CUT_SHORT, NO_RECORD
    yield from ((*two, LATER) for two in product(of_records, repeat=2))
    yield FIELD, UNNAMED, TOGETHER
    if way == BACK:
        yield from ((*two, TOGETHER) for two in product((FIELD, UNNAMED), (FRACTION,)))


def wanted(way):
    kinds = (LENGTHS, CUT_SHORT, NO_RECORD, MANY, *OF_RECORDS[way])
    yield from ((NUMBERS[kind], alone(kind)) for kind in kinds)
    for kind, where in product(OF_RECORDS[way], PLACES):
        yield NUMBERS[kind], f"{kind} {where}"
    yield from ((NUMBERS[first], order(first, *other)) for first, *other in orders(way))
