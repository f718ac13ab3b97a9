"""The faults of bidirectional draws that must be reached: each of them, and of every two the one
that is answered."""

from itertools import product

from faults import (
    FIELD,
    GROUP,
    MANY,
    NUMBERS,
    ODD,
    OF_COUNT,
    OF_LENGTH,
    OF_RECORDS,
    PASS,
    PASSES,
    PRESSURE,
    SETTING,
    UNNAMED,
    Fault,
)
from outcomes import OK
from round_trips import first_three

LATER, TOGETHER = "of a later record", "of the same record"


def order(first, other, *place):
    return " ".join((first, "before", other, *place))


def reached(draw, found, trips):
    """Of the faults found and, where the round trips can be told, that no three of them agree."""
    yield f"{len(draw.fills)} fills"
    if trips and first_three(trips.trips[: PASSES[-1] // 2]) is None:
        found = [*found, Fault(GROUP)]
    if not found:
        return
    first, *others = found
    yield first.kind
    if first.record:
        number = draw.fills[first.record - 1].pass_number
        yield f"{first.kind} {'out' if number % 2 else 'back'}"
    for other in others:
        if first.record and other.record:
            place = TOGETHER if first.record == other.record else LATER
            yield order(first.kind, other.kind, place)
        else:
            yield order(first.kind, other.kind)


def orders():
    """Every two faults that can be told apart, the one that is answered first."""
    for first in OF_LENGTH:
        yield from ((first, other) for other in (SETTING, *OF_RECORDS))
    yield from ((SETTING, other) for other in (*OF_RECORDS, *OF_COUNT))
    yield from product(OF_RECORDS, OF_COUNT)
    yield from ((*two, LATER) for two in product(OF_RECORDS, repeat=2))
    yield FIELD, UNNAMED, TOGETHER
    # a record breaks the rule of passes in one way or in the other
    yield from ((*two, TOGETHER) for two in product((FIELD, UNNAMED), (PASS, PRESSURE)))


def wanted(entry):
    yield from ((number, kind) for kind, number in NUMBERS.items() if kind != GROUP)
    for kind in OF_RECORDS:
        yield from ((NUMBERS[kind], f"{kind} {way}") for way in ("out", "back"))
    yield from ((NUMBERS[first], order(first, *other)) for first, *other in orders())
    # how many fills there are is judged first, how many passes last
    yield from ((1, "2 fills"), (1, "61 fills"), (OK, "60 fills"))
    yield from ((number, f"{fills} fills") for fills in (3, 60) for number in (3, 5, 2, 6, 1))
    if entry == "bidirectional":
        yield NUMBERS[GROUP], GROUP
        yield from ((NUMBERS[first], order(first, GROUP)) for first in (UNNAMED, ODD, MANY))
