"""The faults of a look-up, each found whatever others there are."""

from itertools import pairwise

from cases import ends
from cases.lookup_shapes import HALF, MOST, nearest
from faults import Fault

# What is answered.
LENGTH, RECORD, ASKED, MISSING = 1, 32, 13, 33

CUT_SHORT, NO_RECORD, MANY = "a record cut short", "no record", "too many records"
COLD, HOT = "a temperature too low", "a temperature too high"
GRAVITY, FACTOR = "a gravity too high", "a compressibility too high"
OFF_TEMPERATURE = "a temperature off the half degree"
OFF_GRAVITY = "a gravity off the half degree"
BYTE_6, BYTE_7 = "byte 6", "byte 7"
GRAVITY_FALLS, TEMPERATURE_FALLS = "a gravity that falls", "a temperature that falls"
TWICE = "a pair twice"
ASKED_COLD, ASKED_HOT = "a temperature asked too low", "a temperature asked too high"
ASKED_GRAVITY = "a gravity asked too high"
NO_PAIR = "no such pair"

OF_LENGTH = (CUT_SHORT, NO_RECORD, MANY)
OF_FIELDS = (COLD, HOT, GRAVITY, FACTOR, OFF_TEMPERATURE, OFF_GRAVITY, BYTE_6, BYTE_7)
OF_ORDER = (GRAVITY_FALLS, TEMPERATURE_FALLS, TWICE)
OF_RECORDS = (*OF_FIELDS, *OF_ORDER)
OF_ASKED = (ASKED_COLD, ASKED_HOT, ASKED_GRAVITY)
NUMBERS = {
    **dict.fromkeys(OF_LENGTH, LENGTH),
    **dict.fromkeys(OF_RECORDS, RECORD),
    **dict.fromkeys(OF_ASKED, ASKED),
    NO_PAIR: MISSING,
}

LEAST, HIGHEST = ends.TEMPERATURE


def of_fields(row):
    is_so = (
        row.temperature < LEAST,
        row.temperature > HIGHEST,
        row.gravity > ends.GRAVITY[1],
        row.compressibility > ends.COMPRESSIBILITY[1],
        row.temperature % HALF != 0,
        row.gravity % HALF != 0,
        row.byte_6 != 0,
        row.byte_7 != 0,
    )
    return [kind for kind, found in zip(OF_FIELDS, is_so) if found] if any(is_so) else []


def of_order(before, row):
    if row.gravity < before.gravity:
        return [GRAVITY_FALLS]
    if row.gravity > before.gravity or row.temperature > before.temperature:
        return []
    return [TWICE if row.temperature == before.temperature else TEMPERATURE_FALLS]


def of_asked(look_up):
    if look_up.temperature < LEAST:
        yield ASKED_COLD
    if look_up.temperature > HIGHEST:
        yield ASKED_HOT
    if look_up.gravity > ends.GRAVITY[1]:
        yield ASKED_GRAVITY


def place_of(look_up):
    """Of the record that is asked for, counted from 1; None without one."""
    pair = nearest(look_up.temperature), nearest(look_up.gravity)
    return next((at for at, row in enumerate(look_up.rows, 1) if row[:2] == pair), None)


def faults(look_up):
    """All of them, in the order in which they are to be found."""
    rows = look_up.rows
    if look_up.tail:
        yield Fault(CUT_SHORT)
    if not rows:
        yield Fault(NO_RECORD)
    if len(rows) > MOST:
        yield Fault(MANY)
    if rows:
        yield from (Fault(kind, 1) for kind in of_fields(rows[0]))
    for record, (before, row) in enumerate(pairwise(rows), 2):
        for kind in of_fields(row) + of_order(before, row):
            yield Fault(kind, record)
    yield from map(Fault, of_asked(look_up))
    if place_of(look_up) is None:
        yield Fault(NO_PAIR)
