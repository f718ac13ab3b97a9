"""The faults of look-ups that must be reached: each alone and at each place of a table, with each
value past an end, and of every two the one that is answered."""

from itertools import product

from cases import ends
from cases.lookup_shapes import HALF, MOST, ROW
from lookup_faults import (
    ASKED,
    ASKED_COLD,
    ASKED_GRAVITY,
    ASKED_HOT,
    CUT_SHORT,
    LENGTH,
    MANY,
    MISSING,
    NO_PAIR,
    NO_RECORD,
    NUMBERS,
    OF_ASKED,
    OF_FIELDS,
    OF_ORDER,
    OF_RECORDS,
    OFF_GRAVITY,
    OFF_TEMPERATURE,
    RECORD,
    place_of,
)
from outcomes import OK
from precedence import LATER, order

FIRST, SECOND, MIDDLE = "at the first record", "at the second record", "in the middle"
LAST, LAST_OF_ALL = "at the last record", f"at record {MOST}"
AHEAD, BEHIND, ITSELF = "ahead of the record asked for", "behind it", "of that record itself"

PAST_ENDS = {
    "temperature": (-(2**15), -205, -201, 2001, 2005, 2**15 - 1),
    "gravity": (901, 905, 2**16 - 1),
    "compressibility": (10001, 2**16 - 1),
    "byte_6": (1, 0x80, 0xFF),
    "byte_7": (1, 0x80, 0xFF),
}
# Taken to the half degree, these would be in range: the range is judged on what is asked.
ROUNDED_INTO_RANGE = {
    ASKED_COLD: ("temperature", (-201, -202)),
    ASKED_HOT: ("temperature", (2001, 2002)),
    ASKED_GRAVITY: ("gravity", (901, 902)),
}
ASKED_PAST_ENDS = {
    "temperature": (-(2**15), -203, -202, -201, 2001, 2002, 2003, 2**15 - 1),
    "gravity": (901, 902, 903, 2**15, 2**16 - 2, 2**16 - 1),
}


def table_of(octets):
    return f"a table of {octets} bytes"


def alone(kind):
    return f"{kind} alone"


def of_value(name, value):
    return f"{name} {value}"


def asked_with_pair(name, value):
    return f"{of_value(name, value)} asked, its half degree there"


def off_by(kind, tenths, is_below):
    return f"{kind} by {tenths} tenths, {'below' if is_below else 'above'} zero"


def places(record, count):
    if record == 1:
        yield FIRST
    if record == 2:
        yield SECOND
    if record == count:
        yield LAST
    if record == MOST:
        yield LAST_OF_ALL
    if 2 < record < count:
        yield MIDDLE


def reached(look_up, found):
    """Of the faults found."""
    yield table_of(len(look_up.rows) * ROW.size + len(look_up.tail))
    if not found:
        return
    first, *others = found
    if not others:
        yield alone(first.kind)
    if first.record:
        yield from of_record(look_up, found)
    elif first.kind in OF_ASKED:
        yield from (of_value(name, getattr(look_up, name)) for name in ends.ASKED)
        if not others:
            name, _ = ROUNDED_INTO_RANGE[first.kind]
            yield asked_with_pair(name, getattr(look_up, name))
    for other in others:
        if not (first.record and other.record):
            yield order(first.kind, other.kind)
        elif first.record != other.record:
            yield order(first.kind, other.kind, LATER)


def of_record(look_up, found):
    """The record at fault, where it is at fault in one way; its values in any case."""
    first, *others = found
    row = look_up.rows[first.record - 1]
    if first.kind in OF_FIELDS:
        yield from (of_value(name, getattr(row, name)) for name in PAST_ENDS)
    if any(other.record == first.record for other in others):
        return
    yield from (f"{first.kind} {at}" for at in places(first.record, len(look_up.rows)))
    if first.kind == OFF_TEMPERATURE:
        yield off_by(first.kind, abs(row.temperature) % HALF, row.temperature < 0)
    if first.kind == OFF_GRAVITY:
        yield off_by(first.kind, row.gravity % HALF, False)
    asked = place_of(look_up)
    if asked:
        where = ITSELF if asked == first.record else AHEAD if first.record < asked else BEHIND
        yield f"a fault {where}"


def orders():
    """Every two faults that can be told apart, the one that is answered first."""
    after_records = (*OF_ASKED, NO_PAIR)
    yield from product((CUT_SHORT, MANY), (*OF_RECORDS, *after_records))
    yield from product((NO_RECORD,), after_records)
    yield from ((*two, LATER) for two in product(OF_RECORDS, repeat=2))
    yield from product(OF_RECORDS, after_records)
    yield from product(OF_ASKED, (NO_PAIR,))


def wanted():
    for kind, number in NUMBERS.items():
        if kind != NO_RECORD:  # which has no pair either
            yield number, alone(kind)
    yield from ((NUMBERS[first], order(first, *other)) for first, *other in orders())
    yield from of_lengths()
    yield from ((RECORD, kind) for kind in rests_of_records())
    for kind, at in product(OF_RECORDS, (FIRST, SECOND, MIDDLE, LAST, LAST_OF_ALL)):
        if kind not in OF_ORDER or at != FIRST:
            yield RECORD, f"{kind} {at}"
    yield from ((RECORD, f"a fault {where}") for where in (AHEAD, BEHIND, ITSELF))
    for name, values in PAST_ENDS.items():
        yield from ((RECORD, of_value(name, value)) for value in values)
    for name, values in ASKED_PAST_ENDS.items():
        yield from ((ASKED, of_value(name, value)) for value in values)
    for name, values in ROUNDED_INTO_RANGE.values():
        yield from ((ASKED, asked_with_pair(name, value)) for value in values)


def rests_of_records():
    for tenths in range(1, HALF):
        yield from (off_by(OFF_TEMPERATURE, tenths, is_below) for is_below in (True, False))
        yield off_by(OFF_GRAVITY, tenths, False)


def of_lengths():
    """What is not whole, none, too many; past 16 bits of length; and what is judged at both ends of
    the count."""
    least, most = ROW.size, MOST * ROW.size
    too_few = range(least)
    cut_short = (whole + rest for whole in (8 * least, most) for rest in range(1, least))
    for octets in (*too_few, *cut_short, most + least, 2**16 + least):
        yield LENGTH, table_of(octets)
    for octets in (least, 2 * least, most - least, most):
        yield from ((what, table_of(octets)) for what in (OK, RECORD, ASKED, MISSING))
