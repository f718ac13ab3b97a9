"""The kinds of look-ups that must be reached: every number that can be asked, each place of a
record that is found and of one that is missing, what a table has in its stead, and, of other
modules, faults and other rules."""

from bisect import bisect_left

import lookup_precedence
import lookup_rules
from cases import ends
from cases.lookup_shapes import (
    GRAVITIES,
    HALF,
    MOST,
    TEMPERATURES,
    LookUp,
    beside,
    nearest,
)
from lookup_faults import MISSING, NO_PAIR, OF_ORDER, faults, place_of
from outcomes import OK

ENTRIES = ("look_up",)
FEW = range(1, 10)  # records of tables of which every place must be reached
MANY = (MOST - 1, MOST)
ANSWERED_ENDS = {
    "temperature": (-200, -195, -5, 0, 5, 1995, 2000),
    "gravity": (0, 5, 255, 260, 895, 900),
    "compressibility": (0, 1, 255, 256, 9999, 10000),
}
# Where a record is, by how many half degrees it is off.
ONE_OFF = {
    (-1, 0): "half a degree colder",
    (1, 0): "half a degree warmer",
    (0, -1): "half a degree of gravity less",
    (0, 1): "half a degree of gravity more",
}


def among(name, tenths):
    return f"{name} {tenths} among its neighbours"


def past(temperature_rest, gravity_rest, is_below):
    side = "below" if is_below else "above"
    return f"{temperature_rest} and {gravity_rest} tenths past half degrees, {side} zero"


def at_place(record, count):
    return f"record {record} of {count}"


def missing_behind(below, count):
    return f"a pair behind {below} of {count} records"


def is_among_neighbours(look_up):
    """Whether all half degrees around are there, none with the compressibility of the one asked."""
    own = lookup_rules.found(look_up)
    factors = {row[:2]: row.compressibility for row in look_up.rows if row != own}
    around = {
        (temperature, gravity)
        for temperature in beside(look_up.temperature, TEMPERATURES)
        for gravity in beside(look_up.gravity, GRAVITIES)
    } - {(nearest(look_up.temperature), nearest(look_up.gravity))}
    return around <= {*factors} and (
        own is None or own.compressibility not in {factors[pair] for pair in around}
    )


def of_asked(look_up):
    """What is asked, where only the nearest half degrees can answer it."""
    temperature, gravity = look_up.temperature, look_up.gravity
    if is_among_neighbours(look_up):
        yield among("temperature", temperature)
        yield among("gravity", gravity)
        yield past(abs(temperature) % HALF, gravity % HALF, temperature < 0)


def of_found(look_up, place):
    row = look_up.rows[place - 1]
    yield at_place(place, len(look_up.rows))
    yield from (f"an answer of {name} {getattr(row, name)}" for name in ANSWERED_ENDS)


def of_missing(look_up):
    temperature, gravity = nearest(look_up.temperature), nearest(look_up.gravity)
    rows = look_up.rows
    below = bisect_left(rows, (gravity, temperature), key=lambda row: row.rank)
    yield missing_behind(below, len(rows))
    has_temperature = any(row.temperature == temperature for row in rows)
    has_gravity = any(row.gravity == gravity for row in rows)
    yield with_parts(has_temperature, has_gravity)
    if len(rows) == 1:
        off = (rows[0].temperature - temperature) / HALF, (rows[0].gravity - gravity) / HALF
        yield ONE_OFF.get(off, "one record elsewhere")


def with_parts(has_temperature, has_gravity):
    if has_temperature and has_gravity:
        return "its temperature and its gravity apart"
    if has_temperature or has_gravity:
        return "its temperature alone" if has_temperature else "its gravity alone"
    return "neither"


def reached(text):
    look_up = LookUp.read(text)
    found = [*faults(look_up)]
    kinds = {fault.kind for fault in found}
    yield from lookup_precedence.reached(look_up, found)
    if kinds <= {*OF_ORDER, NO_PAIR}:
        yield from lookup_rules.reached(look_up)
    if kinds <= {NO_PAIR}:
        yield from of_asked(look_up)
        yield from of_missing(look_up) if kinds else of_found(look_up, place_of(look_up))


def wanted(_):
    """What is answered, and to which kind of look-up."""
    yield from lookup_precedence.wanted()
    yield from lookup_rules.wanted()
    for name, ((low, high), _) in ends.ASKED.items():
        yield from ((OK, among(name, tenths)) for tenths in range(low, high + 1))
    for is_below in (True, False):
        rests = ((one, other) for one in range(HALF) for other in range(HALF))
        for both in rests:
            yield from ((what, past(*both, is_below)) for what in (OK, MISSING))
    yield from ((OK, at_place(*both)) for both in found_places())
    yield from ((MISSING, missing_behind(*both)) for both in missing_places())
    for name, values in ANSWERED_ENDS.items():
        yield from ((OK, f"an answer of {name} {value}") for value in values)
    parts = (with_parts(one, other) for one in (True, False) for other in (True, False))
    yield from ((MISSING, kind) for kind in (*parts, *ONE_OFF.values()))


def found_places():
    yield from ((record, count) for count in FEW for record in range(1, count + 1))
    for count in MANY:
        yield from ((record, count) for record in (1, 2, count // 2, count - 1, count))


def missing_places():
    yield from ((below, count) for count in FEW for below in range(count + 1))
    for count in MANY:
        yield from ((below, count) for below in (0, count // 2, count))
