"""The look-up of a compressibility in a lent part of the printed table of 11.2.1 (02, Look up
compressibility; 002 describes the table). "The printed table decides over any formula"."""

import struct
from collections import namedtuple
from fractions import Fraction
from functools import lru_cache

import ranges
from records import whole_records
from refusals import NO_SUCH_PAIR, READING_RANGE, TABLE_RECORD, Refused
from rounding import nearest

LENGTH = 8

# "temperature in tenths (signed 2), API gravity in tenths (2), F in 10^-8 (2), zero (2)"
LAYOUT = struct.Struct("<hHH2s")
ZEROS = bytes(2)

HALF_DEGREE = Fraction(1, 2)

Entry = namedtuple("Entry", "temperature gravity compressibility zeros")


@lru_cache(maxsize=4096)
def to_half_degree(tenths):
    """002, 11.2.1.5.2: "rounded to nearest 0.5°F", of a temperature as of a gravity; in tenths
    again. 002's steps, below 0.25, from 0.75 on and else, are one choice of three. No whole number
    of tenths lies halfway between two half degrees."""
    degrees = Fraction(tenths, 10)
    return nearest(degrees / HALF_DEGREE) * HALF_DEGREE * 10


def is_faulty(entry):
    # "A record is faulty if a field is out of range, a temperature or gravity isn't on a half
    # degree, or its last two bytes aren't zero"
    return not (
        entry.temperature in ranges.TEMPERATURE
        and entry.gravity in ranges.GRAVITY
        and entry.compressibility in ranges.COMPRESSIBILITY
        and to_half_degree(entry.temperature) == entry.temperature
        and to_half_degree(entry.gravity) == entry.gravity
        and entry.zeros == ZEROS
    )


def judged_table(lent):
    """The entries by their temperature and gravity. "1 for length, 32 for a faulty or disordered
    record with its place"; of two records out of order the place is the later one's."""
    by_pair = {}
    before = None
    for number, record in enumerate(whole_records(lent, ranges.TABLE_RECORDS, LENGTH), 1):
        entry = Entry._make(LAYOUT.unpack(record))
        # "rising by gravity and then temperature, no pair twice"
        place = entry.gravity, entry.temperature
        is_disordered = before is not None and place <= before
        if is_faulty(entry) or is_disordered:
            raise Refused(TABLE_RECORD, number)
        by_pair[entry.temperature, entry.gravity] = entry
        before = place
    return by_pair


def look_up(temperature, gravity, lent):
    """Temperature, gravity and F of "the record with that pair, refused exactly when the table has
    none": 1, 32, "13 for the asked numbers, 33 for no such pair, in that order"."""
    by_pair = judged_table(lent)
    # "The asked temperature (-20.0 to 200.0) and gravity (0.0 to 90.0)", as they are asked
    if not (temperature in ranges.TEMPERATURE and gravity in ranges.GRAVITY):
        raise Refused(READING_RANGE)
    # "go to the nearest half degree first, as 002 says"
    found = by_pair.get((to_half_degree(temperature), to_half_degree(gravity)))
    if found is None:
        raise Refused(NO_SUCH_PAIR)
    return found.temperature, found.gravity, found.compressibility
