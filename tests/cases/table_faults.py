"""Faults of a look-up: each makes a good one bad in one way; `at` is the record, from 0, where one
is. And the tables in which a fault can stand alone."""

from dataclasses import replace

from . import ends
from .lookup_shapes import GRAVITIES, HALF, ROW, TEMPERATURES, Row, any_rows, nearest, rows_of

# With room below any and above it, so that a record can fall, and be off the half degree in range.
MILD = TEMPERATURES[10:-10]
APART = range(15, 901, 15)
BYTES = (1, 0x80, 0xFF)


def table(count, rng):
    """Each record of a short table, and the last of a long one, has a gravity for itself: then its
    temperature can be any, and its gravity off the half degree, and the table still rises."""
    *others, last = APART
    if count <= len(APART):
        gravities = (*rng.sample(others, count - 1), last)
        return rows_of(((gravity, rng.choice(MILD)) for gravity in gravities), rng)
    rows = any_rows(count - 1, rng, MILD, GRAVITIES[2:-3])
    return (*rows, Row(rng.choice(MILD), last))


def cold(look_up, at, rng):
    tenths = rng.choice((-205, -32765, HALF * rng.randint(-6553, -41)))
    return look_up.with_row(at, temperature=tenths)


def hot(look_up, at, rng):
    tenths = rng.choice((2005, 32765, HALF * rng.randint(401, 6553)))
    return look_up.with_row(at, temperature=tenths)


def gravity(look_up, at, rng):
    return look_up.with_row(at, gravity=rng.choice((905, 65535, HALF * rng.randint(181, 13107))))


def factor(look_up, at, rng):
    too_high = ends.outside(ends.TABLE_ROW["compressibility"], rng)
    return look_up.with_row(at, compressibility=too_high)


def off_temperature(look_up, at, rng):
    own = look_up.rows[at].temperature
    return look_up.with_row(at, temperature=own + rng.randint(1, HALF - 1))


def off_gravity(look_up, at, rng):
    return look_up.with_row(at, gravity=look_up.rows[at].gravity - rng.randint(1, HALF - 1))


def byte_6(look_up, at, rng):
    return look_up.with_row(at, byte_6=rng.choice((*BYTES, rng.randint(1, 255))))


def byte_7(look_up, at, rng):
    return look_up.with_row(at, byte_7=rng.choice((*BYTES, rng.randint(1, 255))))


def beside_before(look_up, at, warmer, more):
    """The record as many half degrees beside the one before it."""
    before = look_up.rows[at - 1]
    temperature, own = before.temperature + HALF * warmer, before.gravity + HALF * more
    return look_up.with_row(at, temperature=temperature, gravity=own)


def gravity_falls(look_up, at, rng):
    return beside_before(look_up, at, rng.choice((-1, 0, 1)), rng.choice((-1, -2)))


def temperature_falls(look_up, at, rng):
    return beside_before(look_up, at, rng.randint(-10, -1), 0)


def twice(look_up, at, rng):
    """With a compressibility of its own, or with the same."""
    other = rng.choice((look_up.rows[at].compressibility, look_up.rows[at - 1].compressibility))
    return beside_before(look_up, at, 0, 0).with_row(at, compressibility=other)


IN_FIELDS = (cold, hot, gravity, factor, off_temperature, off_gravity, byte_6, byte_7)
IN_ORDER = (gravity_falls, temperature_falls, twice)
IN_RECORDS = (*IN_FIELDS, *IN_ORDER)


def cut_short(look_up, rng):
    return replace(look_up, tail=rng.randbytes(rng.randint(1, ROW.size - 1)))


def asked_cold(look_up, rng):
    return replace(look_up, temperature=rng.choice((-201, -202, -203, -(2**15))))


def asked_hot(look_up, rng):
    return replace(look_up, temperature=rng.choice((2001, 2002, 2003, 2**15 - 1)))


def asked_gravity(look_up, rng):
    return replace(look_up, gravity=rng.choice((901, 902, 903, 2**16 - 1)))


def no_pair(look_up, rng):
    """Half a degree beside a record that has its gravity for itself, or so near in a long table."""
    there = {row[:2] for row in look_up.rows}
    temperature = nearest(look_up.temperature)
    while (temperature, nearest(look_up.gravity)) in there:
        temperature += HALF
    return replace(look_up, temperature=temperature)


IN_ASKED = (asked_cold, asked_hot, asked_gravity)
AFTER_RECORDS = (*IN_ASKED, no_pair)
