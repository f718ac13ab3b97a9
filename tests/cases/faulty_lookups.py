"""Cases of `look_up` with faults: each alone and at each place, two of them, and lengths."""

from dataclasses import replace
from itertools import product

from . import ends
from .lookup_shapes import HALF, MOST, ROW, LookUp, Row, asked_of
from .table_faults import (
    AFTER_RECORDS,
    BYTES,
    IN_ASKED,
    IN_FIELDS,
    IN_ORDER,
    IN_RECORDS,
    byte_7,
    cut_short,
    factor,
    gravity_falls,
    table,
    twice,
)

FULL, TOO_MANY = MOST, MOST + 1


def places(fault, count):
    """The first record cannot be out of order."""
    return range(1 if fault in IN_ORDER else 0, count)


def aimed(rng):
    for part in (alone, off_half_degrees, field_ends, two_records, before_asked, lengths):
        yield from part(rng)


def alone(rng):
    """At every place, with a record asked for that stands ahead, behind, and in that place."""
    for fault, count in product(IN_RECORDS, (1, 2, 3, 7)):
        for at in places(fault, count):
            good = asked_of(table(count, rng), rng)
            for place in sorted({0, at, count - 1}):
                yield fault(good.asking(good.rows[place]), at, rng)
    for fault in IN_RECORDS:
        # not the last record is asked for, which is at fault
        full = table(FULL, rng)
        yield fault(replace(asked_of(full[:-1], rng), rows=full), FULL - 1, rng)
    for fault, at in ((factor, 0), (byte_7, 1), (twice, 1), (gravity_falls, FULL // 2)):
        yield fault(asked_of(table(FULL, rng), rng), at, rng)


def off_half_degrees(rng):
    """Each tenth that is no half degree, on both sides of zero and near it."""
    for near, tenths in product((0, -100, 995, -195, 1995), range(-HALF + 1, HALF)):
        good = asked_of(table(3, rng), rng)
        at = rng.randrange(3)
        yield good.with_row(at, temperature=near + tenths)
        if near + tenths >= 0 and near < 900:
            rows = (good.rows[0]._replace(gravity=near + tenths), Row(600, 900))
            yield LookUp(600, 900, rows)


def field_ends(rng):
    """Each field at both ends of its range, beside them and at the ends of its type; each of the
    last two bytes."""
    for name, of in ends.TABLE_ROW.items():
        for value, count in product((*ends.around(of), *half_degrees_past(of)), (1, 3)):
            at = count - 1 if value > 450 else 0
            good = asked_of(table(count, rng), rng).with_row(at, **{name: value})
            yield good.asking(good.rows[at])
            yield good.asking(rng.choice(good.rows))
    for name, byte in product(("byte_6", "byte_7"), (*BYTES, 0x10)):
        good = asked_of(table(3, rng), rng)
        for at in range(3):
            yield good.with_row(at, **{name: byte})
    yield good.with_row(1, byte_6=1, byte_7=0xFF)


def half_degrees_past(of):
    (low, high), (least, _) = of
    return (high + HALF, low - HALF) if low > least else (high + HALF,)


def two_records(rng):
    """The first of two is told, whatever is wrong with each."""
    for one, other in product(IN_RECORDS, repeat=2):
        for at, later in ((1, 5), (2, 4), (1, 6)):
            yield other(one(asked_of(table(7, rng), rng), at, rng), later, rng)
    for one, other in product(IN_FIELDS, IN_RECORDS):
        yield other(one(asked_of(table(3, rng), rng), 0, rng), 2, rng)
    # and of what is wrong with one record, all is told by it
    for one, other in product(IN_FIELDS, IN_ORDER):
        yield one(other(asked_of(table(3, rng), rng), 1, rng), 1, rng)


def before_asked(rng):
    """All records are judged before what is asked."""
    for fault, other in product(IN_RECORDS, AFTER_RECORDS):
        for count in (2, 7):
            good = asked_of(table(count, rng), rng)
            for at in (1, count - 1):
                yield fault(other(good, rng), at, rng)
    for count, other in product((1, 2, FULL - 1, FULL), AFTER_RECORDS):
        good = asked_of(table(count, rng), rng)
        yield other(good, rng)
        yield factor(other(good, rng), count - 1, rng)


def lengths(rng):
    """Too short, not whole, too long; with all else that can be wrong. A table that is cut short
    has the pair in what is whole of it, one that is too long ahead of its end."""
    nothing = LookUp(600, 300, ())
    for octets in range(ROW.size):
        yield replace(nothing, tail=bytes(octets))
        yield replace(nothing, tail=rng.randbytes(octets))
        for fault in IN_ASKED:
            yield fault(replace(nothing, tail=rng.randbytes(octets)), rng)
    for count, octets in product((1, 2, 8), range(1, ROW.size)):
        good = asked_of(table(count, rng), rng)
        yield replace(good, tail=bytes(octets))
        yield replace(good, tail=rng.randbytes(octets))
    for fault in IN_RECORDS:
        yield cut_short(fault(asked_of(table(8, rng), rng), 7, rng), rng)
    for fault in AFTER_RECORDS:
        yield cut_short(fault(asked_of(table(8, rng), rng), rng), rng)
    full = asked_of(table(FULL, rng), rng)
    for octets in range(1, ROW.size):
        yield replace(full, tail=rng.randbytes(octets))
    many = asked_of(table(TOO_MANY, rng), rng)
    yield many
    yield many.asking(many.rows[-1])
    for fault in IN_RECORDS:
        yield fault(many, rng.choice((1, FULL - 1, FULL)), rng)
    for fault in AFTER_RECORDS:
        yield fault(many, rng)
    # in 16 bits their lengths would be one record and none
    for count in (2**16 // ROW.size + 1, 2**16 // ROW.size):
        long = LookUp(0, 0, table(count, rng))
        yield long.asking(long.rows[0])
