"""Cases of `forward` and `back` with faults: each alone and at each place, two of them, lengths."""

from dataclasses import replace
from itertools import product

from . import ends, equilibria
from .move_shapes import (
    BACK,
    FORWARD,
    LENT,
    MOST,
    OTHER_WAY,
    WAYS,
    WRITTEN,
    Move,
    any_runs,
    fitting,
    move,
)
from .table_faults import BYTES


def without_equilibrium(name):
    """A pressure that can be any has no equilibrium pressure above it."""
    return {f"{side}_equilibrium_pressure": 0 for side in ("prover", "meter") if side in name}


# Faults of a record: each makes a good move bad in one way; `at` is the record, from 0.


def field(one, at, rng):
    name = rng.choice([name for name in ends.RUN if name != "pulses"])
    return one.with_run(at, **{name: ends.outside(ends.RUN[name], rng)})


def count(one, at, rng):
    of = ends.RUN if one.way == FORWARD else ends.LONG_RUN
    return one.with_run(at, pulses=ends.outside(of["pulses"], rng))


def below_equilibrium(one, at, rng):
    side = rng.choice(("prover", "meter"))
    pressure = getattr(one.runs[at], f"{side}_pressure")
    return one.with_run(at, **{f"{side}_equilibrium_pressure": equilibria.above(pressure, rng)})


def unnamed(one, at, rng):
    octets = bytearray(one.runs[at].unnamed)
    octets[rng.randrange(len(octets))] = rng.choice((*BYTES, rng.randint(1, 255)))
    return one.with_run(at, unnamed=bytes(octets))


def fraction(one, at, rng):
    """A thousandth to 999 more than whole pulses, within the range."""
    pulses = min(one.runs[at].pulses, 10**11 - 1000) + rng.choice((1, 999, rng.randint(1, 999)))
    return one.with_run(at, pulses=pulses)


IN_RECORDS = {
    FORWARD: (field, count, below_equilibrium, unnamed),
    BACK: (field, count, below_equilibrium, unnamed, fraction),
}
# One for each number.
NUMBERED = {FORWARD: (field, unnamed), BACK: (field, unnamed, fraction)}


def aimed(rng):
    for way in WAYS:
        yield from alone(way, rng)
        yield from two_records(way, rng)
        yield from unnamed_bytes(way, rng)
        yield from other_form(way, rng)
        yield from lengths(way, rng)
        yield from counts_of_records(way, rng)
        yield from disproportions(way, rng)


def alone(way, rng):
    """At every place of few records; at the last of many, and of as many as can be moved."""
    for fault, of in product(IN_RECORDS[way], (1, 2, 5)):
        for at in range(of):
            yield fault(move(way, any_runs(way, of, rng), rng), at, rng)
    for fault in IN_RECORDS[way]:
        yield fault(move(way, any_runs(way, 300, rng), rng), 299, rng)
    for fault in NUMBERED[way]:
        yield fault(move(way, any_runs(way, MOST, rng), rng), MOST - 1, rng)


def two_records(way, rng):
    """The first of two is told, whatever is wrong with each; and what is wrong with one record, in
    the order of the paper."""
    for one, other in product(NUMBERED[way], repeat=2):
        for at, later in ((0, 1), (0, 5), (4, 5), (2, 3)):
            good = move(way, any_runs(way, 6, rng), rng)
            yield other(one(good, at, rng), later, rng)
    for one, other in product(NUMBERED[way], repeat=2):
        if one != other:
            for at in (0, 3, 5):
                yield other(one(move(way, any_runs(way, 6, rng), rng), at, rng), at, rng)
    if way == BACK:
        # not whole and out of range
        for pulses in (1, 500, 999, 10**11 + 1, 10**11 + 500, 2**64 - 1):
            yield move(way, any_runs(way, 3, rng), rng).with_run(1, pulses=pulses)


def unnamed_bytes(way, rng):
    """Each alone; two that a sum of 8 bits takes for 0, and all of them."""
    length = len(LENT[way]().unnamed)
    for byte, value in product(range(length), BYTES):
        octets = bytearray(length)
        octets[byte] = value
        yield move(way, any_runs(way, 2, rng), rng).with_run(byte % 2, unnamed=bytes(octets))
    for first, last in ((0xFF, 0x01), (0x80, 0x80)):
        octets = bytes((first, *bytes(length - 2), last))
        yield move(way, any_runs(way, 1, rng), rng).with_run(0, unnamed=octets)
    yield move(way, any_runs(way, 1, rng), rng).with_run(0, unnamed=b"\xff" * length)


def other_form(way, rng):
    """Records that are moved already, as many as are whole in both forms."""
    for octets in (96, 192, 288):
        count = octets // WRITTEN[way].LAYOUT.size
        moved = move(way, any_runs(way, count, rng), rng).moved
        yield Move(way, (), b"").with_tail(b"".join(run.packed for run in moved), rng)


def lengths(way, rng):
    """In proportion and not whole: alone, and before every fault of a record."""
    unit = LENT[way].LAYOUT.size // 16  # 2 or 3 bytes lent, to 3 or 2 of the buffer
    none = Move(way, (), b"")
    for times in range(1, 16):
        yield none.with_tail(rng.randbytes(unit * times), rng)
        for of in (1, 4):
            good = move(way, any_runs(way, of, rng), rng)
            yield good.with_tail(rng.randbytes(unit * times), rng)
    for fault in NUMBERED[way]:
        for at in (0, 3):
            bad = fault(move(way, any_runs(way, 4, rng), rng), at, rng)
            yield bad.with_tail(rng.randbytes(unit * rng.randint(1, 15)), rng)


def counts_of_records(way, rng):
    yield Move(way, (), b"")
    too_many = move(way, any_runs(way, MOST + 1, rng), rng)
    yield too_many
    # before every fault of a record: all of them in one line
    for at, fault in enumerate(NUMBERED[way]):
        too_many = fault(too_many, MOST * at // 2, rng)
    yield too_many


def disproportions(way, rng):
    """Buffers of other lengths than what is lent calls for: alone, and before every other fault."""
    good = move(way, any_runs(way, 4, rng), rng)
    own, other = LENT[way].LAYOUT.size, WRITTEN[way].LAYOUT.size
    right = len(good.buffer)
    for by in (1, other // 2, other, own, 2 * other, 2**15, 2**16):
        yield replace(good, buffer=rng.randbytes(right + by))
        if by <= right:
            yield replace(good, buffer=rng.randbytes(right - by))
    for length in (0, len(good.lent), fitting(OTHER_WAY[way], len(good.lent))):
        yield replace(good, buffer=rng.randbytes(length))
    # without records; whose three halves or two thirds are rounded up or down
    for lent, by in product((0, 1, 5, own - 1, own + 1, 5 * own + 7), (-1, 0, 1)):
        buffer = rng.randbytes(max(fitting(way, lent) + by, 0))
        yield Move(way, (), buffer, rng.randbytes(lent))
    full = move(way, any_runs(way, MOST, rng), rng)
    yield replace(full, buffer=full.buffer[:-1])
    yield from disproportions_first(way, rng)


def disproportions_first(way, rng):
    too_many = move(way, any_runs(way, MOST + 1, rng), rng)
    yield replace(too_many, buffer=rng.randbytes(len(too_many.buffer) - 1))
    for fault in NUMBERED[way]:
        for at in (0, 3):
            bad = fault(move(way, any_runs(way, 4, rng), rng), at, rng)
            yield replace(bad, buffer=rng.randbytes(len(bad.buffer) + rng.choice((-1, 1, 16))))
            cut = bad.with_tail(rng.randbytes(5), rng)
            yield replace(cut, buffer=rng.randbytes(len(cut.buffer) + 2))
