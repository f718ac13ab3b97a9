"""Faults of a draw: each makes a good one bad in one way; `at` is the record, where one is."""

from dataclasses import replace
from itertools import combinations

from . import ends
from .plain import plain_draw
from .proving_faults import not_whole, setting
from .shapes import Fill


def too_few(draw, at, rng):
    return replace(draw, fills=draw.fills[:1] + draw.fills[-1:])


def too_many(draw, at, rng):
    return replace(draw, fills=draw.fills[:1] + draw.fills[:1] * 53 + draw.fills[1:])


def field(draw, at, rng):
    name = rng.choice(list(ends.FILL))
    return draw.with_fill(at, **{name: ends.outside(ends.FILL[name], rng)})


def unnamed(draw, at, rng):
    octets = bytearray(12)
    octets[rng.randrange(12)] = rng.randint(1, 255)
    return draw.with_fill(at, unnamed=bytes(octets))


def byte_17(draw, at, rng):
    return draw.with_fill(at, byte_17=rng.randint(1, 255))


def pass_skipped(draw, at, rng):
    number = draw.fills[at].pass_number + rng.choice((2, 3, 100))
    return draw.with_fill(at, pass_number=number)


def pass_back(draw, at, rng):
    return draw.with_fill(at, pass_number=draw.fills[at].pass_number - 1 if at % 2 else 0)


def pass_pressure(draw, at, rng):
    # the second of a pass's two fills
    own = draw.fills[at | 1].pressure
    return draw.with_fill(at | 1, pressure=own - 1 if own else 1)


def two_passes(draw, at, rng):
    fills = tuple(replace(fill, pass_number=min(fill.pass_number, 2)) for fill in draw.fills)
    return replace(draw, fills=fills)


def many_passes(draw, at, rng):
    more = tuple(Fill(pass_number=number) for number in range(5, 5 + rng.choice((17, 30, 48))))
    return replace(draw, fills=draw.fills + more)


def no_group(draw, at, rng):
    fills = list(draw.fills)
    for place, fill in enumerate(fills):
        if fill.certified == 1_155_000 and fill.pass_number % 2:
            fills[place] = replace(fill, certified=1_164_000)
    return replace(draw, fills=tuple(fills))


DRAW_FAULTS = (not_whole, too_few, too_many, setting, two_passes, many_passes, no_group)
RECORD_FAULTS = (field, unnamed, byte_17, pass_skipped, pass_back, pass_pressure)
SINGLE_FILL_FAULTS = (not_whole, setting, field, unnamed, byte_17, pass_skipped)
# those that need no particular draw
ANYWHERE = (too_few, too_many, *SINGLE_FILL_FAULTS)


def alone_and_in_pairs(rng):
    good = plain_draw([2_310_000] * 4, 2)
    yield good.draw
    yield good.passes
    for fault in (*DRAW_FAULTS, *RECORD_FAULTS):
        for at in range(8):
            bad = fault(good, at, rng)
            yield bad.draw
            yield bad.passes
    for number in (0, 2, 3, 255):
        yield good.with_fill(0, pass_number=number).draw
    for one, other in combinations((*DRAW_FAULTS, *RECORD_FAULTS), 2):
        for at, later in ((0, 7), (7, 0), (0, 0), (7, 7), (2, 5), (5, 2)):
            bad = other(good, later, rng) if other in RECORD_FAULTS else good
            bad = one(bad, at, rng)
            bad = bad if other in RECORD_FAULTS else other(bad, later, rng)
            yield bad.draw
            if at == later:
                yield bad.passes
    single = replace(good, fills=good.fills[:1])
    for fault in SINGLE_FILL_FAULTS:
        yield fault(single, 0, rng).fill()
    for one, other in combinations(SINGLE_FILL_FAULTS, 2):
        for _ in range(3):
            yield other(one(single, 0, rng), 0, rng).fill()
