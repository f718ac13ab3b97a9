"""Faults of a bidirectional draw: those of a draw, with counts of passes and groups of its own."""

from dataclasses import replace
from itertools import combinations_with_replacement

from .draw_faults import RECORD_FAULTS, too_few, too_many
from .plain import at_pressures, plain_trips
from .proving_faults import not_whole, with_setting
from .shapes import Fill

PASSES, FILLS_EACH = 6, 2
VOLUMES = (2_310_000, 2_316_000)
# Passes from the fourth on have one pressure, so that they can be made one pass.
PRESSURES = (0, 40, 30, 10, 10, 10)


def good_draw():
    trips = plain_trips([VOLUMES] * (PASSES // 2), FILLS_EACH)
    return at_pressures(trips, PRESSURES)


def few_passes(draw, at, rng):
    fills = (replace(fill, pass_number=min(fill.pass_number, 4)) for fill in draw.fills)
    return replace(draw, fills=tuple(fills))


def more_passes(draw, count):
    """Passes of one fill behind those that there are; every second trip of them is away from its
    neighbours."""
    last = draw.fills[-1].pass_number
    more = (
        Fill(1_155_000 + 9_000 * ((number - 1) // 2 % 2), pass_number=number)
        for number in range(last + 1, last + 1 + count)
    )
    return replace(draw, fills=draw.fills + tuple(more))


def odd_passes(draw, at, rng):
    return more_passes(draw, rng.choice((1, 3, 13)))


def many_passes(draw, at, rng):
    return more_passes(draw, rng.choice((15, 16, 16, 48)))


def no_group(draw, at, rng):
    """The second round trip is away from its neighbours."""
    fills = [
        replace(fill, certified=fill.certified + 9_000) if fill.pass_number in (3, 4) else fill
        for fill in draw.fills
    ]
    return replace(draw, fills=tuple(fills))


def setting(draw, at, rng):
    """Not the base volume, which a draw has no use for."""
    return with_setting(draw, rng.choice(("inside", "wall", "modulus", "certificate")), rng)


# In the order in which they can be made: those that change the records' numbers last.
FAULTS = (
    *(few_passes, odd_passes, many_passes, no_group),
    *RECORD_FAULTS,
    *(setting, not_whole, too_few, too_many),
)


def alone_and_in_pairs(rng):
    good = good_draw()
    yield good
    last = len(good.fills) - 1
    for fault in FAULTS:
        for at in range(last + 1):
            yield fault(good, at, rng)
    for number in (0, 2, 3, 255):
        yield good.with_fill(0, pass_number=number)
    for one, other in combinations_with_replacement(FAULTS, 2):
        for at, later in ((0, last), (last, 0), (0, 0), (last, last), (2, 5), (5, 2)):
            yield other(one(good, at, rng), later, rng)
    for fills in (2, 3, 60, 61):
        yield from with_fills(fills, rng)


def with_fills(count, rng):
    """Only with another fault is it seen that the number of fills is judged first. The last two are
    of one pass."""
    last = min(PASSES, count - 1)
    fills = tuple(Fill(pass_number=min(number, last)) for number in range(1, count + 1))
    draw = replace(good_draw(), fills=fills)
    yield draw
    for fault in (setting, *RECORD_FAULTS):
        yield fault(draw, count - 1 - count % 2, rng)
