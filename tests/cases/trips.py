"""Cases of `bidirectional` and `trips`, and of `draw` and `passes` on the same draws."""

from dataclasses import replace
from itertools import chain

from . import draw_ends, draw_faults, trip_faults, trip_halves
from .arithmetic import half_up
from .draw_days import LIMIT, threes_at_the_limit, valid_draw
from .plain import LARGEST, at_pressures, fills_alike, plain_draw, plain_trips
from .shapes import Draw, Fill, Prover
from .trip_days import valid_trips

MOST_FILLS = 60
# Three volumes of a pass: no two agree, nor do the sums of other two.
OUT, BACK, AWAY = 1_100_000, 1_210_000, 1_350_000


def aimed(rng):
    for draw in chain(
        (draw for draw, _ in draw_ends.fields(6, rng)),
        (draw for draw, _ in draw_ends.unnamed_bytes(6, rng)),
        draw_ends.settings(6),
        draw_ends.metals(6),
        pass_counts(),
        fill_counts(rng),
        group_edges(rng),
        group_places(rng),
        means(),
        pressures(rng),
        trip_faults.alone_and_in_pairs(rng),
        trip_halves.halves(rng),
        largest(),
    ):
        yield draw.bidirectional
        yield draw.trips
    for draw in other_groupings():
        yield draw.bidirectional
        yield draw.trips
        yield draw.draw
        yield draw.passes


def pass_counts():
    """Every count up to 22, and far above: one or some fills each, and as many as fit. All passes
    agree, then all round trips: an odd count would qualify by its even part, and one above 20 by
    its first 20."""
    for count in (*range(1, 23), 40, 41, 59, 60):
        for each in sorted({1, 2, 3, MOST_FILLS // count}):
            yield plain_draw([1_155_000] * count, each)
        yield plain_draw(([OUT, BACK] * count)[:count])


def fill_counts(rng):
    for count in (0, 1, 2, 3, 4, 5, 6, 7, 59, 60, 61, 62, 255):
        whole = tuple(Fill(pass_number=min(number, 6)) for number in range(1, count + 1))
        for tail in (0, 1, 31):
            yield Draw(whole, tail=rng.randbytes(tail))
    ten_each = plain_draw([11_550_000] * 6, 10)
    yield ten_each
    yield Draw(ten_each.fills + ten_each.fills[-1:])


def parted(trip, rng):
    """A round trip as two passes, far enough apart that the passes do not agree."""
    half = trip // 2
    apart = min(trip // 8, half - 20_000, 100_000_000 - (trip - half))
    out = half + rng.randint(-apart, apart)
    return out, trip - out


def parted_trips(trips, rng):
    return plain_trips([parted(trip, rng) for trip in trips])


def group_edges(rng):
    smallests = 40_000, 49_999, 50_000, 50_001, 2_000_000, 4_238_695, 199_000_000
    for three in threes_at_the_limit(smallests, rng):
        yield parted_trips(three, rng)


def group_places(rng):
    """The first group at each place in each count of round trips, where a tighter one later is not
    taken; and no group."""
    for count in range(3, 11):
        for first in range(count - 2):
            trips = [2_200_000 + 18_000 * (at % 2) for at in range(first)]
            trips += [2_310_000, 2_310_462, 2_310_200]
            trips += ([2_310_200] * 2 + [2_400_000] * 10)[: count - len(trips)]
            yield parted_trips(trips, rng)
        yield parted_trips([2_200_000 + 18_000 * (at % 2) for at in range(count)], rng)


def other_groupings():
    """Round trips that agree while their passes do not; and passes, or pairs of other passes, that
    agree where the round trips do not, or earlier than they do."""
    trip = [OUT, BACK]
    for passes in (
        trip * 3,
        [OUT, BACK, BACK, OUT, OUT, BACK],
        # three passes in a row
        [OUT, OUT, OUT, AWAY, OUT, BACK],
        [OUT, OUT, OUT, AWAY] + trip * 3,
        # pairs that begin at an even pass
        [AWAY, OUT, BACK, OUT, BACK, OUT, BACK, AWAY],
        [AWAY, OUT, BACK, OUT, BACK, OUT, BACK, OUT],
        [AWAY] + trip * 3,
        [AWAY] + trip * 9 + [AWAY],
        # pairs that overlap
        trip * 2 + [AWAY, AWAY] + trip * 3,
        trip * 2 + [AWAY, AWAY],
        trip * 2 + [AWAY, AWAY] * 2 + trip * 2,
        # out passes, and back passes
        [OUT, BACK, OUT, AWAY, OUT, BACK],
        [OUT, BACK, OUT, AWAY] + trip * 3,
        [OUT, BACK, AWAY, BACK, OUT, BACK],
        [OUT, BACK, AWAY, BACK] + trip * 3,
        # an odd count
        trip * 3 + [OUT],
        trip * 9 + [OUT],
        trip * 10 + [OUT],
        trip * 11,
    ):
        yield plain_draw(passes)


def means():
    """Every rest of a mean; barrels about their halves, and where they turn on the base being
    rounded: where a half lies between the mean, a third of 0.01 cubic inch away, and the base."""
    barrel, half = 970_200, 48
    for off in range(9):
        yield plain_trips([(1_000_000, 1_000_000)] * 2 + [(1_000_000, 1_000_000 + off)])
        yield plain_trips([(3 * barrel, 2 * barrel + half + off)] * 3)
    for place in range(0, 100, 7):
        whole, hundredths = divmod(9702 * place + 4851, 100)
        if 33 <= hundredths <= 66:
            continue
        up = 1 if hundredths < 33 else 2
        backs = [2 * barrel + whole + 1] * up + [2 * barrel + whole] * (3 - up)
        yield plain_trips([(3 * barrel, back) for back in backs])


def pressures(rng):
    """Out and back at two pressures, one round trip the other way round and one at one of them: the
    three agree as they should only if each pass is worked at its own."""
    prover = Prover()
    for out, back in ((0, 1), (1, 0), (0, 1500), (1500, 0), (40, 41), (350, 700), (1499, 1500)):
        yield at_pressures(plain_draw([11_550_000, 11_580_000] * 3, 2), (out, back) * 3)
        allowed = LIMIT * 23_100_000 // 10_000
        for spread in (0, allowed, allowed + 1):
            trips = [parted(23_100_000 + off, rng) for off in (0, spread, 0)]
            volumes = [volume for pair in trips for volume in pair]
            passes = enumerate(zip(volumes, (out, back, back, out, out, out), strict=True), 1)
            fills = (fill_to(volume, prover, number, at) for number, (volume, at) in passes)
            yield Draw(tuple(fills), prover)


def fill_to(volume, prover, number, pressure):
    """The fill that alone makes a pass of this volume at this pressure."""
    certified = half_up(volume * prover.pass_divisor(pressure), 10**12)
    return Fill(certified, pass_number=number, pressure=pressure)


def largest():
    """The largest round trips, past 32 bits, and the largest three that agree."""
    shapes = ((55, 1, 1, 1, 1, 1), (1, 55, 1, 1, 1, 1), (28, 28, 1, 1, 1, 1), (1, 1, 1, 1, 28, 28))
    for shape in (*shapes, (10,) * 6, (19, 1) * 3, (3,) * 20):
        for pressure in (0, 1, 1500):
            fills = fills_alike(replace(LARGEST, pressure=pressure), shape)
            yield Draw(fills, Prover(4, 400))


def without_last_pass(draw):
    last = draw.fills[-1].pass_number
    return replace(draw, fills=tuple(fill for fill in draw.fills if fill.pass_number < last))


def by_chance(rng):
    """Most as an operator has them; some with a fault, some with an odd count of passes, some of a
    unidirectional prover."""
    chance = rng.random()
    draw = valid_draw(rng) if chance < 0.1 else valid_trips(rng)
    if 0.1 <= chance < 0.2:
        fault = rng.choice(draw_faults.ANYWHERE)
        draw = fault(draw, rng.randrange(len(draw.fills)), rng)
    elif 0.2 <= chance < 0.25:
        draw = without_last_pass(draw)
    asked = rng.random()
    if asked < 0.6:
        return draw.bidirectional
    if asked < 0.9:
        return draw.trips
    return draw.draw if asked < 0.95 else draw.passes
