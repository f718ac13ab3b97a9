"""Cases of `draw`, `passes` and `fill`."""

from dataclasses import replace

from . import draw_ends, draw_faults, draw_halves
from .draw_days import threes_at_the_limit, valid_draw
from .plain import LARGEST, fills_alike, plain_draw
from .shapes import Draw, Fill, Prover


def aimed(rng):
    yield from record_ends(rng)
    yield from unnamed_bytes(rng)
    yield from setting_ends()
    yield from count_ends(rng)
    yield from group_edges(rng)
    yield from group_places()
    yield from draw_faults.alone_and_in_pairs(rng)
    yield from draw_halves.halves(rng)
    yield from largest()


def record_ends(rng):
    for draw, at in draw_ends.fields(4, rng):
        yield draw.draw
        yield draw.passes
        if at is not None:
            yield draw.fill(at)
    for prover_temperature in (350, 1050):
        for measure_temperature in (321, 1050):
            for coefficient in (100, 400):
                for certificate in (100, 400):
                    for ctdw in (980_000, 1_020_000):
                        temperatures = prover_temperature, measure_temperature
                        fill = Fill(100_000_000, 10000, *temperatures, coefficient, ctdw)
                        yield Draw((fill,), Prover(4, certificate)).fill()


def unnamed_bytes(rng):
    for draw, at in draw_ends.unnamed_bytes(4, rng):
        yield draw.draw
        yield draw.passes
        yield draw.fill(at)


def setting_ends():
    for draw in draw_ends.settings(3):
        yield draw.draw
        yield draw.passes
        yield draw.fill()
    for draw in draw_ends.metals(3):
        yield draw.draw
        yield draw.fill()


def count_ends(rng):
    for passes in (1, 2, 3, 4, 19, 20, 21, 22, 59, 60, 61):
        for each in (1, 2, 3):
            draw = plain_draw([1_155_000] * passes, each)
            yield draw.draw
            yield draw.passes
    for fills in (0, 1, 2, 3, 59, 60, 61, 62, 255):
        whole = (Fill(), Fill(pass_number=2)) + (Fill(pass_number=3),) * max(fills - 2, 0)
        for tail in (0, 1, 31):
            draw = Draw(whole[:fills], tail=rng.randbytes(tail))
            yield draw.draw
            yield draw.passes
    for tail in (0, 1, 31, 32):
        yield Draw((Fill(),), tail=bytes(tail)).fill()


def group_edges(rng):
    smallests = 20_000, 24_999, 25_000, 25_001, 1_000_000, 1_155_000, 2_086_982, 99_000_000
    for three in threes_at_the_limit(smallests, rng):
        yield plain_draw(three).draw
    for off in range(9):
        yield plain_draw([1_000_000, 1_000_000, 1_000_000 + off]).draw
        yield plain_draw([970_200 * 5 + 48 + off] * 3).draw


def group_places():
    """The first group at each place in each count of passes; a tighter one later is not taken."""
    for count in range(3, 21):
        for first in range(count - 2):
            volumes = [1_100_000 + 9_000 * (at % 2) for at in range(first)]
            volumes += [1_155_000, 1_155_231, 1_155_100]
            volumes += ([1_155_100] * 2 + [1_200_000] * 20)[: count - len(volumes)]
            yield plain_draw(volumes).draw
        yield plain_draw([1_100_000 + 9_000 * (at % 2) for at in range(count)]).draw


def largest():
    """The largest products, and passes past 32 bits."""
    prover = Prover(4, 400)
    for shape in ((20, 20, 20), (58, 1, 1), (1, 58, 1), (1, 1, 58), (30, 15, 15)):
        for pressure in (0, 1, 1500):
            draw = Draw(fills_alike(replace(LARGEST, pressure=pressure), shape), prover)
            yield draw.draw
            yield draw.passes
    yield Draw(
        fills_alike(replace(LARGEST, pressure=1500), (1, 1, 1)),
        Prover(4, 100, 60000, 100, 10_000_000),
    ).draw


def by_chance(rng):
    draw = valid_draw(rng)
    if rng.random() < 0.12:
        fault = rng.choice(draw_faults.ANYWHERE)
        draw = fault(draw, rng.randrange(len(draw.fills)), rng)
    kind = rng.random()
    if kind < 0.5:
        return draw.draw
    if kind < 0.7:
        return draw.passes
    return draw.fill(rng.randrange(len(draw.fills)))
