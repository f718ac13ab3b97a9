"""Draws as an operator has them, most of them accepted or nearly so."""

from dataclasses import replace

from . import ends
from .arithmetic import half_up
from .proving_days import valid_prover, within
from .shapes import Draw, Fill

LIMIT = 2


def threes_at_the_limit(smallests, rng):
    """Three volumes whose spread is the largest that is allowed, and one more; in any order."""
    for smallest in smallests:
        allowed = LIMIT * smallest // 10_000
        for spread in (allowed, allowed + 1):
            for middle in (0, spread, rng.randint(0, spread)):
                three = [smallest, smallest + middle, smallest + spread]
                for _ in range(2):
                    rng.shuffle(three)
                    yield three


def valid_fill(rng):
    temperature = rng.randint(350, 1050)
    return Fill(
        rng.choice((1_155_150, 693_127, 115_523, rng.randint(20_000, 100_000_000))),
        rng.randint(-10000, 10000),
        temperature,
        within(temperature + rng.randint(-30, 30), (321, 1050)),
        rng.choice((186, 265, rng.randint(100, 400))),
        1_000_000 + rng.randint(-400, 400),
    )


def volume_of(fills, prover):
    drawn = sum(fill.drawn(prover) for fill in fills)
    return half_up(drawn * 10**12, prover.pass_divisor(fills[0].pressure))


def steered(fills, wanted, prover):
    """The fills of a pass with the last scale reading moved so that the pass has this volume."""
    for _ in range(3):
        off = wanted - volume_of(fills, prover)
        if off == 0:
            break
        scale = within(fills[-1].scale + off, (-10000, 10000))
        fills = fills[:-1] + [replace(fills[-1], scale=scale)]
    return fills


def drawn_again(measures, number, pressure, rng):
    """The fills of a pass by the same measures."""
    return [
        replace(
            fill,
            pass_number=number,
            pressure=pressure,
            ctdw=fill.ctdw + rng.randint(-3, 3),
            prover_temperature=within(fill.prover_temperature + rng.randint(-3, 3), (350, 1050)),
        )
        for fill in measures
    ]


def valid_measures(count, rng):
    return [replace(valid_fill(rng), scale=rng.randint(-2000, 2000)) for _ in range(count)]


def near(pressure, rng):
    return within(pressure + rng.choice((0, 0, rng.randint(-3, 3))), ends.PRESSURE)


class Aim:
    """The volumes wanted of passes or round trips, from the first of them on: most agree with it or
    nearly so."""

    def __init__(self, first, rng):
        self.first = first
        self.allowed = LIMIT * first // 10_000
        self.spread = rng.choice((self.allowed // 2, self.allowed, self.allowed, self.allowed + 1))

    def next(self, rng):
        wanted = self.first + rng.choice((0, self.spread, rng.randint(0, self.spread)))
        if rng.random() < 0.1:
            wanted += rng.choice((-1, 1)) * rng.randint(1, 3 * self.allowed + 1)
        return wanted


def valid_draw(rng):
    prover = valid_prover(rng)
    count = rng.choice((3, 3, 3, 4, 5, rng.randint(3, 20)))
    measures = valid_measures(rng.randint(1, min(4, 60 // count)), rng)
    pressure = rng.randint(0, 200)
    aim = None
    fills = []
    for number in range(1, count + 1):
        pressure = near(pressure, rng)
        own = drawn_again(measures, number, pressure, rng)
        if aim is None:
            aim = Aim(volume_of(own, prover), rng)
        else:
            own = steered(own, aim.next(rng), prover)
        fills += own
    return Draw(tuple(fills), prover)
