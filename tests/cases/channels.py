"""Cases of `channels`."""

from itertools import chain, cycle

from . import faulty_channels
from .channel_shapes import (
    CELSIUS,
    FAHRENHEIT,
    FAULT,
    KINDS,
    PRESSURE,
    RANGES,
    SPECIAL,
    Channel,
    Channels,
    fahrenheit,
    fault,
    highest,
    lowest,
    psi,
    stepped,
)
from .panels import SPANS, in_range
from .singles import beside, bits, reading

# 18c + 320 is a whole number and a half exactly where 36c is odd, and c is a whole number over a
# power of two: 36 is 4 times 9, so that power is 4, and c is an odd number of quarters. In °F it is
# 20f that is odd, and 20 is 4 times 5. Those in range, and the next past each end.
CELSIUS_HALVES = range(-117, 376, 2)
FAHRENHEIT_HALVES = range(-81, 802, 2)


def aimed(rng):
    for channels in chain(
        every_step(), halves(), around_zero(), in_fahrenheit(), faulty_channels.aimed()
    ):
        yield channels.line
    yield from refused_beside_live()
    yield from faulty_channels.bad_lines()


def steps(kind):
    """Each whole number in range by the lowest and the highest single that means it, and the
    singles next past both ends. A rule that never falls from one single to the next, and that is
    right in these, is right in all."""
    low, high = RANGES[kind]
    yield highest(kind, low - 1)
    for number in range(low, high + 1):
        yield from (lowest(kind, number), highest(kind, number))
    yield lowest(kind, high + 1)


def every_step():
    past, *pressures, past_too = (Channel(PRESSURE, single) for single in steps(PRESSURE))
    for single, pressure in zip(steps(CELSIUS), cycle(pressures)):
        yield Channels(Channel(CELSIUS, single), pressure)
    for pressure in (past, past_too):
        yield Channels(Channel(CELSIUS, 0), pressure)
    past, first, *_, last, past_too = steps(FAHRENHEIT)
    for single in (past, first, last, past_too):
        yield Channels(Channel(FAHRENHEIT, single), psi(40))


def halves():
    """Each exact half in Celsius with the singles on either side of it, and each in Fahrenheit."""
    pressures = cycle(psi(number + 0.5) for number in in_range("panel_pressure")[:-1])
    for quarters in CELSIUS_HALVES:
        for by in (-1, 0, 1):
            yield Channels(Channel(CELSIUS, stepped(bits(quarters / 4), by)), next(pressures))
    for quarters in FAHRENHEIT_HALVES:
        yield Channels(fahrenheit(quarters / 4), next(pressures))


def around_zero():
    """Where tenths of °F pass 0, and where degrees of each scale do."""
    for number in (-160 / 9, -17.75, -17.8, -320.5 / 18, -18.25, -0.25, 0.0, 0.25):
        for kind in (CELSIUS, FAHRENHEIT):
            for single in beside(number):
                yield Channels(Channel(kind, single), psi(40))


def in_fahrenheit():
    """What the panel shows, which `live` is given too."""
    tenths, pressures = map(in_range, SPANS)
    for number, pressure in zip(tenths, cycle(pressures)):
        yield Channels(fahrenheit(number / 10), psi(pressure))


def refused_beside_live():
    """The same two singles to `live`, where one of them, both or neither are in order."""
    temperatures = (*SPECIAL.values(), *map(bits, (-20.1, -20.0, 73.25, 200.0, 200.1)))
    pressures = (*SPECIAL.values(), *map(bits, (-1.0, -0.5, 40.0, 1500.0, 1500.5)))
    both = [(single, bits(40.0)) for single in temperatures]
    both += [(bits(73.25), single) for single in pressures]
    both += [(one, other) for one in temperatures[::3] for other in pressures[::3]]
    for temperature, pressure in both:
        yield reading(temperature, pressure)
        yield Channels(Channel(FAHRENHEIT, temperature), Channel(PRESSURE, pressure)).line


def near_a_step(kind, rng):
    low, high = RANGES[kind]
    number = rng.randint(low - 1, high + 1)
    return stepped(lowest(kind, number), rng.choice((-2, -1, -1, 0, 0, 1)))


def by_chance_of(kind, rng):
    if kind == PRESSURE:
        low, high, parts = -1, 1502, rng.choice((1, 2, 4))
    else:
        low, high = (-30, 95) if kind == CELSIUS else (-22, 202)
        parts = rng.choice((4, 8, 10, 20, 100))
    numbers = rng.uniform(low, high), rng.randint(low * parts, high * parts) / parts
    return Channel(kind, rng.choice((*map(bits, numbers), near_a_step(kind, rng))))


def any_channel(rng):
    kind = rng.choice(KINDS)
    if rng.random() < 0.5:
        return faulty_channels.SOUND[kind]
    if kind == FAULT:
        return fault(rng.randrange(256))
    return Channel(kind, rng.choice((rng.getrandbits(32), *SPECIAL.values())))


def by_chance(rng):
    if rng.random() < 0.2:
        return Channels(any_channel(rng), any_channel(rng)).line
    kind = rng.choice((FAHRENHEIT, CELSIUS, CELSIUS))
    return Channels(by_chance_of(kind, rng), by_chance_of(PRESSURE, rng)).line
