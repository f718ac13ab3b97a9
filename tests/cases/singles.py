"""Cases of `live`."""

import struct

from .shapes import line

INFINITY = 0x7F800000
SIGN = 0x80000000


def bits(number):
    return struct.unpack("<I", struct.pack("<f", number))[0]


def reading(temperature, pressure):
    return line("live", f"{temperature:08x}", f"{pressure:08x}")


NOT_FINITE = (INFINITY, INFINITY | SIGN, 0x7F800001, 0x7FC00000, 0xFFC00001, 0xFFFFFFFF, 0x7FFFFFFF)
TINY = (0, SIGN, 1, SIGN | 1, 0x007FFFFF, 0x00800000, SIGN | 0x00800000)
HUGE = (0x7F7FFFFF, 0xFF7FFFFF, bits(1e30), bits(-1e30), bits(3e9))


def neighbours(single):
    """The singles next to one on either side, the smaller size first; 0 has one of each sign."""
    return (single - 1, single + 1) if single & ~SIGN else (SIGN | 1, 1)


def beside(number):
    """The single nearest to a number, its two neighbours, and -0 beside 0."""
    nearest = bits(number)
    return (nearest, *neighbours(nearest), *(() if nearest & ~SIGN else (SIGN,)))


def aimed(rng):
    mild, low = bits(73.25), bits(40.0)
    temperatures = [*NOT_FINITE, *TINY, *HUGE]
    for number in (-20.0, -20.05, -20.1, 200.0, 200.05, 200.1, -0.05, 0.05, -0.25, 0.25, 60.0):
        temperatures += beside(number)
    pressures = [*NOT_FINITE, *TINY, *HUGE]
    for number in (-0.4, -0.5, -1.0, 0.5, 1500.0, 1500.5, 1501.0, 1499.5, 40.5, 2.5):
        pressures += beside(number)
    for temperature in temperatures:
        yield reading(temperature, low)
    for pressure in pressures:
        yield reading(mild, pressure)
    # one fault in each place, and every pair of faults: the temperature's is told
    faults = (INFINITY, 0x7FC00000, bits(200.1), bits(-20.1), bits(1e30))
    for temperature in (*faults, mild):
        for pressure in (*faults, bits(-0.5), bits(1500.5), low):
            yield reading(temperature, pressure)
    for _ in range(120):
        yield reading(bits(rng.randint(-80, 799) / 4), bits(rng.randint(-1, 3001) / 2))


def by_chance(rng):
    if rng.random() < 0.15:
        return reading(rng.getrandbits(32), rng.choice((rng.getrandbits(32), *NOT_FINITE)))
    tenths, eighths = rng.randint(-210, 2010) / 10, rng.randint(-170, 1610) / 8
    temperature = rng.choice((rng.uniform(-22, 202), tenths, eighths))
    pressure = rng.choice((rng.uniform(-1, 1502), rng.randint(-1, 1501), rng.randint(-4, 6010) / 4))
    return reading(bits(temperature), bits(pressure))
