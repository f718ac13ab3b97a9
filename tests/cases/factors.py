"""Cases of `cts`, `cps` and `cpl`."""

from . import ends, equilibria
from .arithmetic import is_half
from .shapes import line


def aimed(rng):
    yield from cts_ends()
    yield from cps_ends()
    yield from cpl_ends()
    yield from halves(rng)


def cts_ends():
    for places in (4, 6):
        for temperature in ends.around((ends.TEMPERATURE, ends.I16)):
            for metal in (0, 1, 2, 3, 4, 5, 255):
                yield line("cts", temperature, metal, 0, places)
            for certificate in ends.around((ends.COEFFICIENT, ends.U16)):
                for metal in (0, 4, 5):
                    yield line("cts", temperature, metal, certificate, places)


def cps_ends():
    plain = {"inside": 10020, "wall": 365, "modulus": 30_000_000}
    for places in (4, 6):
        for pressure in ends.around((ends.PRESSURE, ends.U16)):
            for name in plain:
                for value in ends.around(ends.PROVER[name]):
                    yield line("cps", pressure, *{**plain, name: value}.values(), places)
        for inside in ends.INSIDE:
            for wall in ends.WALL:
                for modulus in ends.MODULUS:
                    yield line("cps", 1500, inside, wall, modulus, places)


def cpl_ends():
    for places in (4, 6):
        for pressure in ends.around((ends.PRESSURE, ends.U16)):
            for compressibility in ends.around((ends.COMPRESSIBILITY, ends.U16)):
                for equilibrium in equilibria.around(pressure):
                    yield line("cpl", pressure, compressibility, equilibrium, places)


def halves(rng):
    """Exact halves: CTS where (T - 600) × Gc is an odd multiple of half a unit, CPS likewise."""
    for places in (4, 6):
        unit = 10 ** (8 - places)
        found = 0
        while found < 60:
            coefficient, temperature = rng.randint(100, 400), rng.randint(-200, 2000)
            if is_half((temperature - 600) * coefficient, unit):
                found += 1
                yield line("cts", temperature, rng.randint(0, 4), coefficient, places)
        found = 0
        while found < 60:
            pressure, wall = rng.randint(1, 1500), rng.choice((125, 250, 375, 500, 1000, 1250))
            modulus = rng.choice((20_000_000, 25_000_000, 30_000_000))
            inside = rng.randint(1, 60) * 1000
            if is_half(pressure * inside * 10**places, wall * modulus):
                found += 1
                yield line("cps", pressure, inside, wall, modulus, places)


def by_chance(rng):
    places = rng.choice((4, 6))
    kind = rng.randrange(3)
    if kind == 0:
        certificate = rng.choice((0, rng.randint(100, 400), rng.randint(0, 500)))
        temperature = rng.randint(-200, 2000) if rng.random() < 0.9 else rng.randint(-32768, 32767)
        return line("cts", temperature, rng.randint(0, 5), certificate, places)
    if kind == 1:
        pressure = rng.randint(0, 1500) if rng.random() < 0.95 else rng.randint(0, 65535)
        inside = rng.randint(1000, 60000) if rng.random() < 0.95 else rng.randint(0, 2**32 - 1)
        return line(
            "cps", pressure, inside, rng.randint(100, 3000), rng.randint(10**7, 4 * 10**7), places
        )
    pressure = rng.randint(0, 1500) if rng.random() < 0.95 else rng.randint(0, 65535)
    compressibility = rng.randint(0, 10000) if rng.random() < 0.95 else rng.randint(0, 65535)
    equilibrium = equilibria.by_chance(pressure, rng)
    return line("cpl", pressure, compressibility, equilibrium, places)
