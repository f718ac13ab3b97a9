"""Equilibrium pressures: a liquid's is at most its pressure."""

from . import ends


def around(pressure):
    """The ends of what the pressure allows and of the range, their neighbours, the type's end."""
    allowed_ends, range_ends = ((0, pressure), ends.U16), (ends.PRESSURE, ends.U16)
    return sorted({*ends.around(allowed_ends), *ends.around(range_ends)})


def allowed(pressure, rng):
    """Half of the liquids do not boil."""
    return rng.choice((0, rng.randint(0, pressure)))


def above(pressure, rng):
    """One that a pressure in range is below: by one, within the range of pressures, beyond it."""
    _, most = ends.PRESSURE
    least = min(pressure, most) + 1
    return rng.choice((least, rng.randint(least, most + 1), rng.randint(most + 1, 65535)))


def by_chance(pressure, rng):
    return allowed(pressure, rng) if rng.random() < 0.9 else above(pressure, rng)
