"""Cases of `panel_temperature` and `panel_pressure`, and of `live` on what they show."""

from itertools import cycle

from . import ends
from .shapes import line
from .singles import bits, neighbours, reading

SPANS = {
    "panel_temperature": (ends.TEMPERATURE, ends.I16),
    "panel_pressure": (ends.PRESSURE, ends.U16),
}


def in_range(entry):
    (low, high), _ = SPANS[entry]
    return range(low, high + 1)


def past_ends(entry):
    """One past each end of the range and of the type, and the ends of the type."""
    (low, high), (least, most) = SPANS[entry]
    return {low - 1, high + 1, least - 1, least, most, most + 1} - {*in_range(entry)}


def held(entry):
    """Every number in range, and of those past its ends what the type holds."""
    _, (least, most) = SPANS[entry]
    past = (number for number in sorted(past_ends(entry)) if least <= number <= most)
    return (*in_range(entry), *past)


def aimed(rng):
    for entry in SPANS:
        for number in (*in_range(entry), *sorted(past_ends(entry))):
            yield line(entry, number)
    yield from way_back()


def way_back():
    """Each single shown, given to `live`; and its neighbours, which mean the same two numbers."""
    temperatures, pressures = map(in_range, SPANS)
    for tenths, psi in zip(temperatures, cycle(pressures)):
        temperature, pressure = bits(tenths / 10), bits(psi)
        yield reading(temperature, pressure)
        yield from map(reading, neighbours(temperature), reversed(neighbours(pressure)))


def by_chance(rng):
    entry = rng.choice((*SPANS,))
    if rng.random() < 0.8:
        return line(entry, rng.choice(in_range(entry)))
    return line(entry, ends.outside(SPANS[entry], rng))
