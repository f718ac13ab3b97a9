"""Bidirectional draws as an operator has them, most of them accepted or nearly so."""

from dataclasses import replace

from . import ends
from .draw_days import Aim, drawn_again, near, steered, valid_measures, volume_of
from .proving_days import valid_prover, within
from .shapes import Draw


def valid_trips(rng):
    """Out and back differ in volume, and most of them in pressure."""
    prover = valid_prover(rng)
    count = rng.choice((3, 3, 3, 4, 5, rng.randint(3, 10)))
    measures = valid_measures(rng.randint(1, min(4, 60 // (2 * count))), rng)
    returning = [replace(measures[0], scale=rng.randint(-5000, 5000)), *measures[1:]]
    pressure = rng.randint(0, 200)
    lost = rng.choice((0, rng.randint(-40, 40)))
    aim = None
    fills = []
    for trip in range(1, count + 1):
        pressure = near(pressure, rng)
        back_pressure = near(within(pressure - lost, ends.PRESSURE), rng)
        out = drawn_again(measures, 2 * trip - 1, pressure, rng)
        back = drawn_again(returning, 2 * trip, back_pressure, rng)
        if aim is None:
            aim = Aim(volume_of(out, prover) + volume_of(back, prover), rng)
        else:
            back = steered(back, aim.next(rng) - volume_of(out, prover), prover)
        fills += out + back
    return Draw(tuple(fills), prover)
