"""Passes on an exact half, out, back and both, and what lies beside them: each pass is rounded
before the two are added."""

from math import gcd

from .ends import PRESSURE
from .plain import at_pressures, plain_trips
from .shapes import Prover

FILLS_EACH = 10
LEAST, MOST = 50_000_000, 900_000_000


def halves(rng):
    for _ in range(12):
        prover, pressures, steps = pipe(rng)
        out, back = (odd_multiple(step, rng) for step in steps)
        beside = (1, rng.randint(2, 9), -rng.randint(1, 9))
        pairs = [(out, back)]
        pairs += [(out, back + off) for off in beside]
        pairs += [(out + off, back) for off in beside]
        one_of_each = [(out, back), (out, back + 1), (out + 1, back)]
        for three in (*([pair] * 3 for pair in pairs), one_of_each):
            yield at_pressures(plain_trips(three, FILLS_EACH, prover=prover), pressures * 3)


def pipe(rng):
    """A prover, two pressures at which its passes can lie on a half, which may be one pressure, and
    the steps of the sums that do."""
    while True:
        prover = Prover(0, 0, rng.randint(1000, 60000), rng.randint(100, 3000))
        found = [*half_steps(prover)]
        if len(found) > 1:
            return prover, *zip(*rng.choices(found, k=2))


def half_steps(prover):
    """A pass is its sum × 10^12 ÷ (CPS × CPL). With thirteen twos in that product, a half is every
    odd multiple of what the product has not in common with 2 × 10^12."""
    least, most = PRESSURE
    for pressure in range(least + 1, most + 1):
        product = prover.pass_divisor(pressure)
        step = product // gcd(product, 2 * 10**12)
        if product % 2**13 == 0 and step < MOST:
            yield pressure, step


def odd_multiple(step, rng):
    least = max(LEAST // step, 1) | 1
    return step * rng.randrange(least, max(MOST // step, least) + 1, 2)
