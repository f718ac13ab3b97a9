"""Lines for the comparison, all from one seed: the aimed ones first, then by chance."""

import random
from itertools import chain, islice

from . import (
    agreements,
    book_days,
    books,
    channels,
    draws,
    factors,
    grammar,
    long_runs,
    lookups,
    moves,
    panels,
    provings,
    reports,
    singles,
    spreads,
    tickets,
    trips,
)

# The latest last, so that the lines before them stay as they were.
AIMED = (
    factors,
    tickets,
    singles,
    panels,
    reports,
    provings,
    draws,
    spreads,
    books,
    grammar,
    trips,
    agreements,
    lookups,
    channels,
    long_runs,
    moves,
)


def aimed(rng):
    for part in AIMED:
        yield from part.aimed(rng)


def by_chance(rng):
    parts = (
        (10, factors),
        (34, provings),
        (20, draws),
        (14, trips),
        (10, tickets),
        (8, singles),
        (2, panels),
        (6, reports),
        (6, spreads),
        (6, lookups),
        (8, channels),
        (9, long_runs),
        (4, moves),
        (12, grammar),
    )
    weights = [weight for weight, _ in parts]
    modules = [part for _, part in parts]
    while True:
        for part in rng.choices(modules, weights, k=150):
            yield part.by_chance(rng)
        yield from book_days.by_chance(rng)


def cases(seed, count):
    """The first `count` lines, without their ends; none holds an LF."""
    rng = random.Random(seed)
    return islice(chain(aimed(rng), by_chance(rng)), count)
