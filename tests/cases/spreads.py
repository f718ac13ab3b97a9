"""Cases of `spread`."""

from .arithmetic import is_half
from .shapes import line

MOST = 2**64 - 1
MOST_VALUES = 20
# The spread of a difference d is d × 100,000 ÷ smallest.
PARTS = 100_000


def spread(*values):
    return line("spread", *values)


def aimed(rng):
    # one value to twenty; none and more than twenty are bad lines
    for count in (*range(MOST_VALUES + 3), 64):
        yield spread(*[9962] * count)
        yield spread(*rng.sample(range(8000, 12001), count))
    for value in (0, 1, 9962, 2**32 - 1, 2**32, 2**63, MOST - 1, MOST, MOST + 1, 10 * MOST):
        yield spread(value)
        yield spread(value, value)
    yield from places(rng)
    for _ in range(60):
        yield from halves(rng)
        yield from ends(rng)
        yield two_words(rng)
    for high in (MOST - 1, MOST):
        for low in (1, 2, 99_999, PARTS, PARTS + 1, 2**32, 2**63, MOST - 1, MOST):
            yield spread(low, high)


def places(rng):
    """The smallest and the largest at every place; a smallest of 0 too."""
    values = rng.sample(range(9000, 9500), 5)
    for at in range(5):
        for other in (0, 1, 8999, 9500, MOST, MOST + 1):
            yield spread(*values[:at], other, *values[at + 1 :])


def halves(rng):
    """A spread that is an exact half, and those on either side of it."""
    while True:
        low = rng.choice((2, 64, 2**20)) * rng.randint(1, 10**rng.randint(1, 12))
        difference = rng.randint(1, 4) * max(1, low // 2**7)
        if is_half(difference * PARTS, low):
            break
    for high in (low + difference - 1, low + difference, low + difference + 1):
        yield spread(high, low)
        yield spread(low + 1, low, high)


def ends(rng):
    """The largest difference whose spread still has 64 bits, and one more."""
    low = rng.randint(1, PARTS - 1)
    difference = ((2 * MOST + 1) * low - 1) // (2 * PARTS)
    for high in (low + difference, low + difference + 1):
        yield spread(low, high)


def two_words(rng):
    """A difference whose hundred thousand parts pass 64 bits, by a smallest that long division in digits of 32 bits estimates worst: of its
    uppermost 32 bits the first alone is set, and those below are."""
    below = rng.randint(4, 18)
    low = 2 ** (31 + below) + 2**below - 1 - rng.randrange(2 ** (below - 3))
    return spread(low, rng.randint(2**60, MOST))


def by_chance(rng):
    chance = rng.random()
    count = rng.choice((3, 5, 5, rng.randint(1, MOST_VALUES)))
    if chance < 0.4:
        low = rng.randint(8000, 12000)
        return spread(*(low + rng.randint(0, 10) for _ in range(count)))
    if chance < 0.7:
        low = rng.randint(20_000, 6 * 10**9)
        return spread(*(low + rng.randint(0, low // 2000) for _ in range(count)))
    if chance < 0.8:
        return spread(*(rng.randint(0, 3) for _ in range(count)))
    return spread(*(rng.randrange(2 ** rng.randint(1, 64)) for _ in range(count)))
