"""Days at the book: requests, withdrawals and takes as they come, and settings between."""

from .book_shapes import PLACES, SHIPPERS, any_figures, calls, load, waiting
from .shapes import line

NUMBERS = (1, 2, 2**31, 2**32 - 1)


def emptied():
    """As many takes as a book holds, and one that finds nothing."""
    return [line("take")] * (PLACES + 1)


def day(rng, figures):
    """From an empty book with these figures: filled and served, then set again."""
    yield load(rng.randrange(SHIPPERS), waiting((0,) * SHIPPERS), figures=figures)
    for _ in range(3):
        for _ in range(2):
            yield from stretch(rng)
        yield line("figures")
        yield from emptied()
        yield any_figures(rng).set


def by_chance(rng):
    """A stretch of a day, long enough to fill the book and to run it dry."""
    begin = rng.random()
    if begin < 0.25:
        yield line("empty")
    elif begin < 0.5:
        yield from emptied()
        yield any_figures(rng).set
    elif begin < 0.65:
        yield load(rng.randrange(SHIPPERS), waiting((0,) * SHIPPERS), figures=any_figures(rng))
    yield from stretch(rng)
    if rng.random() < 0.15:
        yield by_chance_load(rng)
        yield from calls(rng)
        yield line("empty")
    yield line("book")
    yield line("figures")


def stretch(rng):
    pace = rng.random()
    numbers = rng.choice((6, 12, 40))
    sent = [(0, 1)]
    eager = rng.randrange(SHIPPERS)
    for _ in range(rng.randint(10, 60)):
        chance = rng.random()
        if chance < 0.35 + 0.3 * pace:
            shipper = rng.choice((eager, eager, 0, 1, 2, 3))
            if rng.random() < 0.03:
                shipper = rng.randint(0, 255)
            number = rng.randint(1, numbers) if rng.random() < 0.95 else rng.choice((0, *NUMBERS))
            sent.append((shipper, number))
            yield line("request", shipper, number)
        elif chance < 0.45 + 0.3 * pace:
            yield line("withdraw", *rng.choice(sent[-8:]))
        elif chance < 0.5 + 0.3 * pace:
            yield line("withdraw", rng.randrange(SHIPPERS), rng.randint(0, numbers))
        elif chance < 0.94:
            yield line("take")
        elif chance < 0.98:
            yield line(rng.choice(("book", "figures")))
        else:
            yield by_chance_figures(rng).set


def by_chance_figures(rng):
    """Within the rules, or with one figure that most often is not."""
    figures, shipper = any_figures(rng), rng.randrange(SHIPPERS)
    chance = rng.random()
    if chance < 0.2:
        return figures.but(shipper, reserve=rng.randint(0, PLACES + 1))
    if chance < 0.4:
        return figures.but(shipper, ceiling=rng.randint(0, PLACES + 1))
    return figures


def by_chance_load(rng):
    """A book of any figures whose lines are near their ends, sound or not."""
    figures = any_figures(rng)
    counts = [
        rng.choice((0, 1, reserve, reserve, reserve + 1, min(reserve + figures.commons, ceiling)))
        for reserve, ceiling in zip(figures.reserves, figures.ceilings)
    ]
    lines = [rng.sample(range(1, 30), count) for count in counts]
    return load(rng.choice((0, 1, 2, 3, 3, 4)), lines, figures=figures)
