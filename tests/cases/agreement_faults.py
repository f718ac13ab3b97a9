"""Faults of a book's figures: in a setting (31), on a book where someone waits (30), and in a book
from outside (20), each alone and with others."""

from .book_shapes import (
    NEW,
    PLACES,
    RESERVES,
    SHIPPERS,
    Figures,
    any_figures,
    calls,
    figures_around,
    load,
    waiting,
)
from .shapes import line

OUTSIDE = Figures((0, 14, 255, 1), (0, 1, 17, 255))
# reserves of 17 in all: one above what there is
TOO_MANY = ((13, 2, 1, 1), (2, 13, 1, 1), (1, 1, 13, 2), (1, 1, 2, 13), (5, 4, 4, 4), (4, 4, 4, 5))


def aimed(rng):
    yield from refused_settings(rng)
    yield from waiting_books(rng)
    yield from unsound_figures(rng)
    yield from unsound_beside_figures(rng)


def faulty_figures(rng, reserves=RESERVES):
    """Each fault of the figures alone, as far as it can be: with a reserve above 13, and 1 or more
    for each of the others, the reserves come to more than 16. A ceiling is one below each of these
    reserves."""
    for shipper in range(SHIPPERS):
        yield any_figures(rng).but(shipper, reserve=0)
        for ceiling in (14, 15, 16):
            yield figures_around(rng, shipper, 14, ceiling, 3)
        for ceiling in (16, 255):
            yield figures_around(rng, shipper, 255, ceiling, 3)
        for reserve in reserves:
            total = rng.randint(3, PLACES - reserve)
            yield figures_around(rng, shipper, reserve, reserve - 1, total)
        yield figures_around(rng, shipper, rng.randint(2, 13), 0, 3)
        for ceiling in (17, 255):
            yield any_figures(rng).but(shipper, ceiling=ceiling)
    for too_many in TOO_MANY:
        yield Figures(too_many, tuple(rng.randint(least, PLACES) for least in too_many))
    yield Figures((13,) * SHIPPERS, (16,) * SHIPPERS)
    # in 8 bits these reserves would come to 16, 4 and 0
    yield Figures((255, 13, 3, 1), (255, 16, 16, 16))
    yield Figures((65,) * SHIPPERS, (16,) * SHIPPERS)
    yield Figures((64,) * SHIPPERS, (64,) * SHIPPERS)
    yield Figures((0,) * SHIPPERS, (0,) * SHIPPERS)
    yield OUTSIDE


def refused_settings(rng):
    """31, and the figures kept are those of before."""
    yield line("empty")
    yield any_figures(rng).set
    for figures in faulty_figures(rng):
        yield figures.set
        yield line("figures")
    yield line("book")


def waiting_books(rng):
    """30 wherever anyone waits, before 31; the book and its figures stay, and once it is empty they
    can be set."""
    for shipper in range(SHIPPERS):
        for leaving in (line("take"), line("withdraw", shipper, 7)):
            yield line("empty")
            yield any_figures(rng).set
            yield line("request", shipper, 7)
            for figures in (any_figures(rng), NEW, OUTSIDE):
                yield figures.set
                yield line("figures")
                yield figures.set
                yield line("book")
            yield leaving
            yield OUTSIDE.set
            yield line("book")
            yield any_figures(rng).set
            yield line("figures")
    for counts in ((1, 1, 1, 1), (1, 0, 0, 1), (0, 1, 1, 0)):
        yield load(2, waiting(counts), figures=any_figures(rng))
        yield any_figures(rng).set
        yield OUTSIDE.set
        yield line("book")


def settings_tried(rng):
    yield any_figures(rng).set
    yield OUTSIDE.set
    yield NEW.set


def unsound_figures(rng):
    """20 for every call, before all that is wrong with the call or the setting."""
    for figures in faulty_figures(rng, (1, 2, 13)):
        for counts in ((0, 0, 0, 0), (1, 1, 1, 1)):
            # with nobody waiting the figures are at fault alone
            yield load(rng.randrange(SHIPPERS), waiting(counts), figures=figures)
            yield from settings_tried(rng)
            yield from calls(rng)


def unsound_beside_figures(rng):
    """One more waits than the shipper's ceiling allows, or than the commons hold; at each of them
    the book is sound. And the faults that have nothing to do with the figures."""
    for shipper in range(SHIPPERS):
        for ceiling in RESERVES:
            if ceiling < RESERVES[-1]:
                # with three ones beside it the commons hold one more than the ceiling
                figures = figures_around(rng, shipper, rng.randint(1, ceiling), ceiling, 3)
                for count in (ceiling, ceiling + 1):
                    yield from judged(rng, figures, shipper, count)
    for _ in range(30):
        figures = any_figures(rng)
        shipper = rng.randrange(SHIPPERS)
        most = figures.reserves[shipper] + figures.commons
        figures = figures.but(shipper, ceiling=PLACES)
        for count in (most, most + 1):
            yield from judged(rng, figures, shipper, count, figures.reserves)
    for shipper in range(SHIPPERS):
        figures = any_figures(rng, most=8).but(shipper, reserve=2, ceiling=9)
        for spoiled in ([3, 0], [3, 3], [3, 4, 0, 5]):
            lines = waiting((1,) * SHIPPERS)
            lines[shipper] = spoiled
            counts = [1] * SHIPPERS
            counts[shipper] = 2
            yield load(0, lines, counts, figures)
            yield from settings_tried(rng)
            yield from calls(rng)
    for last in (4, 255):
        for count in (0, 1):
            yield load(last, waiting((count,) * SHIPPERS), figures=any_figures(rng))
            yield from settings_tried(rng)
            yield from calls(rng)


def judged(rng, figures, shipper, count, others=(0,) * SHIPPERS):
    counts = [*others]
    counts[shipper] = count
    yield load(rng.randrange(SHIPPERS), waiting(counts), figures=figures)
    yield line("figures")
    yield any_figures(rng).set
    yield line("request", rng.randrange(SHIPPERS), 99)
    yield line("withdraw", shipper, 1)
    yield line("take")
    yield line("book")
