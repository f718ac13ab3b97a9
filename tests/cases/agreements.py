"""Cases of places by agreement: `set`, `figures`, and what goes into a book of any figures."""

from . import agreement_faults, book_days
from .book_shapes import (
    NEW,
    PLACES,
    RESERVES,
    SHIPPERS,
    Figures,
    any_figures,
    figures_around,
    load,
    others_than,
    shared,
    waiting,
)
from .shapes import line


def aimed(rng):
    yield from settings(rng)
    yield from agreement_faults.aimed(rng)
    yield from turns_kept(rng)
    yield from at_ceilings(rng)
    yield from at_reserves(rng)
    yield from beyond_reach(rng)
    yield from commons(rng)
    yield from reckoned_anew(rng)
    for _ in range(6):
        yield from book_days.day(rng, any_figures(rng))
    yield line("empty")
    yield line("figures")


def most_of_others(reserve):
    """What the reserves of the other three can come to."""
    return PLACES - reserve


def settings(rng):
    """Each reserve and each ceiling of each shipper, set and told."""
    yield line("empty")
    yield line("figures")
    for shipper in range(SHIPPERS):
        pairs = [(reserve, reserve) for reserve in RESERVES]
        pairs += [(reserve, PLACES) for reserve in RESERVES]
        pairs += [(rng.randint(1, min(most, 13)), most) for most in range(1, PLACES + 1)]
        for reserve, ceiling in pairs:
            total = rng.randint(3, most_of_others(reserve))
            yield figures_around(rng, shipper, reserve, ceiling, total).set
            yield line("figures")
    for figures in (Figures((4,) * 4, (4,) * 4), Figures((1,) * 4, (1,) * 4), NEW, NEW):
        yield figures.set
        yield line("figures")
        yield line("book")


def turns_kept(rng):
    """A setting leaves the last served: the next take goes round from the one after it."""
    for last in range(SHIPPERS):
        for _ in range(4):
            yield load(last, waiting((0,) * SHIPPERS), figures=any_figures(rng))
            yield from set_and_served(rng)
        # as the day itself leaves it: the last one waiting is taken, or withdrawn after a take
        yield line("empty")
        yield line("request", last, 5)
        yield line("take")
        yield from set_and_served(rng)
        yield line("request", last, 6)
        yield line("request", (last + 1) % SHIPPERS, 7)
        yield line("take")
        yield line("take")
        yield line("request", last, 8)
        yield line("withdraw", last, 8)
        yield from set_and_served(rng)


def set_and_served(rng):
    yield any_figures(rng).set
    yield line("book")
    for shipper in rng.sample(range(SHIPPERS), SHIPPERS):
        yield line("request", shipper, 1)
    for _ in range(SHIPPERS):
        yield line("take")
    yield line("book")


def at_ceilings(rng):
    """One below its own ceiling a shipper gets in while commons are left, at it nothing goes in."""
    for shipper in range(SHIPPERS):
        for ceiling in RESERVES:
            for reserve in sorted({1, rng.randint(1, ceiling), ceiling}):
                # the commons hold what the ceiling is above the reserve
                total = rng.randint(3, PLACES - ceiling)
                figures = figures_around(rng, shipper, reserve, ceiling, total)
                counts = [rng.randint(0, held) for held in figures.reserves]
                counts[shipper] = ceiling - 1
                yield load(rng.randrange(SHIPPERS), waiting(counts), figures=figures)
                yield line("request", shipper, 99)
                yield line("request", shipper, 98)
                yield line("request", shipper, 99)
                yield line("figures")


def at_reserves(rng):
    """Below its own reserve a shipper gets in though the commons are used up; at it, only while one
    of them is left."""
    for shipper in range(SHIPPERS):
        for reserve in RESERVES:
            most_total = most_of_others(reserve)
            # as many commons as there can be beside that reserve, some, and none
            totals = (3, rng.randint(3, most_total), most_total)
            for eager, total in zip(others_than(shipper), totals):
                ceiling = rng.randint(reserve + 1, PLACES)
                figures = figures_around(rng, shipper, reserve, ceiling, total)
                most = figures.reserves[eager] + figures.commons
                figures = figures.but(eager, ceiling=rng.randint(most, PLACES))
                counts = [rng.randint(0, held) for held in figures.reserves]
                counts[shipper], counts[eager] = reserve - 1, most
                yield load(rng.randrange(SHIPPERS), waiting(counts), figures=figures)
                yield line("request", shipper, 99)
                yield line("request", shipper, 98)
                yield line("request", shipper, 99)
                if figures.commons:
                    counts[shipper], counts[eager] = reserve, most - 1
                    yield load(rng.randrange(SHIPPERS), waiting(counts), figures=figures)
                    yield line("request", shipper, 99)
                    yield line("request", shipper, 98)
                yield line("figures")


def beyond_reach(rng):
    """Ceilings of 14 to 16: the commons are used up first, at 13 places at the latest."""
    for shipper in range(SHIPPERS):
        for ceiling in (14, 15, 16):
            yield line("empty")
            yield figures_around(rng, shipper, rng.choice(RESERVES), ceiling, 3).set
            for number in range(1, 15):
                yield line("request", shipper, number)
            yield line("figures")


def commons(rng):
    """All commons that there can be, and of each as many used as can be."""
    for in_all in range(PLACES - SHIPPERS + 1):
        for used in range(in_all + 1):
            reserves = tuple(shared(rng, PLACES - in_all, SHIPPERS))
            counts = [*reserves]
            for shipper in rng.choices(range(SHIPPERS), k=used):
                counts[shipper] += 1
            # one that uses none of the commons may wait below its reserve
            counts = [
                rng.randint(0, count) if count == reserve else count
                for count, reserve in zip(counts, reserves)
            ]
            ceilings = tuple(
                rng.randint(max(count, reserve), PLACES) for count, reserve in zip(counts, reserves)
            )
            figures = Figures(reserves, ceilings)
            yield load(rng.randrange(SHIPPERS), waiting(counts), figures=figures)
            yield line("figures")
            for shipper in rng.sample(range(SHIPPERS), SHIPPERS):
                yield line("request", shipper, 99)
            yield line("figures")


def reckoned_anew(rng):
    """One setting after another on one book, filled and served each time."""
    yield line("empty")
    for _ in range(30):
        yield any_figures(rng, most=rng.choice((6, 10, PLACES))).set
        yield line("figures")
        for shipper in rng.sample(range(SHIPPERS), SHIPPERS):
            for number in range(1, rng.choice((3, 6, 15))):
                yield line("request", shipper, number)
        yield line("figures")
        for _ in range(PLACES):
            yield line("take")
