"""A book's figures as values that can be varied, and the lines that carry a book."""

from dataclasses import dataclass

from .shapes import line

SHIPPERS = 4
PLACES = 16
RESERVES = range(1, 14)


@dataclass(frozen=True)
class Figures:
    """Each shipper's reserve and ceiling; unvaried, those of a new book."""

    reserves: tuple = (2,) * SHIPPERS
    ceilings: tuple = (8,) * SHIPPERS

    @classmethod
    def read(cls, words):
        """From a line's words, the reserves first."""
        numbers = tuple(map(int, words))
        return cls(numbers[:SHIPPERS], numbers[SHIPPERS:])

    def but(self, shipper, reserve=None, ceiling=None):
        """With another reserve or ceiling of that shipper."""
        reserves, ceilings = list(self.reserves), list(self.ceilings)
        if reserve is not None:
            reserves[shipper] = reserve
        if ceiling is not None:
            ceilings[shipper] = ceiling
        return Figures(tuple(reserves), tuple(ceilings))

    @property
    def commons(self):
        return PLACES - sum(self.reserves)

    @property
    def words(self):
        return (*self.reserves, *self.ceilings)

    @property
    def set(self):
        return line("set", *self.words)


NEW = Figures()


def load(last, lines, counts=None, figures=NEW):
    """A book by its waiting numbers; counts given apart may disagree with them."""
    counts = counts or [len(numbers) for numbers in lines]
    places = [number for numbers in lines for number in (*numbers, *[0] * (PLACES - len(numbers)))]
    return line("load", last, *counts, *figures.words, *places)


def others_than(shipper):
    return [other for other in range(SHIPPERS) if other != shipper]


def waiting(counts):
    return [list(range(1, count + 1)) for count in counts]


def shared(rng, total, among):
    """So many reserves, at least 1 each, that come to the total."""
    cuts = sorted(rng.sample(range(1, total), among - 1))
    return [end - start for start, end in zip((0, *cuts), (*cuts, total))]


def any_figures(rng, most=PLACES):
    """Figures within the rules, with reserves that come to at most so many."""
    reserves = shared(rng, rng.randint(SHIPPERS, most), SHIPPERS)
    return Figures(tuple(reserves), tuple(rng.randint(reserve, PLACES) for reserve in reserves))


def figures_around(rng, shipper, reserve, ceiling, total):
    """That shipper's two figures, and any of the others whose reserves come to the total."""
    others = iter(shared(rng, total, SHIPPERS - 1))
    reserves, ceilings = [], []
    for at in range(SHIPPERS):
        reserves.append(reserve if at == shipper else next(others))
        ceilings.append(ceiling if at == shipper else rng.randint(reserves[at], PLACES))
    return Figures(tuple(reserves), tuple(ceilings))


def calls(rng):
    """Each call once, the refused pairs among them."""
    yield line("request", rng.randrange(SHIPPERS), rng.choice((1, 3, 99)))
    yield line("request", rng.choice((4, 255)), rng.choice((0, 1)))
    yield line("request", rng.randrange(SHIPPERS), 0)
    yield line("withdraw", rng.randrange(SHIPPERS), rng.choice((1, 2, 99)))
    yield line("withdraw", 4, 0)
    yield line("withdraw", 3, 0)
    yield line("take")
    yield line("book")
    yield line("figures")
