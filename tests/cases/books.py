"""Cases of a new book's figures: `request`, `withdraw`, `take`, `book`, `load`, `empty`."""

from .book_shapes import SHIPPERS, calls, load, waiting
from .shapes import line


def aimed(rng):
    yield from figure()
    yield from ceilings(rng)
    yield from turns()
    yield from sound_books(rng)
    yield from unsound_books(rng)
    yield line("empty")
    yield line("book")


def figure():
    """01's figure: shipper 0's ninth is 24, shipper 1's fifth is 25, shipper 2's first goes in."""
    yield line("empty")
    for number in range(1, 10):
        yield line("request", 0, number)
    for number in range(1, 6):
        yield line("request", 1, number)
    yield line("request", 2, 1)
    yield line("book")


def ceilings(rng):
    """23 before 24 before 25, and each number of the request's order on a full book."""
    for first in range(SHIPPERS):
        yield line("empty")
        eager, second, third, fourth = ((first + step) % SHIPPERS for step in range(SHIPPERS))
        for number in range(1, 9):
            yield line("request", eager, number)
        for number in (8, 1, 9, 0):
            yield line("request", eager, number)
        for number in range(1, 5):
            yield line("request", second, number)
        for number in (4, 5, 0):  # waiting, commons full, zero
            yield line("request", second, number)
        for number in (1, 9):  # at the ceiling with the commons full
            yield line("request", eager, number)
        for shipper in (third, fourth):
            for number in (1, 1, 2, 3, 2):
                yield line("request", shipper, number)
        for shipper in (4, 5, 255):
            for number in (0, 1):
                yield line("request", shipper, number)
                yield line("withdraw", shipper, number)
        yield line("withdraw", eager, 0)
        yield line("withdraw", eager, 9)
        yield line("withdraw", eager, rng.randint(2, 7))
        yield line("request", eager, 9)
        yield line("withdraw", second, 4)
        yield line("request", third, 3)
        yield line("request", second, 4)
        yield line("book")
        for _ in range(18):
            yield line("take")
            yield line("book")
        yield line("withdraw", eager, 1)


def turns():
    """A take goes round from the one after the last served; a refused one changes nothing."""
    for last in range(SHIPPERS):
        for filled in range(16):
            counts = [2 * (filled >> shipper & 1) for shipper in range(SHIPPERS)]
            yield load(last, waiting(counts))
            for _ in range(4):
                yield line("take")
            yield line("book")


def sound_books(rng):
    for counts in (
        (0, 0, 0, 0),
        (8, 0, 0, 0),
        (8, 4, 2, 2),
        (2, 8, 4, 0),
        (4, 4, 4, 4),
        (3, 5, 4, 4),
        (2, 2, 8, 4),
        (6, 6, 0, 0),
        (2, 2, 2, 2),
        (1, 8, 3, 3),
        (0, 0, 0, 8),
    ):
        for last in range(SHIPPERS):
            yield load(last, waiting(counts))
            yield from calls(rng)
    for last in range(SHIPPERS):
        yield load(last, [rng.sample(range(1, 2**32), 4) for _ in range(SHIPPERS)])
        yield line("book")
        for _ in range(17):
            yield line("take")


def unsound_books(rng):
    for last in (4, 5, 255):
        yield load(last, waiting((1, 1, 1, 1)))
        yield from calls(rng)
    for counts in (
        (9, 0, 0, 0),
        (0, 0, 0, 9),
        (8, 8, 0, 0),
        (8, 4, 3, 0),
        (5, 4, 4, 4),
        (8, 4, 3, 2),
        (16, 16, 16, 16),
        (0, 16, 0, 0),
    ):
        yield load(3, waiting(counts))
        yield from calls(rng)
    for shipper in range(SHIPPERS):
        # counts past the places, or that disagree with the numbers written
        for count in (1, 3, 9, 17, 255):
            lines = waiting((2, 2, 2, 2))
            counts = [2] * SHIPPERS
            counts[shipper] = count
            yield load(shipper, lines, counts)
            yield from calls(rng)
        for at in (0, 1, 3):
            lines = waiting((4, 4, 4, 4))
            lines[shipper][at] = 0
            yield load(shipper, lines)
            yield from calls(rng)
        for pair in ((0, 1), (0, 7), (6, 7)):
            lines = [[], [], [], []]
            lines[shipper] = list(range(1, 9))
            lines[shipper][pair[1]] = lines[shipper][pair[0]]
            yield load(shipper, lines)
            yield from calls(rng)
        for at in (4, 8, 15):  # an unused place that is not zero
            lines = [numbers + [0] * 12 for numbers in waiting((4, 4, 4, 4))]
            lines[shipper][at] = rng.choice((1, 2**32 - 1))
            yield load(shipper, lines, [4] * SHIPPERS)
            yield from calls(rng)
        # the same number may wait for two shippers
        lines = [[7], [7], [7], [7]]
        yield load(shipper, lines)
        yield from calls(rng)
    # each pair of faults in one book
    for last in (3, 9):
        for counts in ((2, 2, 2, 2), (9, 2, 2, 2), (8, 5, 3, 2)):
            for number in (0, 1, 2):
                lines = waiting(counts)
                lines[0][1] = number
                yield load(last, lines)
                yield from calls(rng)
