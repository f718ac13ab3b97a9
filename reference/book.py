"""The book of waiting requests (01, The book; 02, places by agreement), by value: a call gives the
book that comes back."""

from collections import namedtuple

from refusals import (
    ALREADY_WAITING,
    BOOK_NOT_EMPTY,
    BOOK_NOT_SOUND,
    CEILING_REACHED,
    COMMONS_FULL,
    FIGURES_OUTSIDE_RULES,
    NOT_WAITING,
    NOTHING_TO_TAKE,
    NUMBER_ZERO,
    UNKNOWN_SHIPPER,
    Refused,
)

SHIPPERS = 4
PLACES = 16
# 02: "reserve 1 to 13"
RESERVE = range(1, 14)

# Four of each, shipper 0's first.
Figures = namedtuple("Figures", "reserves ceilings")

# `lines` holds each shipper's sixteen places, the waiting numbers first, oldest first.
Book = namedtuple("Book", "last counts figures lines")

# 02: "The default is 2 and 8 for all"
DEFAULT = Figures((2,) * SHIPPERS, (8,) * SHIPPERS)

# "a new book has 3 as last served"
EMPTY = Book(3, (0,) * SHIPPERS, DEFAULT, ((0,) * PLACES,) * SHIPPERS)


def within_rules(figures):
    # 02: "reserve 1 to 13, ceiling from that reserve to 16, reserves adding up to at most 16"
    return (
        all(reserve in RESERVE for reserve in figures.reserves)
        and all(reserve <= ceiling <= PLACES for reserve, ceiling in zip(*figures))
        and sum(figures.reserves) <= PLACES
    )


def commons(book):
    # 02: "commons the rest of 16"
    return PLACES - sum(book.figures.reserves)


def commons_used(book):
    # "Commons used = sum over shippers of what each has waiting beyond" its own reserve
    reserves = book.figures.reserves
    return sum(max(count - reserve, 0) for count, reserve in zip(book.counts, reserves))


def line_is_sound(count, line):
    # "waiting numbers are non-zero and differ within a shipper, unused places are zero"
    waiting, unused = line[:count], line[count:]
    return 0 not in waiting and len(set(waiting)) == count and not any(unused)


def is_sound(book):
    # "sound when counts and commons keep these figures, ... and the last served is 0 to 3";
    # 02: "A book with figures outside these rules isn't sound"
    return (
        book.last < SHIPPERS
        and within_rules(book.figures)
        and all(count <= ceiling for count, ceiling in zip(book.counts, book.figures.ceilings))
        and commons_used(book) <= commons(book)
        and all(map(line_is_sound, book.counts, book.lines))
    )


def judge_book(book):
    if not is_sound(book):
        raise Refused(BOOK_NOT_SOUND)


def judge_call(book, shipper, number):
    judge_book(book)
    if shipper >= SHIPPERS:
        raise Refused(UNKNOWN_SHIPPER)
    if number == 0:
        raise Refused(NUMBER_ZERO)


def waiting(book, shipper):
    return book.lines[shipper][: book.counts[shipper]]


def with_line(book, shipper, numbers, last):
    """The book with that shipper's waiting numbers replaced."""
    counts, lines = list(book.counts), list(book.lines)
    counts[shipper] = len(numbers)
    lines[shipper] = numbers + (0,) * (PLACES - len(numbers))
    return book._replace(last=last, counts=tuple(counts), lines=tuple(lines))


def request(book, shipper, number):
    """01: "a request 20 to 25"; it "goes in exactly when none of 20 to 25 applies"."""
    judge_call(book, shipper, number)
    numbers = waiting(book, shipper)
    if number in numbers:
        raise Refused(ALREADY_WAITING)
    # 02: 24 and 25 "read with each shipper's own two figures and the book's own commons"
    if len(numbers) >= book.figures.ceilings[shipper]:
        raise Refused(CEILING_REACHED)
    if len(numbers) >= book.figures.reserves[shipper] and commons_used(book) >= commons(book):
        raise Refused(COMMONS_FULL)
    return with_line(book, shipper, numbers + (number,), book.last)


def withdraw(book, shipper, number):
    """01: "a withdrawal 20, 21, 22, 26"; it "removes that number from its shipper's line and
    keeps the order of the rest"."""
    judge_call(book, shipper, number)
    numbers = waiting(book, shipper)
    if number not in numbers:
        raise Refused(NOT_WAITING)
    kept = tuple(other for other in numbers if other != number)
    return with_line(book, shipper, kept, book.last)


def take(book):
    """01: "A take hands out the oldest request of the first shipper with any, going round from
    the one after the last served"; "a take 20, 27". Shipper, number and the book."""
    judge_book(book)
    for step in range(1, SHIPPERS + 1):
        shipper = (book.last + step) % SHIPPERS
        numbers = waiting(book, shipper)
        if numbers:
            return shipper, numbers[0], with_line(book, shipper, numbers[1:], shipper)
    raise Refused(NOTHING_TO_TAKE)


def set_figures(book, figures):
    """02: "Figures are set on an empty book only, and the turn order is kept"; "30 for setting a
    book that isn't empty, 31 for figures outside the rules, after 20"."""
    judge_book(book)
    if any(book.counts):
        raise Refused(BOOK_NOT_EMPTY)
    if not within_rules(figures):
        raise Refused(FIGURES_OUTSIDE_RULES)
    return book._replace(figures=figures)
