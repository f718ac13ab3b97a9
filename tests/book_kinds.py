"""The kinds of book calls that must be reached: figures of each shipper at their ends and past
them, every fault of a book alone before every call, the orders of refusal, and what a setting
leaves."""

import book_faults
import request_kinds
from book_faults import faults_of_figures, kinds_of_figures
from cases.book_shapes import PLACES, RESERVES, SHIPPERS, Figures
from kept_book import CALLS, ENTRIES, Kept
from outcomes import BAD, OK
from request_kinds import CEILING, FULL, WAITING, ZERO

UNSOUND, UNKNOWN, NOT_EMPTY, OUTSIDE = 20, 21, 30, 31
# what a request of a shipper that there is can be answered by a sound book
JUDGED = (OK, ZERO, WAITING, CEILING, FULL)
SHORT_OF_FIGURES = 69  # operands of a `load` without its eight figures
MISCOUNTED = {"set": (7, 9), "figures": (1,), "load": (SHORT_OF_FIGURES, 76, 78)}
LEAVING = ("empty", "load", "set", "take", "withdraw")
ZERO_TOO = "a number of zero too"


def values_of(figures):
    """The figures by themselves: what each shipper has, and how it stands to its reserve."""
    for shipper, (reserve, ceiling) in enumerate(zip(figures.reserves, figures.ceilings)):
        yield f"reserve {reserve} of shipper {shipper}"
        yield f"ceiling {ceiling} of shipper {shipper}"
        if ceiling in (reserve, reserve - 1):
            yield f"ceiling {ceiling} at reserve {reserve} of shipper {shipper}"
    yield f"reserves of {sum(figures.reserves)}"


def before_others(kept, entry, operands):
    """What else is wrong with a call where the book's figures are."""
    waits = any(kept.counts)
    if entry in ("request", "withdraw"):
        shipper, number = operands
        if shipper >= SHIPPERS:
            yield "before an unknown shipper"
        elif number == 0:
            yield "before a number of zero"
        elif number in kept.lines[shipper]:
            yield "before a number that waits already"
        else:
            yield "before a number that is not waiting"
            if kept.counts[shipper] >= kept.figures.ceilings[shipper]:
                yield "before its ceiling"
            elif kept.counts[shipper] >= kept.figures.reserves[shipper]:
                if kept.used >= kept.figures.commons:
                    yield "before commons used up"
    elif entry == "take" and not waits:
        yield "before nothing to take"
    elif entry == "set":
        if waits:
            yield "before a book that is not empty"
        if any(faults_of_figures(Figures.read(operands))):
            yield "before figures outside the rules"
        elif not waits:
            yield "before a setting without a fault"


def reached(kept, entry, operands, what, values):
    if kept.faults and entry in CALLS:
        if len(kept.faults) == 1:
            yield kept.faults[0]
        if {*kept.faults} <= {*kinds_of_figures()}:
            yield from before_others(kept, entry, operands)
    elif entry == "request" and what in JUDGED:
        yield from request_kinds.reached(kept, operands[0], what)
    elif what == UNKNOWN and operands[1] == 0:
        yield ZERO_TOO
    elif entry == "set":
        yield from setting(kept, Figures.read(operands))
    elif entry in ("figures", "book"):
        yield f"after a setting refused {kept.refused}"
        if entry == "figures":
            yield f"{kept.used} used of {kept.figures.commons}"
            yield from values_of(kept.figures)
    elif entry == "take" and what == OK and kept.turn_is_kept:
        if values[0] != first_waiting(kept.counts):
            yield f"after {kept.last} and a setting, otherwise than from a new book"


def first_waiting(counts):
    """Whom a new book serves first."""
    return next(shipper for shipper, count in enumerate(counts) if count)


def setting(kept, figures):
    alone = [shipper for shipper, count in enumerate(kept.counts) if count]
    found = [*faults_of_figures(figures)]
    if alone:
        yield "outside the rules too" if found else "within the rules"
        if len(alone) == 1:
            yield f"shipper {alone[0]} alone waiting"
        return
    yield from values_of(figures)
    if len(found) == 1:
        yield found[0]
    yield f"{kept.last} last served"
    yield f"left by {kept.changed_by}"
    if figures == kept.figures:
        yield "the figures that it has"


def wanted():
    """An entry, what it answers, and to which kind of call."""
    yield from (("request", what, kind) for what, kind in request_kinds.wanted())
    yield from ((entry, UNSOUND, kind) for entry in CALLS for kind in book_faults.kinds())
    yield from (("set", what, kind) for what, kind in wanted_settings())
    yield from (("figures", OK, kind) for kind in figures_within())
    for commons in range(PLACES - SHIPPERS + 1):
        yield from (("figures", OK, f"{used} used of {commons}") for used in range(commons + 1))
    for entry in ("figures", "book"):
        yield from ((entry, OK, f"after a setting refused {what}") for what in (NOT_EMPTY, OUTSIDE))
    for last in range(SHIPPERS - 1):
        yield "take", OK, f"after {last} and a setting, otherwise than from a new book"
    for entry in ("request", "withdraw"):
        for fault in ("an unknown shipper", "a number of zero"):
            yield entry, UNSOUND, f"before {fault}"
        yield entry, UNKNOWN, ZERO_TOO
    for fault in ("a number that waits already", "its ceiling", "commons used up"):
        yield "request", UNSOUND, f"before {fault}"
    yield "withdraw", UNSOUND, "before a number that is not waiting"
    yield "take", UNSOUND, "before nothing to take"
    for entry, counts in MISCOUNTED.items():
        yield from ((entry, BAD, f"{count} operands") for count in counts)


def figures_within():
    for shipper in range(SHIPPERS):
        for most in RESERVES:
            yield f"reserve {most} of shipper {shipper}"
            yield f"ceiling {most} at reserve {most} of shipper {shipper}"
        yield from (f"ceiling {most} of shipper {shipper}" for most in range(1, PLACES + 1))
    yield from (f"reserves of {total}" for total in range(SHIPPERS, PLACES + 1))


def wanted_settings():
    yield from ((OK, kind) for kind in figures_within())
    yield from ((OK, f"{last} last served") for last in range(SHIPPERS))
    yield from ((OK, f"left by {entry}") for entry in LEAVING)
    yield OK, "the figures that it has"
    yield from ((OUTSIDE, kind) for kind in kinds_of_figures())
    yield OUTSIDE, f"reserves of {PLACES + 1}"
    for shipper in range(SHIPPERS):
        yield from ((OUTSIDE, f"reserve {one} of shipper {shipper}") for one in (0, 14, 255))
        yield from ((OUTSIDE, f"ceiling {one} of shipper {shipper}") for one in (0, 17, 255))
        for least in RESERVES:
            yield OUTSIDE, f"ceiling {least - 1} at reserve {least} of shipper {shipper}"
        yield NOT_EMPTY, f"shipper {shipper} alone waiting"
    yield from ((NOT_EMPTY, kind) for kind in ("within the rules", "outside the rules too"))
    yield UNSOUND, "before a book that is not empty"
    yield UNSOUND, "before figures outside the rules"
    yield UNSOUND, "before a setting without a fault"


class BookKinds:
    def __init__(self):
        self.begin()
        self.found = set()

    def begin(self):
        """A program that begins keeps a new book."""
        self.kept = Kept()

    def take(self, entry, line, what, answer):
        """Follow a line, and keep what it reaches."""
        if entry not in ENTRIES:
            return
        words = line.removesuffix(b"\r").split(b" ")[1:]
        if what == BAD:
            self.found.add((entry, BAD, f"{len(words)} operands"))
            return
        operands, values = [*map(int, words)], [*map(int, answer.split(b" ")[1:])]
        for kind in reached(self.kept, entry, operands, what, values):
            self.found.add((entry, what, kind))
        self.kept.follow(entry, operands, what, values)

    def missing(self):
        return [
            f"{entry} {what} with {kind}"
            for entry, what, kind in wanted()
            if (entry, what, kind) not in self.found
        ]
