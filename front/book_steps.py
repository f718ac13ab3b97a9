"""The steps of a book session: what a line says, and what the line program is asked for it."""

from dataclasses import dataclass

from .fields import CEILING, HOLDS, RESERVE
from .hints import echo
from .places import DEFAULT, PLACES, SHIPPERS, Book, Figures

EIGHT = "R0 R1 R2 R3 T0 T1 T2 T3"
STEPS = f"""\
request SHIPPER NUMBER    a request goes into its shipper's line, if it may
withdraw SHIPPER NUMBER   it leaves that line
take                      the prover takes the next request, going round the shippers
set {EIGHT}
                          figures by agreement, where nobody waits: the reserves of shippers 0 to 3, each
                          {RESERVE.range} and at most {PLACES} in all, then their ceilings, each from its
                          reserve to {CEILING.high}; the commons are the rest of the {PLACES} places
empty                     a new book, with reserve {RESERVE.default} and ceiling {CEILING.default} for all
load LAST L0 L1 L2 L3 [{EIGHT}]
                          a book from outside: the shipper last served, each shipper's waiting numbers in
                          order, as 101,102 or - for none, and figures; without them those of a new book
book                      the four lines with their figures, and the commons in use
help                      this list
quit                      the end; so is the end of the input
Shippers are 0 to 3, numbers 1 to 4294967295. A line that starts with # is a note.
A shipper's reserve is places of its own; beyond it, up to its ceiling, its requests take the commons."""
# How many operands a step has.
COUNTS = {
    "request": {2}, "withdraw": {2}, "take": {0}, "set": {len(DEFAULT.words)}, "empty": {0},
    "load": {1 + SHIPPERS, 1 + SHIPPERS + len(DEFAULT.words)}, "book": {0},
}  # fmt: skip
# What is easily left out or exchanged.
REMINDERS = {"set": ", four reserves and then four ceilings", "load": ", all eight figures or none"}


class BadStep(Exception):
    """A line that is no step; the text says what was expected."""


@dataclass(frozen=True)
class Step:
    """What the line program is asked, and how people say that it was done; the book or figures that it gives."""

    words: tuple
    told: str
    book: Book | None = None
    figures: Figures | None = None


def number(word, place, what):
    least, most = HOLDS[place]
    if not (word.isascii() and word.isdigit() and len(word) <= 10 and least <= int(word) <= most):
        raise BadStep(f"{echo(word)}: expected {what}")
    return int(word)


def shipper(word):
    return number(word, "B", "a shipper, 0 to 3")


def request(word):
    return number(word, "I", "a request number, 1 to 4294967295")


def reserve(word):
    return number(word, RESERVE.place, f"a reserve, {RESERVE.range}")


def ceiling(word):
    return number(word, CEILING.place, f"a ceiling, from the shipper's reserve to {CEILING.high}")


def figures(words):
    return Figures(tuple(map(reserve, words[:SHIPPERS])), tuple(map(ceiling, words[SHIPPERS:])))


def line_of(word):
    """A shipper's waiting numbers, as one word."""
    numbers = tuple(request(each) for each in word.split(",")) if word != "-" else ()
    if len(numbers) > PLACES:
        raise BadStep(f"expected at most {PLACES} numbers in a line")
    return numbers


def book(last, *words):
    lines = tuple(map(line_of, words[:SHIPPERS]))
    own = figures(words[SHIPPERS:]) if len(words) > SHIPPERS else DEFAULT
    return Book(number(last, "B", "the shipper last served, 0 to 3"), lines, own)


def step_of(text):
    name, *operands = text.split()
    if name not in COUNTS:
        raise BadStep(f"{echo(name)}: expected one of {', '.join(COUNTS)}, help or quit")
    if len(operands) not in COUNTS[name]:
        expected = next(line for line in STEPS.splitlines() if line.startswith(name)).split("  ")[0]
        raise BadStep(f"expected: {expected}{REMINDERS.get(name, '')}")
    if name in ("request", "withdraw"):
        who, which = shipper(operands[0]), request(operands[1])
        done = "goes in" if name == "request" else "is withdrawn"
        return Step((name, who, which), f"request {which} of shipper {who} {done}")
    if name == "load":
        given = book(*operands)
        return Step((name, *given.words), "the book is replaced by the one given", book=given)
    if name == "set":
        given = figures(operands)
        return Step((name, *given.words), "the figures are replaced by those given", figures=given)
    told = {"take": "request {1} of shipper {0} is taken", "empty": "a new book", "book": ""}
    return Step((name,), told[name])


def load_text(own):
    """The step that gives a book."""
    lines = (",".join(map(str, line)) or "-" for line in own.lines)
    return " ".join(map(str, ("load", own.last, *lines, *own.figures.words)))
