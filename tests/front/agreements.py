"""Places by agreement: figures at and beyond their ends, which rule is broken and in which words, figures given in
another order, refusals that change nothing; and on every page the figures and commons that the program tells."""

import contextlib
import io
import json
import random
import tempfile
from collections import Counter
from dataclasses import replace
from pathlib import Path

from harness import Tally, called

from front import as_json
from front import book as books
from front.book_faults import of_book, of_figures
from front.kept_book import NoBook
from front.places import DEFAULT, PLACES, Book, Figures, asked, shown
from front.program import Program, Refused
from front.steps import Steps

SEED, CASES = 5, 1500
AGREED = "set 5 2 2 2 12 6 6 6"
AGREEMENTS = (
    "5 1 1 1 12 6 6 6", "3 5 1 2 3 9 14 4", "1 1 1 1 1 2 3 16", "4 4 4 4 16 4 5 16", "13 1 1 1 16 1 1 2",
)  # fmt: skip
# A sound book, and what of it is changed: one rule is broken, and that rule is told.
SOUND = Book(1, ((1, 2, 3, 4, 5, 6), (7,), (), (1, 9, 10)), Figures((5, 2, 2, 3), (12, 6, 6, 8)))
BROKEN = (
    ({"last": 4}, "last served is shipper 4, range 0 to 3"),
    ({"last": 255}, "last served is shipper 255, range 0 to 3"),
    ({"figures": Figures((5, 2, 0, 3), (12, 6, 6, 8))}, "reserve of shipper 2 is 0, range 1 to 13"),
    ({"figures": Figures((5, 2, 2, 3), (12, 6, 1, 8))}, "ceiling of shipper 2 is 1, range 2 (its reserve) to 16"),
    ({"figures": Figures((5, 2, 2, 3), (12, 6, 17, 8))}, "ceiling of shipper 2 is 17, range 2 (its reserve) to 16"),
    ({"figures": Figures((8, 2, 2, 5), (12, 6, 6, 8))}, "the reserves add up to 17, range up to 16"),
    ({"figures": Figures((5, 2, 2, 3), (5, 6, 6, 8))}, "shipper 0 has 6 waiting, range up to its ceiling of 5"),
    ({"lines": ((1, 0, 3), (), (), ())}, "shipper 0: request number is 0, range 1 to 4,294,967,295"),
    ({"lines": ((), (), (8, 9, 8), ())}, "request 8 waits more than once in the line of shipper 2"),
    (
        {"lines": (tuple(range(1, 10)), (), (), (7, 8, 9, 10))},
        "5 waiting beyond the reserves, range up to the commons of 4",
    ),
)
FIRST = "the four reserves come first, then the four ceilings"
# Eight figures in an order that is not ours, and the orders that are offered.
SLIPS = (
    ("12 6 6 6 5 2 2 2", ("set 5 2 2 2 12 6 6 6",)),
    ("8 8 8 8 2 2 2 2", ("set 2 2 2 2 8 8 8 8",)),
    ("2 8 2 8 2 8 2 8", ("set 2 2 2 2 8 8 8 8",)),
    ("5 12 2 6 2 6 2 6", ("set 2 6 2 6 5 12 2 6", "set 5 2 2 2 12 6 6 6")),
    ("5 4 4 4 8 8 8 8", ()),
    ("0 2 2 2 8 8 8 8", ()),
    ("9 9 9 9 9 9 9 9", ()),
)


def refused(program, *words):
    """The number that a line is refused with, 0 where it is not."""
    try:
        program.ask(*words)
    except Refused as told:
        return told.refusal.number
    return 0


def ends(tally, program):
    """Each figure of each shipper at its ends is taken, one beyond is refused, and the words name it."""
    for who in range(4):
        for kind, lowest in (("reserve", 1), ("ceiling", 3)):
            highest = {"reserve": 13, "ceiling": 16}[kind]
            for count in (lowest - 1, lowest, highest, highest + 1, 255):
                reserves, ceilings = [1, 1, 1, 1], [16, 16, 16, 16]
                (reserves if kind == "reserve" else ceilings)[who] = count
                if kind == "ceiling":
                    reserves[who] = lowest
                figures, name = Figures(tuple(reserves), tuple(ceilings)), f"{kind} {count} of shipper {who}"
                program.ask("empty")
                number, told = refused(program, "set", *figures.words), of_figures(figures)
                if lowest <= count <= highest:
                    tally.same((number, told), (0, ()), name)
                    continue
                tally.same(number, 31, name)
                bounds = "1 to 13" if kind == "reserve" else "3 (its reserve) to 16"
                tally.same(told[0], f"{kind} of shipper {who} is {count}, range {bounds}", name)
                found = (told[0].field, told[0].value, told[0].low, told[0].high)
                tally.same(found, (f"{kind} of shipper {who}", count, lowest, highest), f"{name}: for machines")


def some_figures(chance):
    """Mostly near the rules' edges."""
    reserves = tuple(chance.choice((0, 1, 1, 2, 2, 3, 4, 5, 7, 13, 14)) for _ in range(4))
    return Figures(reserves, tuple(max(0, own + chance.choice((-1, 0, 0, 1, 3, 6))) for own in reserves))


def some_line(chance, own, top):
    """As many as a reserve or a ceiling is, or about."""
    count = min(chance.choice((0, 0, 1, own, own + 1, own + 2, top, top + 1)), PLACES)
    return tuple(chance.randrange(0 if chance.random() < 0.02 else 1, 999) for _ in range(count))


def some_book(chance):
    figures = chance.choice((DEFAULT, SOUND.figures, some_figures(chance)))
    lines = tuple(some_line(chance, *own) for own in zip(figures.reserves, figures.ceilings))
    return Book(chance.choice((0, 1, 2, 3, 3, 3, 4)), lines, figures)


def judged(tally, program):
    """By chance: something is told of figures or of a book exactly where the program refuses them."""
    chance, numbers, sound = random.Random(SEED), Counter(), Counter()
    for _ in range(CASES):
        figures = some_figures(chance)
        program.ask("empty")
        number = refused(program, "set", *figures.words)
        tally.same(bool(of_figures(figures)), number == 31, f"{figures}")
        numbers[number] += 1
        book = some_book(chance)
        program.ask("load", *book.words)
        own = asked(program)
        tally.same(bool(of_book(book)), own is None, f"{book}: {of_book(book)}")
        sound[own is not None] += 1
        if own:
            tally.same((own.last, own.lines, own.figures), (book.last, book.lines, book.figures), f"{book}")
            rows = shown(own)[:4]
            tally.same(len({row.index(" waiting") for row in rows}), 1, f"columns of {rows}")
    tally.check(set(numbers) == {0, 31} and min(numbers.values()) > 100, f"figures met: {numbers}")
    tally.check(min(sound[True], sound[False]) > 100, f"books met: {sound}")


def broken(tally, program):
    """One rule broken is one rule told."""
    program.ask("load", *SOUND.words)
    tally.same((asked(program) is not None, of_book(SOUND)), (True, ()), "a sound book")
    for change, words in BROKEN:
        book = replace(SOUND, **change)
        program.ask("load", *book.words)
        tally.same((refused(program, "take"), of_book(book)), (20, (words,)), f"{change}")


class Otherwise(Program):
    """A book with other figures than it has: what is shown must be what is told."""

    def answer(self, *words):
        told = super().answer(*words)
        return ["ok", *"3 4 5 6 13 14 15 16 99 77".split()] if words[0] == "figures" else told


def as_told(tally):
    """Figures, commons and commons in use are the program's, on the page and in the JSON."""
    page, found = io.StringIO(), []
    with Otherwise() as program, contextlib.redirect_stdout(page):
        books.session(Steps("steps", ["request 3 8"]), program, NoBook())
        books.session(Steps("steps", ["book"]), program, NoBook(), lambda *told: found.append(told[-1]))
    lines = page.getvalue().splitlines()[-6:]
    rows = [f"  shipper {who}  reserve {who + 3}  ceiling {who + 13}  0 waiting" for who in range(3)]
    rows += ["  shipper 3  reserve 6  ceiling 16  1 waiting: 8", "  commons: 77 of 99 in use"]
    tally.same(lines[:5], rows, "other figures, on a page")
    own = as_json.book(found[0])
    expected = ([3, 4, 5, 6], [13, 14, 15, 16], 99, 77)
    held = (list(own["reserves"]), list(own["ceilings"]), own["commons"], own["commons_used"])
    tally.same(held, expected, "other figures, for machines")


def session(folder, *steps):
    """A session's status, its page, and its JSON, a step each."""
    path = folder / "session.txt"
    path.write_text("".join(f"{step}\n" for step in steps))
    status, page, _ = called("book", path)
    return status, page, [json.loads(line) for line in called("book", path, "--json")[1].splitlines()]


def slips(tally, folder):
    """Figures given ceilings first, or shipper by shipper: the order that was meant is offered where it is legal."""
    for eight, meant in SLIPS:
        status, page, [told] = session(folder, f"set {eight}")
        details = [detail["words"] for detail in told["refusal"]["details"]]
        offered = [words for words in details if "did you mean" in words]
        expected = [f"did you mean {' or '.join(meant)}? {FIRST}"] if meant else []
        tally.same((status, told["refusal"]["number"], offered), (1, 31, expected), eight)
        lines = f"\n   {details[0]}\n   " if len(details) > 1 else f"; {details[0]}\n  "
        tally.holds(page, f"refused 31: figures outside the rules{lines}", eight)


def own_figures(tally, folder):
    """By chance: 24 and 25 name the shipper's own figure and the book's own commons."""
    chance, met = random.Random(SEED), set()
    for figures in AGREEMENTS:
        asks = (f"request {chance.choice((0, 0, 1, 2, 3))} {number}" for number in range(1, 40))
        for told in session(folder, f"set {figures}", *asks)[2]:
            if told["outcome"] == "accepted":
                continue
            book, number, who = told["book"], told["refusal"]["number"], int(told["step"].split()[1])
            reserve, ceiling, commons = book["reserves"][who], book["ceilings"][who], book["commons"]
            used_up = f"while the commons are used up, {commons} of {commons}"
            full = used_up if commons else "since the book has no commons"
            ends = {24: f"ceiling of {ceiling}", 25: f"reserve of {reserve} {full}"}[number]
            expected = f"shipper {who} has {len(book['lines'][who])} waiting, range up to its {ends}"
            tally.same([each["words"] for each in told["refusal"]["details"]], [expected], f"{figures}: {told['step']}")
            met.add((number, commons > 0))
    tally.same(met, {(24, True), (24, False), (25, True), (25, False)}, "refusals met, with commons and without")


def unchanged(tally, folder):
    """Figures are replaced, the turn stays; a refusal changes nothing."""
    turn = ("request 1 5", "take")
    later = (AGREED, "request 0 7", "set 2 2 2 2 8 8 8 8", "take", "set 5 4 4 4 8 8 8 8")
    status, page, told = session(folder, *turn, *later)
    numbers = [each.get("refusal", {}).get("number") for each in told]
    tally.same((status, numbers), (1, [None, None, None, None, 30, None, 31]), "set, 30, 31")
    tally.same([each["book"]["last"] for each in told], [3, 1, 1, 1, 1, 0, 0], "the shipper last served stays")
    reserves = [each["book"]["reserves"] for each in told]
    tally.same(reserves, [[2] * 4] * 2 + [[5, 2, 2, 2]] * 5, "reserves")
    tally.same([each["book"]["commons"] for each in told], [8, 8, 5, 5, 5, 5, 5], "commons")
    tally.same((told[3]["book"], told[5]["book"]), (told[4]["book"], told[6]["book"]), "a refusal changes nothing")
    words = "refused 30: book not empty; shipper 0 has 1 waiting: figures are set where nobody waits\n"
    tally.holds(page, words, "30")
    for figures in ("0 2 2 2 8 8 8 8", "5 4 4 4 12 8 8 8", "5 2 2 2 12 6 6 1"):
        # Not sound for setting either, and 20 comes before 30 and 31.
        for waiting, given in (("-", AGREED), ("9", AGREED), ("9", "set 0 0 0 0 0 0 0 0")):
            told = session(folder, f"load 3 {waiting} - - - {figures}", given)[2]
            tally.same((told[1]["refusal"]["number"], told[1]["book"]["sound"]), (20, False), f"{figures}: {given}")
    told = session(folder, "load 9 - - - -", "take", "load 3 4,4 - - -", "take", "empty", "load 3 0 - - -", "book")[2]
    details = [[each["words"] for each in own["refusal"]["details"]] for own in told if "refusal" in own]
    last, twice = "last served is shipper 9, range 0 to 3", "request 4 waits more than once in the line of shipper 0"
    zero = "shipper 0: request number is 0, range 1 to 4,294,967,295"
    tally.same(details, [[last], [twice], [zero]], "what is wrong with the book that was given last")
    told = session(folder, AGREED, "empty")[2]
    tally.same(told[1]["book"]["reserves"] + told[1]["book"]["ceilings"], [2] * 4 + [8] * 4, "a new book's figures")
    told = session(folder, "load 2 1,2 - 3 - 5 2 2 2 12 6 6 6", "load 2 1,2 - 3 -")[2]
    tally.same([each["book"]["ceilings"] for each in told], [[12, 6, 6, 6], [8] * 4], "load with figures, and without")


def test():
    tally = Tally("agreements")
    with Program() as program:
        for part in (ends, judged, broken):
            part(tally, program)
    as_told(tally)
    with tempfile.TemporaryDirectory() as folder:
        for part in (slips, own_figures, unchanged):
            part(tally, Path(folder))
    return tally
