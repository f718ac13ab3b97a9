"""The kept book, followed by the lines asked and the answers told, and not by the rules."""

from book_faults import faults
from cases.book_shapes import NEW, PLACES, SHIPPERS, Figures
from outcomes import OK

CALLS = ("request", "withdraw", "take", "book", "set", "figures")
ENTRIES = (*CALLS, "load", "empty")


class Kept:
    def __init__(self):
        self.renew()

    def renew(self):
        self.last, self.counts, self.figures = 3, [0] * SHIPPERS, NEW
        self.faults, self.lines = [], None  # of a book from outside, as it came
        self.changed_by = "empty"  # the entry that changed the book last
        self.before = None  # the figures that a setting has replaced
        self.turn_is_kept = False  # nothing was taken since a setting
        self.refused = None  # the number of a setting, where that was the call before

    @property
    def used(self):
        """Commons used."""
        return sum(max(count - own, 0) for count, own in zip(self.counts, self.figures.reserves))

    def follow(self, entry, operands, what, values):
        self.refused = what if entry == "set" and what != OK else None
        if what != OK or entry in ("book", "figures"):
            return
        if entry == "empty":
            self.renew()
        elif entry == "load":
            self.load(operands)
        elif entry == "set":
            self.before, self.figures = self.figures, Figures.read(operands)
            self.turn_is_kept = True
        elif entry == "request":
            self.counts[operands[0]] += 1
        elif entry == "withdraw":
            self.counts[operands[0]] -= 1
        else:
            self.last, self.turn_is_kept = values[0], False
            self.counts[self.last] -= 1
        self.changed_by = entry

    def load(self, operands):
        self.renew()
        self.last, self.counts = operands[0], [*operands[1:5]]
        self.figures = Figures.read(operands[5:13])
        places = operands[13:]
        self.lines = [places[at : at + PLACES] for at in range(0, len(places), PLACES)]
        self.faults = [*faults(self.last, self.counts, self.figures, self.lines)]
