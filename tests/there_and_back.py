"""A file of run records that is moved and, on the next line, what it came to moved back: the bytes
that were lent first, both ways."""

from collections import Counter

from cases.move_shapes import LENT, MOST, OTHER_WAY, WAYS

COUNTS = (1, 2, MOST)  # of records that must have gone there and back


class ThereAndBack:
    def __init__(self):
        self.before = None  # the way, what was lent and what came of it
        self.returned = Counter()
        self.lost = []

    def take(self, entry, line, answer):
        if entry not in WAYS:
            return
        words, told = line.removesuffix(b"\r").split(b" "), answer.split(b" ")
        lent = words[-1]
        if self.before and self.before[0] == OTHER_WAY[entry] and self.before[2] == lent:
            way, first, _ = self.before
            if told != [b"ok", first]:
                self.lost.append(f"{way} and {entry} of {first[:80].decode('ascii')}")
            self.returned[way, len(first) // (2 * LENT[way].LAYOUT.size)] += 1
        self.before = (entry, lent, told[1]) if told[0] == b"ok" else None

    def missing(self):
        yield from self.lost[:3]
        for way in WAYS:
            for count in COUNTS:
                if not self.returned[way, count]:
                    yield f"{way} and {OTHER_WAY[way]} of {count} records"
