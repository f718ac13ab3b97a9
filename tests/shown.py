"""What the panel is shown: every number in range and those past its ends; and each single that is
shown, given back to `live`, is the number that it shows."""

from cases.panels import SPANS, in_range, past_ends

SHOWN, REFUSED, BAD = b"ok ", b"refused 13 0", b"bad line"
FEW = 3


def wanted(entry, number):
    """How the answer begins."""
    if number in in_range(entry):
        return SHOWN
    _, (least, most) = SPANS[entry]
    return REFUSED if least <= number <= most else BAD


def few(numbers):
    told = " ".join(map(str, numbers[:FEW]))
    return told if len(numbers) <= FEW else f"{told} .. ({len(numbers)} numbers)"


class Shown:
    def __init__(self):
        self.told = {}
        self.read = {}

    def take(self, entry, line, answer):
        """Keep what an answer says of the panel or of a reading."""
        words, values = line.removesuffix(b"\r").split(b" ")[1:], answer.split(b" ")[1:]
        if entry in SPANS and len(words) == 1:
            self.told[entry, words[0]] = answer
        elif entry == "live" and answer.startswith(SHOWN):
            # a reading's temperature comes first, as in SPANS
            for shows, single, value in zip(SPANS, words, values, strict=True):
                self.read[shows, single] = value

    def answer(self, entry, number):
        return self.told.get((entry, b"%d" % number), b"")

    def is_read_back(self, entry, number):
        single = self.answer(entry, number).removeprefix(SHOWN)
        return self.read.get((entry, single)) == b"%d" % number

    def missing(self):
        for entry in SPANS:
            asked = [*in_range(entry), *sorted(past_ends(entry))]
            never = [n for n in asked if not self.answer(entry, n).startswith(wanted(entry, n))]
            lost = [n for n in in_range(entry) if not self.is_read_back(entry, n)]
            if never:
                yield f"{entry} {few(never)}"
            if lost:
                yield f"{entry} {few(lost)} given back to live"
