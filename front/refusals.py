"""The paper's numbers in words."""

from dataclasses import dataclass

# 01, 'Numbers given back', and what 02 adds to it; 25 as it reads with each shipper's own reserve.
WORDS = {
    1: "records not whole, or too few or many",
    2: "an unnamed byte is not zero",
    3: "prover setting out of range",
    4: "K factor or limit out of range",
    5: "record field out of range",
    6: "pass number or its pressure breaks the rule",
    7: "indicated volume out of range after rounding",
    8: "run factor out of range",
    9: "no qualifying group",
    10: "ticket field out of range",
    11: "closing below opening",
    12: "reading not finite",
    13: "reading out of range",
    14: "report buffer not 32 bytes",
    15: "not a report",
    20: "book not sound",
    21: "unknown shipper",
    22: "number zero",
    23: "already waiting",
    24: "ceiling reached",
    25: "has its reserve or more and commons full",
    26: "withdrawn number not waiting",
    27: "nothing to take",
    30: "book not empty",
    31: "figures outside the rules",
    32: "faulty or disordered record",
    33: "no such pair",
    34: "fault code from a transmitter",
    35: "channel of the wrong kind",
    36: "pulse count not whole",
}


class Detail(str):
    """A detail in words that also has its field, value and range for machines: counts of the field's unit. One of a
    table of compressibilities has the `line` there, and the `run` that it is looked up for."""

    def __new__(cls, words, field, value=None, low=None, high=None, unit=None, line=0, run=0):
        made = super().__new__(cls, words)
        made.field, made.value, made.low, made.high, made.unit = field, value, low, high, unit
        made.line, made.run = line, run
        return made

    def placed(self, before, line=0, run=0):
        """The same behind these words, which say where it stands."""
        known = (self.field, self.value, self.low, self.high, self.unit)
        return Detail(before + self, *known, line or self.line, run or self.run)


@dataclass(frozen=True)
class Explained:
    """A refusal as people read it; `details` name the record, the field, its value and its range."""

    number: int
    record: int
    details: tuple

    @property
    def headline(self):
        return f"refused {self.number}: {WORDS[self.number]}"

    @property
    def line(self):
        return "; ".join((self.headline, *self.details))
