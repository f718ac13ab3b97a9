"""The faults of a move of run records, each found whatever others there are."""

from typing import NamedTuple

from cases import ends
from cases.move_shapes import BACK, FORWARD, LENT, MOST
from faults import Fault, in_range
from long_faults import boils

LENGTHS = "lengths out of proportion"
CUT_SHORT, NO_RECORD, MANY = "a record cut short", "no record", "too many records"
FIELD, UNNAMED, FRACTION = "a field", "an unnamed byte", "a count that is not whole"

OF_COUNT = (CUT_SHORT, NO_RECORD, MANY)
OF_RECORDS = {FORWARD: (FIELD, UNNAMED), BACK: (FIELD, UNNAMED, FRACTION)}
NUMBERS = {LENGTHS: 14, **dict.fromkeys(OF_COUNT, 1), FIELD: 5, UNNAMED: 2, FRACTION: 36}

FIELDS = {FORWARD: ends.RUN, BACK: ends.LONG_RUN}


class Asked(NamedTuple):
    """What a line asks to be moved, its records apart."""

    way: str
    buffer: bytes
    records: list
    tail: bytes

    @classmethod
    def read(cls, text):
        way, *words = text.decode("ascii").split(" ")
        buffer, lent = (bytes.fromhex(word.removeprefix("-")) for word in words)
        size = LENT[way].LAYOUT.size
        whole = len(lent) // size * size
        records = [lent[at : at + size] for at in range(0, whole, size)]
        return cls(way, buffer, records, lent[whole:])

    @property
    def lent(self):
        """How many bytes."""
        return len(self.records) * LENT[self.way].LAYOUT.size + len(self.tail)


def run_of(way, record):
    form = LENT[way]
    return form(*form.LAYOUT.unpack(record))


def of_record(way, record):
    run = run_of(way, record)
    kinds = []
    if not in_range(run, FIELDS[way]) or boils(run):
        kinds.append(FIELD)
    if any(run.unnamed):
        kinds.append(UNNAMED)
    if way == BACK and run.pulses % 1000:
        kinds.append(FRACTION)
    return kinds


def faults(asked):
    """All of them, in the order in which they are to be found."""
    longer, shorter = len(asked.buffer), asked.lent
    if asked.way == BACK:
        longer, shorter = shorter, longer
    if 2 * longer != 3 * shorter:
        yield Fault(LENGTHS)
    if asked.tail:
        yield Fault(CUT_SHORT)
    if not asked.records:
        yield Fault(NO_RECORD)
    if len(asked.records) > MOST:
        yield Fault(MANY)
    # a long file has the same records again and again
    of = {record: of_record(asked.way, record) for record in {*asked.records}}
    for number, record in enumerate(asked.records, 1):
        for kind in of[record]:
            yield Fault(kind, number)
