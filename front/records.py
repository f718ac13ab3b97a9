"""Run and fill records, the paper's little-endian bytes, and a table's entries of 8: from named counts and back."""

import struct
from dataclasses import dataclass

from .fields import ENTRY, FILL, INTERPOLATED_RUN, RUN

# Of a report, as of a fill and of a run in its short form.
LENGTH = 32
# Bytes that the paper does not name; they are zero in every record that is made here.
UNNAMED = ""


class Layout:
    """A record's places in order, by the fields' keys; sizes are those of the unnamed places."""

    def __init__(self, fields, keys, sizes):
        self.fields, self.keys = fields, keys
        sizes = iter(sizes)
        self.struct = struct.Struct("<" + "".join(fields[key].place if key else next(sizes) for key in keys))

    @property
    def length(self):
        return self.struct.size

    def pack(self, counts):
        """The record; a count that is yet to be looked up is 0 there."""
        return self.struct.pack(*(counts[key] or 0 if key else b"" for key in self.keys))

    def unpack(self, record):
        return {key: value for key, value in zip(self.keys, self.struct.unpack(record)) if key}


@dataclass(frozen=True)
class Form:
    """A form of the run record. Jobs accept either, never both in one call: the names of the program's lines say which,
    by their `ending`. A job file that gives a run by its record has `in_hex` there."""

    name: str
    layout: Layout
    ending: str
    in_hex: str

    @property
    def fields(self):
        return self.layout.fields

    @property
    def pulses(self):
        return self.fields["pulses"]


# 02: the long record has 'pulses in thousandths (8 bytes ..), then the old bytes 4 to 31 at 8 to 35, then zeros'.
SHORT = Form("short", Layout(RUN, [*RUN, UNNAMED], ["8s"]), "", "32 or 48 bytes in hex")
LONG = Form(
    "long", Layout(INTERPOLATED_RUN, [*INTERPOLATED_RUN, UNNAMED], ["20s"]), "_long",
    "48 bytes in hex, since other runs have thousandths of a pulse",
)  # fmt: skip
FILL_LAYOUT = Layout(FILL, [*list(FILL)[:-1], UNNAMED, "pressure", UNNAMED], ["1s", "12s"])
ENTRY_LAYOUT = Layout(ENTRY, [*ENTRY, UNNAMED], ["2s"])
