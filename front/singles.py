"""Singles (IEEE 754): what a transmitter sends and the panel takes, as bits or as the exact number that they hold."""

import re
import struct
from dataclasses import dataclass
from decimal import Decimal

from .hints import echo
from .tables import kind_of
from .toml_text import TOLD, Written
from .units import CELSIUS, normal, split

EXPECTED = "a number, or eight hex digits in quotes"
ZERO = "00000000"
BITS = re.compile(r"(?:0x)?([0-9a-fA-F]{8})")


@dataclass(frozen=True)
class Single:
    bits: str
    unit: str

    @property
    def number(self):
        """The exact number in the bits, in full."""
        value = Decimal(struct.unpack(">f", bytes.fromhex(self.bits))[0])
        return format(value, "f") if value.is_finite() else str(value).lower()

    @property
    def text(self):
        """Both, as pages and refusals tell a single."""
        return f"{self.number} {self.unit} (single {self.bits})"


def bits_of(number):
    """The bits of the single nearest to a number; beyond the largest there is none."""
    try:
        return struct.pack(">f", float(number)).hex()
    except OverflowError:
        return None


def single(table, key, unit):
    """A key's single: a string of eight hex digits is its bits, a number must be held by a single exactly. Zero where
    there is none to be had."""
    return Single(bits_in(table, key, unit) or ZERO, unit)


def bits_in(table, key, unit):
    written = table.values.get(key, TOLD)
    if written == TOLD:
        return None
    if type(written) is str:
        match = BITS.fullmatch(written)
        if match:
            return match[1].lower()
        return table.bad(key, f"{echo(written)} is no single: expected {EXPECTED}{in_celsius(written, unit)}")
    if isinstance(written, bool) or not isinstance(written, (int, Written)):
        return table.bad(key, f"expected {EXPECTED}, found {kind_of(written)}")
    number = Decimal(written if isinstance(written, int) else written.replace("_", ""))
    bits = bits_of(number)
    if bits is None:
        return table.bad(key, f"is beyond every single: expected {EXPECTED}")
    held = Single(bits, unit)
    if number.is_nan() or number == Decimal(held.number):
        return bits
    return table.bad(key, f'no single holds {echo(written)} exactly: the nearest is {held.number}, "{bits}"')


def in_celsius(written, unit):
    """How to write a number of °C that stands where °F are meant."""
    number, own = split(written)
    return f"; °C is written {{ celsius = {echo(number)} }}" if unit == "°F" and normal(own) in CELSIUS else ""
