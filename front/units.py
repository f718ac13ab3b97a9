"""Decimal numbers as people write them, and whole counts of a unit: exact both ways, by moving the point."""

import re
import unicodedata
from dataclasses import dataclass

from .hints import echo, without_commas
from .toml_text import Written

# Longer than any figure that the line program takes, short enough that no exponent fills the memory.
MOST_DIGITS = 40
WRITTEN = re.compile(r"([+-]?)(\d+)(?:\.(\d+))?(?:[eE]([+-]?\d{1,9}))?", re.ASCII)
NUMBER = re.compile(r"[+-]?[\d_.,]+(?:[eE][+-]?\d+)?", re.ASCII)
COMMAS = re.compile(r"[+-]?\d[\d.]*(?:,\d+)+(?:\.\d+)?", re.ASCII)
# Signs that stand for the degree's; compatibility forms of Unicode make letters or accents of them.
DEGREES = str.maketrans("º˚−", "°°-")
CELSIUS = ("c", "celsius", "centigrade")
# Units that no field has, as `normal` leaves them: a column of these is never one of ours.
FOREIGN = (*CELSIUS, "k", "kelvin", "kpa", "mpa", "bar", "barg", "psia", "mm", "cm", "m", "m3", "l", "gal", "ft")


# Every spelling that is a unit's and nothing else.
SPELLED = set()


class Inexact(ValueError):
    """A number that is no whole count of its unit, or no number; the text says what was expected."""


@dataclass(frozen=True)
class Unit:
    """One count is 10^-places of what `name` says; `spellings`, as `normal` has them, may stand behind a number.
    A sentence has `in_words` where the name would read badly in it."""

    name: str
    places: int
    spellings: tuple = ()
    of_one: str = ""
    in_words: str = ""
    # Whether its spellings behind a heading are words for it alone; API is also who publishes a table.
    alone: bool = True

    def __post_init__(self):
        SPELLED.update(self.spellings if self.alone else ())

    @property
    def step(self):
        """One count, with its name: '0.1 °F', '1 pulse'."""
        return f"{shown(1, self.places)} {self.of_one or self.name}".rstrip()

    def text(self, count):
        """A count as people read it: '73.5 °F'."""
        return f"{shown(count, self.places)} {self.name}".rstrip()

    def count(self, written):
        """The count that a written number is, exactly: a whole number, one that TOML takes for a number, or a text."""
        if isinstance(written, int):
            return int(f"{written}{'0' * self.places}")
        if isinstance(written, Written):
            return self.whole(written)
        number, unit = split(written)
        if unit and normal(unit) not in self.spellings:
            raise Inexact(f"{echo(written)} {self.not_in(unit)}: expected {self.expected}")
        return self.whole(number)

    def not_in(self, unit):
        if normal(unit) in CELSIUS and self.name == "°F":
            return "is in °C, and only °F is taken"
        return f"is not in {self.in_words or self.name}" if self.name else "is not a plain number"

    @property
    def expected(self):
        decimals = {0: "a whole number", 1: "at most 1 decimal"}.get(self.places, f"at most {self.places} decimals")
        if not self.name:
            return decimals
        return f"{decimals}, in {self.in_words or self.name}"

    def whole(self, number):
        if "," in number and COMMAS.fullmatch(number):
            raise Inexact(f"{echo(number)} has a comma: {echo(without_commas(number))}")
        match = WRITTEN.fullmatch(number.replace("_", ""))
        if not match:
            raise Inexact(f"{echo(number)} is not a number: expected {self.expected}")
        sign, before, after, exponent = match.groups("")
        digits = (before + after).lstrip("0")
        decimals = len(after) - int(exponent or 0)
        if not digits:
            return 0
        if decimals > self.places:
            # Zeros past the unit's digits claim nothing: 21152.0 is 21152 exactly.
            spare = min(decimals - self.places, len(digits) - len(digits.rstrip("0")))
            digits, decimals = digits[: len(digits) - spare], decimals - spare
        if decimals > self.places:
            raise Inexact(f"{echo(number)} has more digits than the unit, {self.step}: expected {self.expected}")
        zeros = self.places - decimals
        if len(digits) + zeros > MOST_DIGITS:
            raise Inexact(f"{echo(number)} has too many digits: expected {self.expected}")
        return int(sign + digits + "0" * zeros)


def split(text):
    """A number and the unit behind it: '73.5 °F' and '73.5°F' are '73.5', '°F'."""
    text = text.translate(DEGREES).strip()
    match = NUMBER.match(text)
    if not match:
        return text, ""
    return match.group(), text[match.end() :].strip()


def normal(unit):
    """A unit's name without what people write in several ways: case, spaces, points, the degree's sign or word."""
    folded = unicodedata.normalize("NFKC", unit.translate(DEGREES)).casefold()
    return re.sub(r"[\s.°]|deg(rees?)?", "", folded)


def is_unit(words):
    return normal(words) in SPELLED or normal(words) in FOREIGN


def shown(count, places, group=True):
    """A count with its point put in; thousands are set apart in what people read."""
    digits = str(abs(count)).rjust(places + 1, "0")
    whole, rest = digits[: len(digits) - places], digits[len(digits) - places :]
    if group:
        whole = f"{int(whole):,}"
    return ("-" if count < 0 else "") + whole + ("." + rest if places else "")
