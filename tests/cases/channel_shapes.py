"""A line of `channels` as values that can be varied; what a single means in a channel, and which
singles mean a whole number."""

import struct
from fractions import Fraction
from functools import lru_cache
from typing import NamedTuple

from . import ends
from .shapes import line
from .singles import INFINITY, SIGN, bits

FAHRENHEIT, CELSIUS, PRESSURE, FAULT = KINDS = ("fahrenheit", "celsius", "pressure", "fault")
TEMPERATURES = (FAHRENHEIT, CELSIUS)
WITH_SINGLES = (*TEMPERATURES, PRESSURE)
# The kinds that are right in the first and in the second channel.
RIGHT = (TEMPERATURES, (PRESSURE,))

# By its kind, what a number is in tenths of °F or in psi, and the range of that.
SCALES = {FAHRENHEIT: (10, 0), CELSIUS: (18, 320), PRESSURE: (1, 0)}
RANGES = {FAHRENHEIT: ends.TEMPERATURE, CELSIUS: ends.TEMPERATURE, PRESSURE: ends.PRESSURE}

HALF = Fraction(1, 2)

NOT_FINITE = {
    "infinity": INFINITY,
    "the signalling NaN of the smallest payload": 0x7F800001,
    "the signalling NaN of the largest payload": 0x7FBFFFFF,
    "the quiet NaN of the smallest payload": 0x7FC00000,
    "the quiet NaN of the largest payload": 0x7FFFFFFF,
}
TINY = {
    "zero": 0,
    "the smallest subnormal": 1,
    "the largest subnormal": 0x007FFFFF,
    "the smallest normal": 0x00800000,
}
LARGEST = {"the largest": 0x7F7FFFFF}


def signed(named):
    """Each with either sign."""
    signs = (("", 0), ("minus ", SIGN))
    return {said + name: sign | single for said, sign in signs for name, single in named.items()}


SPECIAL = signed(NOT_FINITE | TINY | LARGEST)


class Channel(NamedTuple):
    kind: str
    value: int  # a single's bits, or a fault code

    @property
    def words(self):
        return self.kind, self.value if self.kind == FAULT else f"{self.value:08x}"

    @classmethod
    def read(cls, kind, word):
        return cls(kind, int(word, 10 if kind == FAULT else 16))


class Channels(NamedTuple):
    first: Channel
    second: Channel

    @property
    def line(self):
        return line("channels", *self.first.words, *self.second.words)

    @classmethod
    def read(cls, text):
        _, *words = text.decode("ascii").split(" ")
        return cls(Channel.read(*words[:2]), Channel.read(*words[2:]))


def is_finite(single):
    return single & ~SIGN < INFINITY


def exact(single):
    (number,) = struct.unpack(">f", single.to_bytes(4, "big"))
    return Fraction(number)


def whole(value):
    """The nearest whole number, halves away from zero."""
    size = int(abs(value) + HALF)
    return size if value >= 0 else -size


@lru_cache(maxsize=2**16)
def meaning(kind, single):
    """The tenths of °F or the psi that a finite single means."""
    times, offset = SCALES[kind]
    return whole(times * exact(single) + offset)


# Singles in the order of their numbers, counted from 0, which both zeros are.


def place(single):
    return -(single & ~SIGN) if single & SIGN else single


def single_at(counted):
    return counted if counted >= 0 else SIGN | -counted


def stepped(single, by):
    return single_at(place(single) + by)


@lru_cache(maxsize=2**13)
def lowest(kind, number):
    """The lowest single that means a whole number."""
    times, offset = SCALES[kind]
    bound = (number - HALF - offset) / times
    single = bits(float(bound))
    while meaning(kind, single) >= number:
        single = stepped(single, -1)
    while meaning(kind, single) < number:
        single = stepped(single, 1)
    return single


def highest(kind, number):
    return stepped(lowest(kind, number + 1), -1)


def celsius(number):
    return Channel(CELSIUS, bits(number))


def fahrenheit(number):
    return Channel(FAHRENHEIT, bits(number))


def psi(number):
    return Channel(PRESSURE, bits(number))


def fault(code):
    return Channel(FAULT, code)
