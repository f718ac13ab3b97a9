"""Other ways from Celsius to tenths of °F than the paper's, and where a reading turns on them."""

import struct
from fractions import Fraction
from math import ceil, floor, trunc

from cases.channel_shapes import HALF, whole
from channel_faults import NUMBERS, RANGE
from outcomes import OK

FAR = 1000  # °C, where no rule comes near the range


def tenths(celsius):
    return 18 * celsius + 320


def half_toward_zero(value):
    return ceil(value - HALF) if value >= 0 else floor(value + HALF)


# Other ways with a half, in tenths of °F or before 32 is added.
HALVES = {
    "halves away from zero in Celsius": lambda celsius: whole(18 * celsius) + 320,
    "halves toward zero": lambda celsius: half_toward_zero(tenths(celsius)),
    "halves upward": lambda celsius: floor(tenths(celsius) + HALF),
    "halves downward": lambda celsius: ceil(tenths(celsius) - HALF),
    "halves to even": lambda celsius: round(tenths(celsius)),
}


def as_single(number):
    return struct.unpack("<f", struct.pack("<f", number))[0]


def as_double(number):
    return number


def by_decimal(celsius, held):
    return held(10 * held(held(held(1.8) * celsius) + 32))


def by_quotient(celsius, held):
    return held(10 * held(held(held(9 * celsius) / 5) + 32))


def by_tenths(celsius, held):
    return held(held(18 * celsius) + 320)


def of_machine(way, held):
    """By numbers of the machine, each result held as `held` has it."""
    return lambda celsius: whole(Fraction(way(float(celsius), held)))


# Sums of the machine's own. One more is right in every single: doubles hold all of 18c + 320 that
# its rounding can turn on.
SUMS = {
    "singles by 1.8": of_machine(by_decimal, as_single),
    "singles by 9 / 5": of_machine(by_quotient, as_single),
    "singles by 18": of_machine(by_tenths, as_single),
    "doubles by 1.8": of_machine(by_decimal, as_double),
    "doubles by 9 / 5": of_machine(by_quotient, as_double),
    "degrees of Fahrenheit as a single": lambda celsius: whole(
        10 * Fraction(as_single(float(tenths(celsius) / 10)))
    ),
}

# Those that turn on more than a half.
OTHERS = {
    "tenths cut off": lambda celsius: trunc(tenths(celsius)),
    "tenths taken down": lambda celsius: floor(tenths(celsius)),
    "tenths taken up": lambda celsius: ceil(tenths(celsius)),
    "tenths of Celsius rounded first": lambda celsius: whole(
        tenths(Fraction(whole(10 * celsius), 10))
    ),
    "degrees of Celsius rounded first": lambda celsius: tenths(whole(celsius)),
    "degrees of Fahrenheit rounded": lambda celsius: 10 * whole(tenths(celsius) / 10),
    "32 added to rounded degrees": lambda celsius: 10 * (whole(celsius * 9 / 5) + 32),
    "32 left out": lambda celsius: whole(18 * celsius),
    "degrees taken for Fahrenheit": lambda celsius: whole(10 * celsius),
}

RULES = HALVES | SUMS | OTHERS


def otherwise(rule):
    return f"otherwise than by {rule}"


def reached(celsius, told, allowed):
    """Of a number in degrees and the tenths that it means. Out of range all are answered alike."""
    if abs(celsius) > FAR:
        return
    for name, rule in RULES.items():
        other = rule(celsius)
        if other != told and (told in allowed or other in allowed):
            yield otherwise(name)


def wanted():
    yield from ((OK, otherwise(name)) for name in RULES)
    # no half is next to an end of the range, nor is any machine's sum so far off
    yield from ((NUMBERS[RANGE], otherwise(name)) for name in OTHERS)
