"""Live readings (01) and numbers for the panel (02): a temperature and a pressure as singles
(IEEE 754), given by their bits."""

from fractions import Fraction

import ranges
from refusals import NOT_FINITE, READING_RANGE, Refused
from rounding import nearest


def exact_number(bits):
    """The exact number in a single's bits; None where it is not finite."""
    sign = -1 if bits >> 31 else 1
    exponent = bits >> 23 & 0xFF
    fraction = bits & 0x7FFFFF
    if exponent == 0xFF:
        return None
    if exponent == 0:
        return sign * Fraction(fraction, 2**149)
    return sign * (2**23 + fraction) * Fraction(2) ** (exponent - 150)


def nearest_single(number):
    """The bits of the single nearest to a fraction, ties to even. The number is 0, or of a size at
    which singles have all of their 24 binary digits."""
    if number == 0:
        return 0
    size, exponent = abs(number), 150
    while size >= 2**24:
        size, exponent = size / 2, exponent + 1
    while size < 2**23:
        size, exponent = size * 2, exponent - 1
    # round of a Fraction works over whole numbers and takes halves to even; where it comes to
    # 2^24, that digit is carried into the exponent
    bits = (exponent << 23) + round(size) - 2**23
    return bits | 1 << 31 if number < 0 else bits


def judge_range(whole, allowed):
    if whole not in allowed:
        raise Refused(READING_RANGE)


def tenths_of(fahrenheit):
    return 10 * fahrenheit


def psi_of(pressure):
    return pressure


def reading(bits, units_of, allowed):
    # "The exact number in the bits, times 10 for temperature, goes to the nearest whole number,
    # halves away from zero. ... The range is judged on that whole number."
    number = exact_number(bits)
    if number is None:
        raise Refused(NOT_FINITE)
    whole = nearest(units_of(number))
    judge_range(whole, allowed)
    return whole


def live(temperature_bits, pressure_bits):
    """01: "Order: temperature not finite, temperature range, then pressure likewise"."""
    tenths = reading(temperature_bits, tenths_of, ranges.TEMPERATURE)
    return tenths, reading(pressure_bits, psi_of, ranges.PRESSURE)


def panel_temperature(tenths):
    # 02, Numbers for the panel: "one division of the whole number by ten, rounded once", and
    # "tenths or psi out of range are 13"
    judge_range(tenths, ranges.TEMPERATURE)
    return nearest_single(Fraction(tenths, 10))


def panel_pressure(psi):
    # "Pressures go out exactly": every whole number in range is a single
    judge_range(psi, ranges.PRESSURE)
    return nearest_single(Fraction(psi))
