"""Smart transmitters (02): "each channel is a Fahrenheit temperature, a Celsius temperature or a
pressure, each carrying its single, or a fault code of one byte"."""

from collections import namedtuple
from fractions import Fraction

import ranges
from live import psi_of, reading, tenths_of
from refusals import FAULT_CODE, WRONG_KIND, Refused

FAHRENHEIT, CELSIUS, PRESSURE, FAULT = "Fahrenheit", "Celsius", "pressure", "fault"

# The value is a single's bits, or the fault code.
Channel = namedtuple("Channel", "kind value")


def tenths_of_celsius(celsius):
    # "from the exact number in the bits, 9/5 and 32, with one rounding to tenths of °F", which is
    # the reading's
    return tenths_of(celsius * Fraction(9, 5) + 32)


TEMPERATURES = {FAHRENHEIT: tenths_of, CELSIUS: tenths_of_celsius}
PRESSURES = {PRESSURE: psi_of}  # "A pressure rounds as in 01"


def channel_reading(channel, kinds, allowed):
    # "34 for a fault code, 35 for a channel of the wrong kind"; then 12 and 13
    if channel.kind == FAULT:
        raise Refused(FAULT_CODE)
    if channel.kind not in kinds:
        raise Refused(WRONG_KIND)
    return reading(channel.value, kinds[channel.kind], allowed)


def channels(first, second):
    """"A live reading is made from a temperature channel and a pressure channel in that order";
    "the first channel's 34, 35, 12, 13, then the second's"."""
    tenths = channel_reading(first, TEMPERATURES, ranges.TEMPERATURE)
    return tenths, channel_reading(second, PRESSURES, ranges.PRESSURE)
