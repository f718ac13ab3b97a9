"""The kinds of channels that must be reached: every number of tenths and of psi by the ends of its
singles, every exact half and the singles beside it, each special single of each kind in either
channel, fault codes; and, of other modules, faults and other rules."""

from itertools import product

import channel_precedence
import channel_rules
from cases.channel_shapes import (
    CELSIUS,
    FAHRENHEIT,
    FAULT,
    LARGEST,
    NOT_FINITE,
    PRESSURE,
    RANGES,
    RIGHT,
    SPECIAL,
    WITH_SINGLES,
    Channels,
    exact,
    meaning,
    signed,
    stepped,
)
from cases.channels import CELSIUS_HALVES, FAHRENHEIT_HALVES
from channel_faults import CODE, KIND, NO_NUMBER, NUMBERS, RANGE, faults
from channel_precedence import PLACES
from channel_rules import tenths
from outcomes import OK

ENTRIES = ("channels",)

FIRST, SECOND = PLACES
CODES = {FIRST: range(2**8), SECOND: (0, 1, 127, 128, 255)}
WITHOUT_NEIGHBOUR = {*signed(LARGEST).values()}  # beyond these no single is finite
NAMES = {single: name for name, single in SPECIAL.items()}
LOWEST, HIGHEST = "the lowest", "the highest"
NEXT_ABOVE_ZERO = "the first Celsius single above 0 °F"
NEXT_BELOW_ZERO = "the last Celsius single below 0 °F"
BESIDE = ("just below", "at", "just above")
_, AT, _ = BESIDE


def end_of(which, kind, number):
    return f"{which} {kind} single of {number}"


def at_half(where, kind, quarters):
    return f"a {kind} single {where} the half of {quarters} quarters"


def special(kind, name, place):
    return f"a {kind} of {name} in the {place} channel"


def of_code(code, place):
    return f"fault code {code} in the {place} channel"


def is_half(kind, single):
    """Whether tenths of °F are an exact half: of an odd number of quarters, in either scale."""
    return kind != PRESSURE and (4 * exact(single)) % 2 == 1


def of_number(kind, single):
    """Of a finite single in the right channel."""
    number = meaning(kind, single)
    if meaning(kind, stepped(single, -1)) < number:
        yield end_of(LOWEST, kind, number)
    if meaning(kind, stepped(single, 1)) > number:
        yield end_of(HIGHEST, kind, number)
    for by, where in zip((1, 0, -1), BESIDE):
        half = stepped(single, by)
        if is_half(kind, half):
            yield at_half(where, kind, int(4 * exact(half)))
    if kind == CELSIUS:
        yield from of_celsius(single, number)


def of_celsius(single, number):
    low, high = RANGES[CELSIUS]
    yield from channel_rules.reached(exact(single), number, range(low, high + 1))
    if number == 0:
        below, own, above = (tenths(exact(stepped(single, by))) for by in (-1, 0, 1))
        if below < 0 < own:
            yield NEXT_ABOVE_ZERO
        if own < 0 < above:
            yield NEXT_BELOW_ZERO


def of_channel(channel, place, own_faults):
    kind, value = channel
    if kind == FAULT:
        yield of_code(value, place)
        return
    if value in NAMES:
        yield special(kind, NAMES[value], place)
    if not {KIND, NO_NUMBER} & {*own_faults} and value not in WITHOUT_NEIGHBOUR:
        yield from of_number(kind, value)


def reached(text):
    channels = Channels.read(text)
    found = faults(channels)
    yield from channel_precedence.reached(channels, found)
    for place, channel, own, other in zip(PLACES, channels, found, reversed(found)):
        # so that this channel is answered
        if not other:
            yield from of_channel(channel, place, own)


def wanted(_):
    """What is answered, and to which kind of channels."""
    yield from channel_precedence.wanted()
    yield from channel_rules.wanted()
    yield from (*steps(CELSIUS), *steps(PRESSURE))
    for kind in WITH_SINGLES:
        yield from ends_of_range(kind)
    yield from ((OK, kind) for kind in (NEXT_ABOVE_ZERO, NEXT_BELOW_ZERO))
    for quarters, where in product(CELSIUS_HALVES, BESIDE):
        yield judged(quarters, CELSIUS_HALVES), at_half(where, CELSIUS, quarters)
    for quarters in FAHRENHEIT_HALVES:
        yield judged(quarters, FAHRENHEIT_HALVES), at_half(AT, FAHRENHEIT, quarters)
    for kind, name, (place, right) in product(WITH_SINGLES, SPECIAL, zip(PLACES, RIGHT)):
        yield of_special(name) if kind in right else NUMBERS[KIND], special(kind, name, place)
    for place, codes in CODES.items():
        yield from ((NUMBERS[CODE], of_code(code, place)) for code in codes)


def steps(kind):
    low, high = RANGES[kind]
    for number in range(low, high + 1):
        yield from ((OK, end_of(which, kind, number)) for which in (LOWEST, HIGHEST))


def ends_of_range(kind):
    """The last single in range and the next, at both ends."""
    low, high = RANGES[kind]
    yield from ((OK, end_of(LOWEST, kind, low)), (OK, end_of(HIGHEST, kind, high)))
    yield NUMBERS[RANGE], end_of(HIGHEST, kind, low - 1)
    yield NUMBERS[RANGE], end_of(LOWEST, kind, high + 1)


def judged(quarters, halves):
    """The first and the last are past the ends."""
    return NUMBERS[RANGE] if quarters in (halves[0], halves[-1]) else OK


def of_special(name):
    if name in signed(NOT_FINITE):
        return NUMBERS[NO_NUMBER]
    return NUMBERS[RANGE] if name in signed(LARGEST) else OK
