"""The faults of channels that must be reached: each alone in either channel, and of every two the
one that is answered; and every two kinds of channel."""

from itertools import product

from cases.channel_shapes import KINDS, RIGHT, WITH_SINGLES
from channel_faults import CODE, KIND, NO_NUMBER, NUMBERS, RANGE
from outcomes import OK
from precedence import order

PLACES = ("first", "second")


def alone(fault, place):
    return f"{fault} in the {place} channel alone"


def across(fault, other):
    return order(fault, other, "of the second channel")


def together(other, kind, place):
    return order(KIND, other, f"of a {kind} in the {place} channel")


def two_kinds(one, other):
    return f"a {one} and then a {other}"


def reached(channels, found):
    """Of the faults found in each."""
    for place, channel, own, other in zip(PLACES, channels, found, reversed(found)):
        if other:
            continue
        if len(own) == 1:
            yield alone(*own, place)
        elif own:
            yield together(own[1], channel.kind, place)
    first, second = found
    if len(first) == len(second) == 1:
        yield across(*first, *second)
    if {*first, *second} <= {CODE, KIND}:
        yield two_kinds(*(channel.kind for channel in channels))


def by_kinds(kinds):
    """What is answered where nothing is wrong but kinds."""
    for kind, right in zip(kinds, RIGHT):
        if kind not in right:
            return NUMBERS[KIND if kind in WITH_SINGLES else CODE]
    return OK


def wanted():
    for fault, number in NUMBERS.items():
        yield from ((number, alone(fault, place)) for place in PLACES)
        yield from ((number, across(fault, other)) for other in NUMBERS)
    for place, right in zip(PLACES, RIGHT):
        for kind, other in product(WITH_SINGLES, (NO_NUMBER, RANGE)):
            if kind not in right:
                yield NUMBERS[KIND], together(other, kind, place)
    yield from ((by_kinds(kinds), two_kinds(*kinds)) for kinds in product(KINDS, repeat=2))
