"""The faults of two channels, each found whatever others there are."""

from cases.channel_shapes import FAULT, RANGES, RIGHT, is_finite, meaning

CODE, KIND = "a fault code", "a wrong kind"
NO_NUMBER, RANGE = "a single that is not finite", "a number out of range"
NUMBERS = {CODE: 34, KIND: 35, NO_NUMBER: 12, RANGE: 13}


def is_in_range(kind, single):
    low, high = RANGES[kind]
    return low <= meaning(kind, single) <= high


def of_channel(channel, right):
    if channel.kind == FAULT:
        # which carries no number
        yield CODE
        return
    if channel.kind not in right:
        yield KIND
    if not is_finite(channel.value):
        yield NO_NUMBER
    elif not is_in_range(*channel):
        yield RANGE


def faults(channels):
    """Those of the first channel and those of the second, in the order in which they are found."""
    return [[*of_channel(channel, right)] for channel, right in zip(channels, RIGHT)]
