"""The repeatability test and the first qualifying group."""

from fractions import Fraction

from refusals import NO_GROUP, Refused
from rounding import rounded


def qualifies(values, limit):
    # 01, Proving: "(largest - smallest) × 10,000 ≤ limit × smallest"
    return (max(values) - min(values)) * 10_000 <= limit * min(values)


def first_group(values, size, limit):
    """Where the first qualifying group of consecutive values begins, from 0; None without one.
    01, Proving: "The first qualifying five decide"; Water draw: "The first three decide"."""
    for first in range(len(values) - size + 1):
        if qualifies(values[first : first + size], limit):
            return first
    return None


def spread(values):
    """The smallest, the largest and the spread: "(largest - smallest) as a percentage of the
    smallest", in 0.001 %; "refused 9 0 where there is none to tell"."""
    smallest, largest = min(values), max(values)
    if smallest == 0:
        raise Refused(NO_GROUP)
    percentage = rounded(Fraction(largest - smallest, smallest) * 100, 3)
    if percentage >= 2**64:
        raise Refused(NO_GROUP)
    return smallest, largest, percentage


def mean(values):
    # "The job's factor is their mean, rounded"; "the base volume is their mean, rounded"
    return rounded(Fraction(sum(values), len(values)), 0)
