"""The spread of a group in words: as people work it out, and the exact test in whole numbers."""

from .fields import LIMIT
from .units import Unit

SPREAD = Unit("%", 3)


def against(group, limit):
    """The spread beside the limit."""
    return f"{SPREAD.text(group.spread)} (rounded) of the smallest; limit {LIMIT.text(limit)}"


def rows(group, limit, met):
    """Pairs for a page. The test is the paper's, on counts: nothing of it is worked out here."""
    verdict = "met" if met else "not met"
    test = f"({group.largest} - {group.smallest}) x 10,000 <= {limit} x {group.smallest}"
    return [
        ("Spread", f"{against(group, limit)}: {verdict}"),
        ("Test in whole numbers", f"{test}: {verdict}"),
    ]


def nearest(noun, group, limit):
    """The best group of a job in which none agrees, and how far it is from the limit."""
    return f"best {noun} {group.numbers[0]} to {group.numbers[-1]}, {against(group, limit)}"
