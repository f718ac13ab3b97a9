"""The profiles of a prover: what a job file calls each, what is asked of the program for a water draw by it, and how
pages name what must agree."""

import re
from dataclasses import dataclass

from . import fields


@dataclass(frozen=True)
class Profile:
    """`draw` is the program's line for the base volume, `volumes` the one for the volumes that must agree, which pages
    call `judged`. `passes` are the ends of their count, and `firsts` the passes that such a volume may begin with."""

    name: str
    draw: str
    volumes: str
    judged: str
    passes: tuple
    firsts: range

    def number_of(self, first_pass):
        """Which of the volumes, counted from 1, begins with a pass."""
        return self.firsts.index(first_pass) + 1


UNIDIRECTIONAL = Profile("unidirectional", "draw", "passes", "passes", fields.PASSES, range(1, 21))
# 02: 'passes come in pairs, odd out and even back'.
BIDIRECTIONAL = Profile("bidirectional", "bidirectional", "trips", "round trips", fields.PAIRED_PASSES, range(1, 21, 2))
WAYS = ("out", "back")
PROFILES = {own.name: own for own in (UNIDIRECTIONAL, BIDIRECTIONAL)}


def says_bidirectional(words):
    """Whether a text is the profile's name and no more, however it is written: Bi-directional."""
    return re.sub("[^a-z]", "", str(words).casefold()) == BIDIRECTIONAL.name
