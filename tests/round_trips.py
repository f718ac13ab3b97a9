"""What the passes of a bidirectional draw come to, and what they would by other rules."""

from fractions import Fraction
from functools import cached_property
from itertools import groupby, pairwise

from cases.arithmetic import half_up
from cases.draw_days import LIMIT


def rounded(value):
    return half_up(value.numerator, value.denominator)


def agree(three):
    return (max(three) - min(three)) * 10_000 <= LIMIT * min(three)


def first_three(volumes):
    """Where the first three that agree begin, from 0."""
    starts = range(len(volumes) - 2)
    return next((at for at in starts if agree(volumes[at : at + 3])), None)


def paired(passes):
    return [out + back for out, back in zip(passes[0::2], passes[1::2])]


class Trips:
    """The passes and round trips of a draw whose settings and records stand."""

    def __init__(self, draw):
        own = [[*fills] for _, fills in groupby(draw.fills, lambda fill: fill.pass_number)]
        self.prover = draw.prover
        self.pressures = [fills[0].pressure for fills in own]
        self.drawn = [sum(fill.drawn(draw.prover) for fill in fills) for fills in own]
        self.exact = [*map(self.corrected, self.drawn, self.pressures)]
        self.passes = [*map(rounded, self.exact)]
        self.trips = paired(self.passes)
        self.first = first_three(self.trips)

    def corrected(self, drawn, pressure):
        return Fraction(drawn * 10**12, self.prover.pass_divisor(pressure))

    @property
    def count(self):
        return len(self.passes)

    @property
    def used(self):
        """The three that decide; the first three where none do."""
        return self.trips[self.first or 0 :][:3]

    @property
    def used_passes(self):
        return self.passes[2 * (self.first or 0) :][:6]

    @property
    def spread(self):
        return max(self.used) - min(self.used)

    @property
    def pairs(self):
        """Of each round trip the passes out and back, by their places."""
        return [(at, at + 1) for at in range(0, self.count, 2)]

    @cached_property
    def halves(self):
        """Of each round trip whether its passes, out and back, lie on a half."""
        return {tuple(self.exact[at].denominator == 2 for at in pair) for pair in self.pairs}

    @cached_property
    def turns(self):
        """How far the sum of each two exact passes, rounded, is from their round trip."""
        sums = [rounded(self.exact[out] + self.exact[back]) for out, back in self.pairs]
        return {other - trip for other, trip in zip(sums, self.trips)}

    @property
    def leans(self):
        """Of each round trip how much more pressure it has out than back."""
        return [self.pressures[out] - self.pressures[back] for out, back in self.pairs]

    @property
    def by_out_pressure(self):
        """The round trips if the back pass were worked at the out pass's pressure."""
        return [
            self.passes[out] + rounded(self.corrected(self.drawn[back], self.pressures[out]))
            for out, back in self.pairs
        ]


# Other groupings of the passes: where the first three that agree would begin, from 0.


def from_any_pass(passes):
    starts = range(len(passes) - 5)
    return next((at for at in starts if agree(paired(passes[at : at + 6]))), None)


def overlapping(passes):
    return first_three([one + other for one, other in pairwise(passes)])


def every_second(passes):
    at = first_three(passes[0::2])
    return None if at is None else 2 * at


OTHERS = {
    "passes in a row": first_three,
    "out passes": every_second,
    "back passes": lambda passes: every_second(passes[1:]),
    "pairs from an even pass on": from_any_pass,
    "overlapping pairs": overlapping,
}
