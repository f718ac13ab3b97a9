"""Where a run and a factor lie on the picture. One run far from the others would press them all into a line: it lies
off the scale, in a lane at the edge with its factor beside it."""

import math

WIDTH, HEIGHT = 900, 520
LEFT, RIGHT, TOP, BOTTOM = 100, 190, 80, 70
LANE = 36
FEWEST_STEPS = 6
MOST_BANDS = 4


def band_top(smallest, limit):
    """The highest factor that the limit allows above the smallest of the five."""
    return smallest + smallest * limit / 10_000


def reach(factors, five, limit):
    """The lowest and the highest factor on the scale: what lies about the middle of the five, as wide as some bands, or
    as twice the farthest but one of the five."""
    middle = sorted(five)[len(five) // 2]
    away = sorted(abs(factor - middle) for factor in five)
    room = max(FEWEST_STEPS, math.ceil(MOST_BANDS * (band_top(middle, limit) - middle)), 2 * away[-2])
    near = [factor for factor in factors if abs(factor - middle) <= room]
    return min(near), max(near)


class Scale:
    def __init__(self, factors, five, limit):
        self.count = len(factors)
        self.lowest, self.highest = reach(factors, five, limit)
        self.below = any(factor < self.lowest for factor in factors)
        self.above = any(factor > self.highest for factor in factors)
        top = self.highest
        if not self.is_off(min(five)):
            top = max(top, math.ceil(band_top(min(five), limit)))
        spare = max((FEWEST_STEPS - (top - self.lowest)) // 2, (top - self.lowest) // 12, 1)
        self.low, self.high = self.lowest - spare, top + spare
        self.ceiling = TOP + LANE * self.above
        self.floor = HEIGHT - BOTTOM - LANE * self.below

    def is_off(self, factor):
        return not self.lowest <= factor <= self.highest

    def x(self, run):
        return LEFT + (WIDTH - LEFT - RIGHT) * (run - 0.5) / self.count

    def y(self, factor):
        return self.floor - (self.floor - self.ceiling) * (factor - self.low) / (self.high - self.low)

    def mark(self, factor):
        """Where a run's mark lies: in the middle of a lane where its factor is off the scale."""
        if not self.is_off(factor):
            return self.y(factor)
        return self.floor + LANE / 2 if factor < self.lowest else self.ceiling - LANE / 2

    def band(self, smallest, limit):
        """The top and the height of the limit's band; a strip in its lane where the smallest lies off the scale."""
        if self.is_off(smallest):
            return self.mark(smallest) - 6, 6
        top = self.y(band_top(smallest, limit))
        return top, self.y(smallest) - top

    @property
    def steps(self):
        """Factors with a line of their own: at most a dozen, at round distances."""
        each = next(step for step in (1, 2, 5, 10, 20, 50, 100, 200, 500, 1000) if (self.high - self.low) // step <= 12)
        return range(-(-self.low // each) * each, self.high + 1, each)
