"""Rounding: each value is an exact fraction until it is rounded once."""


def rounded(value, places):
    """The nearest whole number of 10^-places. 01, Factors: "rounded once to d places",
    "Halves go up for these positive numbers"."""
    number, divisor = value.numerator * 10**places, value.denominator
    return (2 * number + divisor) // (2 * divisor)


def nearest(value):
    """01, Live readings: "to the nearest whole number, halves away from zero"."""
    return rounded(value, 0) if value >= 0 else -rounded(-value, 0)
