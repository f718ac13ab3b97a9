"""Rounded quotients a * b / d aimed at long division: every length of the divisor, quotients of one word and of two, every pair of
corrections that two estimated digits can need, and the rests at which rounding turns."""

import random

WORD, DIGIT = 2**64, 2**32
MOST = WORD - 1
# As include/endakuro.h has them.
VALUE, ZERO_DIVISOR, TOO_LARGE = range(3)


def answer(a, b, d):
    """The kind and the value, by whole numbers of any length."""
    if d == 0:
        return ZERO_DIVISOR, 0
    nearest = (2 * a * b + d) // (2 * d)
    return (VALUE, nearest) if nearest <= MOST else (TOO_LARGE, 0)


def corrections(n, d):
    """How far the estimates of the quotient's two digits are above them, each made from the divisor's upper digit alone."""
    scale = 2 ** (64 - d.bit_length())
    d, n = d * scale, n * scale
    rest, off = n // WORD, []
    for digit in (n // DIGIT % DIGIT, n % DIGIT):
        estimate = rest // (d // DIGIT)
        quotient, rest = divmod(rest * DIGIT + digit, d)
        off.append(estimate - quotient)
    return tuple(off)


def reached(a, b, d):
    """What a ratio reaches, of all that must be reached."""
    kind, _ = answer(a, b, d)
    yield "kind", kind
    if d == 0:
        return
    n = a * b
    if n // WORD >= d:
        yield "upper word", "no less than the divisor"
        return
    words = 2 if n >= WORD else 1
    yield "divisor's bits", words, d.bit_length()
    yield "rounding", words, (n % d * 2 > d) - (n % d * 2 < d)
    yield "rest", words, "none" if n % d == 0 else "all but one" if n % d == d - 1 else "some"
    if kind == TOO_LARGE:
        yield "largest quotient", "rounded up"
    if words == 2:
        yield "corrections", corrections(n, d)


def wanted():
    """All that must be reached. A dividend of two words has a divisor of two bits or more."""
    yield from (("kind", kind) for kind in (VALUE, ZERO_DIVISOR, TOO_LARGE))
    yield "upper word", "no less than the divisor"
    yield "largest quotient", "rounded up"
    yield from (("corrections", (first, second)) for first in range(3) for second in range(3))
    for words in (1, 2):
        yield from (("divisor's bits", words, bits) for bits in range(words, 65))
        yield from (("rounding", words, side) for side in (-1, 0, 1))
        yield from (("rest", words, rest) for rest in ("none", "some", "all but one"))


def of_length(rng, bits):
    return rng.randrange(2 ** (bits - 1), 2**bits)


def divisors(rng):
    """Of each length the least, the largest and some between; at 64 bits those whose estimates are the worst: the upper digit near
    its least, the lower near its largest."""
    for bits in range(1, 65):
        yield from (2 ** (bits - 1), 2**bits - 1)
        yield from (of_length(rng, bits) for _ in range(6))
    for _ in range(1500):
        upper = DIGIT // 2 + rng.randrange(2 ** rng.randint(1, 30))
        lower = DIGIT - 1 - rng.randrange(2 ** rng.randint(1, 31))
        yield upper * DIGIT + lower >> rng.choice((0, 0, 0, 1, 5, 20, 31))


def aimed(rng):
    for d in divisors(rng):
        a = rng.randrange(WORD)
        # about d: the rests are few; about its half, with an odd number of halves: the sides of a half
        for b in (d - 1, d, min(d + 1, MOST), d // 2, rng.randrange(d), rng.randrange(d)):
            yield a, b, d
            yield of_length(rng, rng.randint(1, 64)), b, d
        yield from ((1, b, d) for b in (d // 2, (d + 1) // 2, d - 1, d, MOST))
        yield from ((MOST, b, d) for b in (d - 1, d, min(d + 1, MOST)))
    # the least divisor that leaves the quotient a word: some of these are rounded past it
    for _ in range(400):
        a, b = rng.randrange(WORD), rng.randrange(WORD)
        yield a, b, a * b // WORD + 1
    for a, b in ((0, 0), (1, 0), (MOST, MOST)):
        yield from ((a, b, d) for d in (0, 1, MOST))


def ratios(seed):
    return list(aimed(random.Random(seed)))
