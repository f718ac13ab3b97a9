"""Cases of `write` and `read`."""

from dataclasses import replace

from .shapes import Report, hexed, line

LENGTHS = (0, 1, 31, 33, 64, 1000)


def aimed(rng):
    plain = Report()
    for report in faulty(plain):
        yield report.write
        yield report.read
    for length in LENGTHS:
        lent = rng.randbytes(length)
        yield line("read", hexed(lent))
        yield line("read", hexed((plain.packed * 40)[:length]))
        for request in (0, 7):
            for first in (0, 2):
                yield replace(plain, buffer=lent, request=request, first=first).write
    for request, first, runs in ((0, 0, 6), (0, 2, 21), (2**32 - 1, 3, 6)):
        lent = rng.randbytes(32)
        yield replace(plain, request=request, first=first, runs=runs, buffer=lent).write
    for at in range(14):
        for byte in (1, 0x80, 0xFF):
            rest = bytearray(14)
            rest[at] = byte
            yield replace(plain, rest=bytes(rest)).read
    # every first run at every count of runs, and one past on both sides
    for runs in (0, 1, 3, 4, 5, 6, 19, 20, 21, 22, 255):
        last = max(runs - 4, 0)
        for first in sorted({0, 1, 2, max(last - 1, 0), last, last + 1, runs, 255}):
            yield replace(plain, runs=runs, first=first).write
            yield replace(plain, runs=runs, first=first).read


def faulty(plain):
    yield plain
    yield replace(plain, request=0)
    yield replace(plain, request=2**32 - 1)
    for at in range(5):
        for factor in (0, 7999, 8000, 12000, 12001, 65535):
            factors = list(plain.factors)
            factors[at] = factor
            yield replace(plain, factors=tuple(factors))
    for off in (-1, 1, -256, 256, -10002):
        yield replace(plain, factor=10002 + off)
    for sum_left in range(5):
        factors = (10000, 10000, 10000, 10000, 10000 + sum_left)
        yield replace(plain, factors=factors)
        yield replace(plain, factors=factors, factor=sum(factors) // 5)
        yield replace(plain, factors=factors, factor=-(-sum(factors) // 5))
    yield replace(plain, factors=(8000,) * 5)
    yield replace(plain, factors=(12000,) * 5)
    yield replace(plain, factors=(8000, 12000, 8000, 12000, 8000))


def valid(rng):
    runs = rng.randint(5, 20)
    return Report(
        request=rng.choice((rng.randint(1, 20), rng.randint(1, 2**32 - 1))),
        runs=runs,
        first=rng.randint(1, runs - 4),
        factors=tuple(rng.randint(8000, 12000) for _ in range(5)),
        buffer=rng.randbytes(32),
    )


def by_chance(rng):
    report = valid(rng)
    if rng.random() < 0.5:
        return report.write
    if rng.random() < 0.7:
        return report.read
    lent = bytearray(report.packed)
    lent[rng.randrange(32)] = rng.randrange(256)
    return line("read", hexed(bytes(lent)))
