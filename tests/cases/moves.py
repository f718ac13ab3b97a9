"""Cases of `forward` and `back`."""

from dataclasses import replace
from itertools import chain, product

from . import ends, equilibria, faulty_moves
from .move_shapes import (
    BACK,
    FORWARD,
    LENT,
    MOST,
    OTHER_WAY,
    WAYS,
    any_run,
    any_runs,
    as_lent,
    move,
)
from .shapes import LongRun, Run

# Counts in range: the ends, and where a byte or a word of the product carries.
PULSES = (
    *(1, 2, 255, 256, 65_535, 65_536, 4_294_967, 4_294_968, 16_777_215, 16_777_216),
    *(99_999_999, 100_000_000),
)
# Past an end; those of 8 bytes with lower words, and with rests, that would be in range.
PULSES_PAST = (0, 100_000_001, 2**31, 2**32 - 1)
THOUSANDTHS_PAST = (
    *(0, 1, 500, 999, 10**11 + 1, 10**11 + 1000, 24 * 2**32, 24 * 2**32 + 200_000_000, 2**37),
    *(2**40 + 200_000, 2**48 + 20_000, 2**56 + 20_000_000, 2**63 - 1, 2**63, 2**63 + 2_000_000),
    *(2**64 - 616, 2**64 - 1),
)
# What a count that is not whole has beyond whole pulses: next to them, and what 8, 10, 100, 125,
# 250 or 500 divides, as it does 1000.
RESTS = (1, 2, 8, 10, 100, 125, 200, 250, 499, 500, 501, 512, 750, 875, 900, 990, 992, 998, 999)
# Whole counts, each with its neighbours asked.
WHOLE = (1000, 2000, 200_000_000, 4_294_967_000, 4_294_968_000, 99_999_999_000, 10**11)
# Past 32 bits: the lower word of the first two is whole and the count is not, of the others the
# count is whole and the lower word is not.
OF_TWO_WORDS = (2**32 + 1000, 3 * 2**32 + 5000, 2**32 + 704, 3 * 2**32 + 112)

# Every field has its own two bytes, the temperature below 0 too.
ALL_UNLIKE = Run(0x04030201, -2, 772, 1286, 1029, 0x1716, 0x1918, 0x1B1A, 0x1D1C, 515, 258)


def aimed(rng):
    for one in chain(
        there_and_back(rng),
        over_zeros(rng),
        counts(rng),
        not_whole(rng),
        field_ends(rng),
        equilibrium_ends(rng),
        faulty_moves.aimed(rng),
    ):
        yield one.line


def there_and_back(rng):
    """Each file and, on the next line, what it comes to moved back; and so once more."""
    for way in WAYS:
        for count in (1, 2, 3, 7, 100):
            yield from chained(move(way, any_runs(way, count, rng), rng), rng, 2)
    for run in (ALL_UNLIKE, replace(ALL_UNLIKE, prover_temperature=2000, meter_temperature=-200)):
        yield from chained(move(FORWARD, (run,), rng), rng, 3)
    yield from chained(move(FORWARD, any_runs(FORWARD, MOST, rng), rng), rng, 3)


def chained(one, rng, times):
    for _ in range(times):
        yield one
        one = move(OTHER_WAY[one.way], one.moved, rng)


def over_zeros(rng):
    """A buffer that nothing was written to before."""
    for way, count in product(WAYS, (1, 5)):
        one = move(way, any_runs(way, count, rng), rng)
        yield replace(one, buffer=bytes(len(one.buffer)))


def counts(rng):
    """Each alone, and last of three."""
    for pulses in (*PULSES, *PULSES_PAST):
        yield from alone_and_last(any_run(rng), pulses, rng)
    for pulses in (*(1000 * whole for whole in PULSES), *THOUSANDTHS_PAST):
        yield from alone_and_last(any_run(rng).long, pulses, rng)


def not_whole(rng):
    for whole in WHOLE:
        for by in (-1, 0, 1):
            yield from alone_and_last(any_run(rng).long, whole + by, rng)
    for rest in RESTS:
        for whole in (1000, 1000 * rng.randint(1, 99_999_999)):
            yield from alone_and_last(any_run(rng).long, whole + rest, rng)
    for pulses in OF_TWO_WORDS:
        yield from alone_and_last(any_run(rng).long, pulses, rng)


def alone_and_last(run, pulses, rng):
    run = replace(run, pulses=pulses)
    way = BACK if isinstance(run, LongRun) else FORWARD
    yield move(way, (run,), rng)
    yield move(way, (*any_runs(way, 2, rng), run), rng)


def field_ends(rng):
    """Each field at both ends of its range, beside them and at the ends of its type; the liquid's
    pressure is where its equilibrium pressure can be any in range."""
    for way in WAYS:
        for name, of in ends.RUN.items():
            if name == "pulses":
                continue
            for value in ends.around(of):
                run = replace(any_run(rng), prover_pressure=1500, meter_pressure=1500)
                run = replace(run, **faulty_moves.without_equilibrium(name) | {name: value})
                yield move(way, (as_lent(way, run),), rng)


def equilibrium_ends(rng):
    for way in WAYS:
        for side in ("prover", "meter"):
            for pressure in (0, 1, 385, 1500):
                for equilibrium in equilibria.around(pressure):
                    liquid = {f"{side}_pressure": pressure}
                    liquid |= {f"{side}_equilibrium_pressure": equilibrium}
                    run = replace(any_run(rng), **liquid)
                    yield move(way, (as_lent(way, run),), rng)


def by_chance(rng):
    way = rng.choice(WAYS)
    count = rng.choice((1, 2, rng.randint(1, 9), rng.randint(5, 20), rng.randint(1, 60)))
    one = move(way, any_runs(way, count, rng), rng)
    chance = rng.random()
    if chance < 0.4:
        one = rng.choice(faulty_moves.IN_RECORDS[way])(one, rng.randrange(count), rng)
    elif chance < 0.5:
        one = one.with_tail(rng.randbytes(rng.randrange(LENT[way].LAYOUT.size)), rng)
    elif chance < 0.6:
        buffer = rng.randbytes(max(len(one.buffer) + rng.choice((-48, -32, -1, 1, 24, 32)), 0))
        one = replace(one, buffer=buffer)
    return one.line
