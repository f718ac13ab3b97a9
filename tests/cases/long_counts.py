"""Cases of counts in thousandths of a pulse: their ends, the ends and exact halves of the indicated
volume that they come to, and jobs that turn on a part of a pulse."""

from dataclasses import replace
from fractions import Fraction
from itertools import product

from .arithmetic import half_up
from .job_figures import JobFigures
from .plain import fitted_job, plain_job
from .proving_days import interpolated_job, valid_job
from .provings import ORDINARY
from .shapes import Prover

# In range: both ends, whole counts and their neighbours, and where 32 bits end.
COUNTS = (
    *(1000, 1001, 1500, 1999, 2000, 2001, 65_535, 65_536, 2**24, 4_294_967_000, 2**32 - 1, 2**32),
    *(2**32 + 1, 2**32 + 1000, 2**33, 2**36, 10**11 - 1001, 10**11 - 1000, 10**11 - 1, 10**11),
)
# Past an end; some with a lower word, or lower bytes, that would be in range.
COUNTS_PAST = (
    *(0, 1, 500, 999, 10**11 + 1, 10**11 + 1000, 24 * 2**32, 24 * 2**32 + 200_000_000, 2**37),
    *(2**40 + 200_000_000, 2**48 + 200_000_000, 2**56 + 200_000_000, 2**63 - 1, 2**63),
    *(2**63 + 200_000_000, 2**64 - 1000, 2**64 - 1),
)

LOWER_WORD = "the lower word"
# Other counts that a job could be worked with.
OTHER_COUNTS = {
    "whole pulses, the rest cut off": lambda count: count // 1000 * 1000,
    "whole pulses, any rest for one more": lambda count: -(-count // 1000) * 1000,
    "whole pulses, rounded": lambda count: half_up(count, 1000) * 1000,
    "tenths of a pulse": lambda count: count // 100 * 100,
    "hundredths of a pulse": lambda count: count // 10 * 10,
    LOWER_WORD: lambda count: count % 2**32,
}
# Other roundings of the indicated volume, which is a number by a divisor.
OTHER_ROUNDINGS = {
    "halves down": lambda number, divisor: -((divisor - 2 * number) // (2 * divisor)),
    "halves to even": lambda number, divisor: round(Fraction(number, divisor)),
    "the rest cut off": lambda number, divisor: number // divisor,
    "any rest for one more": lambda number, divisor: -(-number // divisor),
    "rounded to 5 places first": lambda number, divisor: half_up(half_up(10 * number, divisor), 10),
}
# 10,000 thousandths of a pulse to so many K are halves.
HALF_UNITS = (32, 160, 800, 4000, 20000)


def indicated(counts, k_factor):
    return [half_up(count * 10**4, k_factor) for count in counts]


def accepted_by(figures, job, rule):
    return figures.accepted(indicated([rule(run.pulses) for run in job.runs], job.k_factor))


def aimed(rng):
    yield from count_ends(rng)
    yield from indicated_ends()
    yield from halves(rng)
    yield from turning(rng)


def of_count(count, k_factor):
    """Five runs of a count, with the base volume that makes their factor nearest to 1."""
    return fitted_job(replace(ORDINARY.long, pulses=count), Prover(), k_factor)


def count_ends(rng):
    for count in COUNTS:
        # about 20 barrels
        job = of_count(count, min(max(count // 20, 1), 10**9))
        yield from (job.prove, job.accepted, job.run())
    for count in COUNTS_PAST:
        at = rng.randrange(6)
        job = plain_job([10000] * 6).long.with_run(at, pulses=count)
        yield from (job.prove, job.accepted, job.run(at))


def indicated_ends():
    """The indicated volume at 0 and 1, at 100,000,000 and one past, by a half and beside it."""
    for count in (1001, 1999, 12_345, 49_999):
        for k_factor in (20_000 * count - 1, 20_000 * count, 20_000 * count + 1):
            yield from run_and_job(of_count(count, k_factor))
    for count in (49_999, 50_000, 50_001):
        yield from run_and_job(of_count(count, 10**9))
    for times in (1, 7, 499):
        # a half of 0.0001 barrel above the range
        for by in (-2, -1, 0, 1):
            yield from run_and_job(of_count(200_000_001 * times + by, 20_000 * times))
    for k_factor in (1, 10**6, 10**7 - 1, 10**7):
        yield from run_and_job(of_count(10**11, k_factor))
    yield from run_and_job(of_count(10**11 - 1, 10**7))
    for count in (1000, 1001):
        yield from run_and_job(of_count(count, 1))


def run_and_job(job):
    yield job.run()
    yield job.prove


def halves(rng):
    """Exact halves of counts that are not whole, and the counts on either side."""
    for unit, _ in product(HALF_UNITS, range(8)):
        while True:
            times = rng.randint(1, 10**9 // unit)
            count = times * (2 * rng.randint(0, 10**4) + 1)
            if 1001 <= count < 10**11 and count % 1000 and count * 10**4 < times * unit * 10**8:
                break
        for by in (-1, 0, 1):
            yield from run_and_job(of_count(count + by, times * unit))


def turning(rng):
    """Jobs that are accepted otherwise, or not at all, by other counts; and refused ones that would
    be accepted."""
    for name, rule in OTHER_COUNTS.items():
        if name != LOWER_WORD:
            for is_accepted, would_be in ((True, True), (True, False), (False, True)):
                job = searched(rule, is_accepted, would_be, rng)
                yield from (job.prove, job.accepted)
    for job in of_two_words():
        yield from (job.prove, job.accepted)


def of_two_words():
    """Jobs of counts past 32 bits: by their lower words the first five of six would agree, those
    that do not would, and those that do would not."""
    one, other = 5 * 2**32 + 500_000_000, 6 * 2**32 + 500_000_000
    beside = 5 * 2**32 - 1000, 5 * 2**32 + 1000
    for counts in ((other, *(one,) * 5), (one, other) * 3, beside * 3):
        runs = tuple(replace(ORDINARY.long, pulses=count) for count in counts)
        yield replace(of_count(one, 10**9), runs=runs)


def searched(rule, is_accepted, would_be, rng):
    while True:
        job = interpolated_job(rng) if rng.random() < 0.7 else valid_job(rng).long
        figures = JobFigures(job)
        own = accepted_by(figures, job, lambda count: count)
        other = accepted_by(figures, job, rule)
        if own != other and (own is not None) == is_accepted and (other is not None) == would_be:
            return job
