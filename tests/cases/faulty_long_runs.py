"""Faults of a job in the longer form: each makes a good job bad in one way; `at` is the record,
from 0, where one is. And jobs with them: each alone and at each place, and two together."""

from dataclasses import replace
from itertools import combinations, product

from . import ends, equilibria, proving_faults
from .shapes import Job, LongRun, Run, both_forms


def buffer(job, at, rng):
    return replace(job, buffer=rng.randbytes(rng.choice((0, 31, 33, 48))))


def request(job, at, rng):
    return replace(job, request=0)


def not_whole(job, at, rng):
    return replace(job, tail=rng.randbytes(rng.randint(1, 47)))


def too_few(job, at, rng):
    return replace(job, runs=job.runs[:2] + job.runs[-2:])


def too_many(job, at, rng):
    return replace(job, runs=job.runs[:1] + job.runs[1:2] * 20 + job.runs[2:])


def second_run(job, at, rng):
    """Behind the one that an entry takes."""
    return replace(job, tail=job.runs[0].packed)


def setting(job, at, rng):
    return replace(job, prover=replace(job.prover, base=rng.choice((100_000_001, 2**32 - 1))))


def pipe(job, at, rng):
    name = rng.choice(("inside", "wall", "modulus"))
    return replace(job, prover=replace(job.prover, **{name: ends.outside(ends.PROVER[name], rng)}))


def k_factor(job, at, rng):
    return replace(job, k_factor=10**9 + rng.choice((1, 2, 1000)))


def limit(job, at, rng):
    return replace(job, limit=rng.choice((0, 101)))


def field(job, at, rng):
    """The meter's temperature, which no formula uses."""
    return job.with_run(at, meter_temperature=rng.choice((-201, 2001, -(2**15), 2**15 - 1)))


def other_field(job, at, rng):
    name = rng.choice((*ends.LONG_RUN,))
    return job.with_run(at, **{name: ends.outside(ends.LONG_RUN[name], rng)})


def below_equilibrium(job, at, rng):
    side = rng.choice(("prover", "meter"))
    pressure = getattr(job.runs[at], f"{side}_pressure")
    return job.with_run(at, **{f"{side}_equilibrium_pressure": equilibria.above(pressure, rng)})


def unnamed(job, at, rng):
    octets = bytearray(20)
    octets[rng.randrange(20)] = rng.randint(1, 255)
    return job.with_run(at, unnamed=bytes(octets))


def indicated(job, at, rng):
    """So few pulses that they indicate nothing, at a K of 10^9."""
    return job.with_run(at, pulses=rng.randint(1000, 49_999))


def run_factor(job, at, rng):
    return job.with_run(at, pulses=rng.choice((50_000, 15_000_000_001, 30_000_000_000)))


def no_group(job, at, rng):
    """Every second run has one pulse more in twenty, but for those that have another fault."""
    runs = list(job.runs)
    for place, run in enumerate(runs):
        if run.pulses == GOOD.runs[0].pulses and place % 2:
            runs[place] = replace(run, pulses=run.pulses * 21 // 20)
    return replace(job, runs=tuple(runs))


# K 1,000,000 pulses per barrel, so that fewer than 50 pulses indicate nothing (7).
GOOD = Job((LongRun(20_000_000_001),) * 6, k_factor=10**9, form=LongRun)

JOB_FAULTS = (buffer, request, not_whole, too_few, too_many, setting, k_factor, limit, no_group)
RECORD_FAULTS = (field, unnamed, indicated, run_factor)
NUMBERED = (*JOB_FAULTS, *RECORD_FAULTS)
ALL = (*NUMBERED, pipe, other_field, below_equilibrium)
SINGLE_RUN_FAULTS = (not_whole, second_run, setting, k_factor, *RECORD_FAULTS)


def aimed(rng):
    yield from beside_short(rng)
    good = replace(GOOD, buffer=rng.randbytes(32))
    yield from alone(good, rng)
    yield from in_pairs(good, rng)
    yield from in_one_run(good, rng)
    # volumes above the range, and factors below theirs
    much = replace(good, k_factor=10**6).with_run(2, pulses=10**11)
    yield from (much.prove, much.run(2))


def beside_short(rng):
    """Each fault that a job with short records can have."""
    good = Job((Run(20_000_000),) * 6, k_factor=10**9, buffer=rng.randbytes(32))
    yield from both_forms(good, "prove", "runs", "run")
    for fault, at in product(proving_faults.ALL, (0, 3, 5)):
        yield from both_forms(fault(good, at, rng), "prove", "runs")
    for fault, at in product(proving_faults.SINGLE_RUN_FAULTS, (0, 5)):
        yield from both_forms(fault(good, at, rng), "run", at=at)


def alone(good, rng):
    for fault in JOB_FAULTS:
        for bad in (fault(good, 0, rng), fault(good, 0, rng)):
            yield from (bad.prove, bad.accepted)
    # each fault of a record at each place that a job can have
    for fault, at in product(RECORD_FAULTS, range(20)):
        most = replace(good, runs=good.runs[:1] * 20)
        bad = fault(most, at, rng)
        yield from (bad.prove, bad.run(at))
    for fault in (pipe, other_field, below_equilibrium):
        for at in range(6):
            bad = fault(good, at, rng)
            yield from (bad.prove, bad.accepted, bad.run(at))


def in_pairs(good, rng):
    for one, other in combinations(NUMBERED, 2):
        for at, later in ((0, 5), (5, 0), (2, 2)):
            # records are marred before the count of them is changed
            bad = other(good, later, rng) if other in RECORD_FAULTS else good
            bad = one(bad, at, rng)
            bad = bad if other in RECORD_FAULTS else other(bad, later, rng)
            yield bad.prove
    for one in RECORD_FAULTS:
        for at, later in ((0, 5), (2, 3)):
            yield one(one(good, at, rng), later, rng).prove


def in_one_run(good, rng):
    single = replace(good, runs=good.runs[:1])
    for fault in SINGLE_RUN_FAULTS:
        yield fault(single, 0, rng).run()
    for one, other in combinations(SINGLE_RUN_FAULTS, 2):
        yield other(one(single, 0, rng), 0, rng).run()
