"""Faults of a proving: each makes a good job bad in one way; `at` is the record, where one is."""

from dataclasses import replace
from itertools import combinations

from . import ends, equilibria
from .shapes import Job, Run


def not_32(job, at, rng):
    return replace(job, buffer=rng.randbytes(rng.choice((0, 31, 33))))


def request_zero(job, at, rng):
    return replace(job, request=0)


def not_whole(job, at, rng):
    return replace(job, tail=rng.randbytes(rng.randint(1, 31)))


def too_few(job, at, rng):
    return replace(job, runs=job.runs[:2] + job.runs[-2:])


def too_many(job, at, rng):
    return replace(job, runs=job.runs[:1] + job.runs[1:2] * 20 + job.runs[2:])


def setting(job, at, rng):
    return with_setting(job, rng.choice(list(ends.PROVER)), rng)


def with_setting(job, name, rng):
    value = ends.outside(ends.PROVER[name], rng)
    if name == "certificate":
        value = value or 99
    return replace(job, prover=replace(job.prover, **{name: value}))


def k_factor(job, at, rng):
    return replace(job, k_factor=rng.choice((0, 1_000_000_001, 2**32 - 1)))


def limit(job, at, rng):
    return replace(job, limit=rng.choice((0, 101, 65535)))


def field(job, at, rng):
    name = rng.choice(list(ends.RUN))
    return job.with_run(at, **{name: ends.outside(ends.RUN[name], rng)})


def below_equilibrium(side):
    """The pressure of that side is below its equilibrium pressure."""

    def fault(job, at, rng):
        pressure = getattr(job.runs[at], f"{side}_pressure")
        equilibrium = equilibria.above(pressure, rng)
        return job.with_run(at, **{f"{side}_equilibrium_pressure": equilibrium})

    return fault


prover_below_equilibrium = below_equilibrium("prover")
meter_below_equilibrium = below_equilibrium("meter")


def unnamed(job, at, rng):
    octets = bytearray(8)
    octets[rng.randrange(8)] = rng.randint(1, 255)
    return job.with_run(at, unnamed=bytes(octets))


def indicated(job, at, rng):
    return job.with_run(at, pulses=rng.randint(1, 49))


def run_factor(job, at, rng):
    return job.with_run(at, pulses=rng.choice((1_000, 15_000_000, 30_000_000, 99_999_999)))


def no_group(job, at, rng):
    runs = list(job.runs)
    for place, run in enumerate(runs):
        if run.pulses == 20_000_000 and place % 2:
            runs[place] = replace(run, pulses=21_000_000)
    return replace(job, runs=tuple(runs))


JOB_FAULTS = (
    not_32,
    request_zero,
    not_whole,
    too_few,
    too_many,
    setting,
    k_factor,
    limit,
    no_group,
)
RECORD_FAULTS = (
    field,
    prover_below_equilibrium,
    meter_below_equilibrium,
    unnamed,
    indicated,
    run_factor,
)
ALL = (*JOB_FAULTS, *RECORD_FAULTS)
SINGLE_RUN_FAULTS = (not_whole, setting, k_factor, *RECORD_FAULTS)


def alone_and_in_pairs(rng):
    # K 1,000,000 pulses per barrel, so that fewer than 50 pulses indicate nothing (7)
    good = Job((Run(20_000_000),) * 6, k_factor=1_000_000_000, buffer=rng.randbytes(32))
    yield good.prove
    for fault in ALL:
        for at in range(6):
            bad = fault(good, at, rng)
            yield bad.prove
            yield bad.accepted
    for one, other in combinations(ALL, 2):
        for at, later in ((0, 5), (5, 0), (0, 0), (5, 5), (1, 4), (4, 1)):
            # records are marred before the count of them is changed
            bad = other(good, later, rng) if other in RECORD_FAULTS else good
            bad = one(bad, at, rng)
            bad = bad if other in RECORD_FAULTS else other(bad, later, rng)
            yield bad.prove
    for one in RECORD_FAULTS:
        for at, later in ((0, 5), (5, 0), (2, 3)):
            yield one(one(good, at, rng), later, rng).prove
    single = replace(good, runs=good.runs[:1])
    for fault in SINGLE_RUN_FAULTS:
        yield fault(single, 0, rng).run()
    for one, other in combinations(SINGLE_RUN_FAULTS, 2):
        for _ in range(3):
            yield other(one(single, 0, rng), 0, rng).run()
            yield one(other(single, 0, rng), 0, rng).run()
