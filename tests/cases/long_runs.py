"""Cases of `prove_long`, `runs_long` and `run_long`. Where every count is whole, the same job with
short records is asked on the line before."""

from dataclasses import replace
from itertools import product

from . import ends, equilibria, faulty_long_runs, long_counts
from .plain import fitted_job, plain_job
from .proving_days import interpolated_job, valid_job
from .provings import ORDINARY, PROPANE_PROVER, propane
from .shapes import Job, LongRun, Prover, Run, both_forms, hexed, line
from .table_faults import BYTES


def aimed(rng):
    yield from days(rng)
    yield from group_places()
    yield from record_ends(rng)
    yield from equilibrium_ends()
    yield from last_bytes(rng)
    yield from setting_ends(rng)
    yield from count_ends(rng)
    yield from other_form(rng)
    yield from long_counts.aimed(rng)
    yield from faulty_long_runs.aimed(rng)


def days(rng):
    for _ in range(60):
        job = valid_job(rng)
        yield from both_forms(job, "prove", "runs", "run", at=rng.randrange(len(job.runs)))
    for _ in range(60):
        job = interpolated_job(rng)
        yield from (job.prove, job.accepted, job.run(rng.randrange(len(job.runs))))


def group_places():
    """The first group at each place, a tighter one later; and none."""
    for count in (5, 6, 7, 12, 20):
        for first in range(count - 4):
            factors = [9000 + 700 * (at % 2) for at in range(first)]
            factors += [10000, 10005, 10002, 10004, 10001]
            factors += ([10004] * 5 + [10500] * 15)[: count - len(factors)]
            yield from both_forms(plain_job(factors), "prove", "runs")
        apart = plain_job([9000 + 700 * (at % 2) for at in range(count)])
        yield from both_forms(apart, "prove", "runs")


def record_ends(rng):
    """Each field but the count, at both ends, beside them and at the ends of its type."""
    for name, of in ends.RUN.items():
        if name == "pulses":
            continue
        (low, high), _ = of
        for value in ends.around(of):
            at = rng.randrange(6)
            job = plain_job([10000] * 6).with_run(at, **{name: value})
            yield from both_forms(job, "prove", "run", at=at)
            if low <= value <= high:
                fitted = fitted_job(replace(ORDINARY, **{name: value}), Prover(), 10_000_000)
                yield from both_forms(fitted, "run")


def equilibrium_ends():
    """Each side's equilibrium pressure beside its own pressure; then both, exchanged too."""
    for side, pressure in product(("prover", "meter"), (0, 40, 1500)):
        for equilibrium in equilibria.around(pressure):
            liquid = {f"{side}_pressure": pressure}
            liquid |= {f"{side}_equilibrium_pressure": equilibrium}
            fitted = fitted_job(replace(ORDINARY, **liquid), Prover(), 10_000_000)
            yield from (fitted.long.prove, fitted.long.accepted, fitted.long.run())
    for both in product((0, 115, 385, 386, 395, 396), repeat=2):
        fitted = fitted_job(propane(*both), PROPANE_PROVER, 13_188_000)
        yield from both_forms(fitted, "run")


def last_bytes(rng):
    """Each of bytes 28 to 47, which must be 0; two that a sum of 8 bits takes for 0."""
    good = plain_job([10000] * 6).long
    alone = (bytes(byte) + bytes((value,)) for byte, value in product(range(20), BYTES))
    together = (b"\xff" + bytes(18) + b"\x01", b"\x80" + bytes(18) + b"\x80", b"\xff" * 20)
    for octets in (*(octets.ljust(20, b"\x00") for octets in alone), *together):
        at = rng.randrange(6)
        job = good.with_run(at, unnamed=octets)
        yield from (job.prove, job.run(at))


def setting_ends(rng):
    run = Run(200_000, 735, 730, 400, 300, 9907, 9908, 820, 820)
    for name, of in ends.PROVER.items():
        for value in ends.around(of):
            yield from both_forms(Job((run,) * 5, Prover(**{name: value})), "prove", "run")
    for metal, certificate in product((0, 3, 4, 5, 255), (0, 99, 100, 400, 401)):
        yield from both_forms(Job((run,) * 5, Prover(metal, certificate)), "run")
    for k_factor in ends.around((ends.K_FACTOR, ends.U32)):
        if 1 <= k_factor <= 1_000_000_000:
            job = fitted_job(Run(2_000_000), Prover(), k_factor)
        else:
            job = replace(plain_job([10000] * 5), k_factor=k_factor)
        yield from both_forms(job, "prove", "run")
    for limit in ends.around((ends.LIMIT, ends.U16)):
        yield from both_forms(plain_job([10000, 10100, 10000, 10000, 10000], limit=limit), "prove")
    for request, length in product((0, 1, 2**32 - 1), (0, 31, 32, 33, 48)):
        buffer = rng.randbytes(length)
        yield from both_forms(plain_job([10000] * 5, request=request, buffer=buffer), "prove")


def count_ends(rng):
    for count, tail in product((0, 1, 4, 5, 6, 19, 20, 21, 40), (0, 1, 16, 31)):
        job = plain_job([10000] * count, tail=rng.randbytes(tail))
        yield from both_forms(job, "prove", "runs")
    for count, tail in product((4, 5, 20), (32, 47)):
        job = plain_job([10000] * count, tail=rng.randbytes(tail)).long
        yield from (job.prove, job.accepted)
    for tail in (0, 1, 16, 31, 32, 47, 48):
        yield plain_job([10000], tail=bytes(tail)).long.run()
    for length in (0, 1, 31, 32, 47):
        cut = hexed(LongRun().packed[:length])
        yield line("run_long", *Prover().words, 10_000_000, cut)


def other_form(rng):
    """Records of one form to the entries of the other, whole there where their count allows it; and
    records of both in one call."""
    for count in range(5, 21):
        short = plain_job([10000] * count)
        for job in (short, short.long):
            yield from exchanged(job)
    for count in range(2, 12):
        runs = [*plain_job([10000] * count).runs, *plain_job([10000] * count).long.runs]
        rng.shuffle(runs)
        for form in (Run, LongRun):
            yield Job(tuple(runs), Prover(base=20_000_000), form=form).prove


def exchanged(job):
    other = Run if job.form is LongRun else LongRun
    wrong = replace(job, form=other)
    yield from (wrong.prove, wrong.accepted, wrong.run())


def by_chance(rng):
    job = interpolated_job(rng) if rng.random() < 0.6 else valid_job(rng).long
    if rng.random() < 0.12:
        fault = rng.choice(faulty_long_runs.ALL)
        job = fault(job, rng.randrange(len(job.runs)), rng)
    kind = rng.random()
    if kind < 0.6:
        return job.prove
    if kind < 0.75:
        return job.accepted
    return job.run(rng.randrange(len(job.runs)))
