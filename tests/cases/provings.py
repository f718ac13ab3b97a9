"""Cases of `prove`, `runs` and `run`."""

from dataclasses import replace

from . import ends, equilibria, proving_faults, proving_halves
from .plain import fitted_job, plain_job
from .proving_days import valid_job
from .shapes import Job, Prover, Run

ORDINARY = Run(
    prover_pressure=40,
    meter_pressure=40,
    prover_compressibility=820,
    meter_compressibility=820,
)
PROPANE_PROVER = Prover(inside=12000, wall=375)


def aimed(rng):
    yield from record_ends(rng)
    yield from equilibrium_ends(rng)
    yield from equilibrium_sides()
    yield from equilibrium_runs(rng)
    yield from last_bytes(rng)
    yield from setting_ends(rng)
    yield from count_ends(rng)
    yield from indicated_ends()
    yield from factor_ends()
    yield from group_edges(rng)
    yield from group_places(rng)
    yield from proving_faults.alone_and_in_pairs(rng)
    yield from proving_halves.halves(rng)


def record_ends(rng):
    for name, of in ends.RUN.items():
        (low, high), _ = of
        for value in ends.around(of):
            job = plain_job([10000] * 6)
            at = rng.randrange(6)
            yield job.with_run(at, **{name: value}).prove
            yield job.with_run(at, **{name: value}).run(at)
            if not low <= value <= high:
                continue
            run = replace(ORDINARY, **{name: value})
            for k_factor in (50, 10_000_000, 1_000_000_000):
                fitted = fitted_job(run, Prover(), k_factor)
                yield fitted.prove
                yield fitted.run()
                yield fitted.accepted


def equilibrium_ends(rng):
    """Each side's equilibrium pressure beside its own pressure, the other side's being 0."""
    for side in ("prover", "meter"):
        for pressure in ends.around((ends.PRESSURE, ends.U16)):
            for equilibrium in equilibria.around(pressure):
                liquid = {f"{side}_pressure": pressure}
                liquid |= {f"{side}_equilibrium_pressure": equilibrium}
                at = rng.randrange(6)
                job = plain_job([10000] * 6).with_run(at, **liquid)
                yield job.prove
                yield job.run(at)
                fitted = fitted_job(replace(ORDINARY, **liquid), Prover(), 10_000_000)
                yield fitted.prove
                yield fitted.run()
                yield fitted.accepted


def equilibrium_sides():
    """Both sides' equilibrium pressures, each taken at its own side: alike, unlike, exchanged."""
    for on_prover in (0, 115, 384, 385, 386, 390, 395, 396):
        for on_meter in (0, 115, 384, 385, 386, 390, 395, 396):
            fitted = fitted_job(propane(on_prover, on_meter), PROPANE_PROVER, 13_188_000)
            yield fitted.prove
            yield fitted.run()


def equilibrium_runs(rng):
    """The runs of a job boil at unlike pressures: they agree when each is taken with its own."""
    for count in (5, 6, 20):
        for _ in range(4):
            runs = tuple(
                propane(rng.randint(0, 385), rng.randint(0, 395)).with_factor(
                    10000, PROPANE_PROVER, 100_000_000
                )
                for _ in range(count)
            )
            job = Job(runs, PROPANE_PROVER, 100_000_000)
            yield job.prove
            yield job.accepted


def propane(on_prover, on_meter):
    return Run(28631, 770, 765, 385, 395, 9780, 9789, 2850, 2850, on_prover, on_meter)


def last_bytes(rng):
    """Each of bytes 20 to 31 alone: the equilibrium pressures, then those that must be 0."""
    for byte in range(12):
        for value in (1, 5, 128, 255):
            last = bytearray(12)
            last[byte] = value
            at = rng.randrange(5)
            job = plain_job([10000] * 5).with_run(
                at,
                prover_pressure=1500,
                meter_pressure=1500,
                prover_equilibrium_pressure=int.from_bytes(last[:2], "little"),
                meter_equilibrium_pressure=int.from_bytes(last[2:4], "little"),
                unnamed=bytes(last[4:]),
            )
            yield job.prove
            yield job.run(at)


def setting_ends(rng):
    conditions = Run(200_000, 735, 730, 400, 300, 9907, 9908, 820, 820)
    for name, of in ends.PROVER.items():
        for value in ends.around(of):
            prover = Prover(**{name: value})
            job = Job((conditions,) * 5, prover)
            if name == "base" and 1 <= value <= 100_000_000:
                k_factor = 1_000_000_000 if value < 1_000_000 else 1_000_000
                runs = (conditions.with_factor(10000, prover, k_factor),) * 5
                job = Job(runs, prover, k_factor)
            yield job.prove
            yield job.run()
            yield job.accepted
    for metal in (0, 1, 2, 3, 4, 5, 6, 255):
        for certificate in (0, 1, 99, 100, 250, 400, 401, 65535):
            job = Job((conditions,) * 5, Prover(metal, certificate))
            yield job.prove
            yield job.run()
    for k_factor in ends.around((ends.K_FACTOR, ends.U32)):
        for pulses in (1, 2000, 2_000_000):
            if 1 <= k_factor <= 1_000_000_000:
                job = fitted_job(Run(pulses), Prover(), k_factor)
            else:
                job = replace(plain_job([10000] * 5), k_factor=k_factor)
            yield job.prove
            yield job.run()
    for limit in ends.around((ends.LIMIT, ends.U16)):
        yield plain_job([10000] * 5, limit=limit).prove
        yield plain_job([10000, 10100, 10000, 10000, 10000], limit=limit).prove
    for request in (0, 1, 2**32 - 1):
        yield plain_job([10000] * 5, request=request, buffer=rng.randbytes(32)).prove
    for length in (0, 1, 31, 32, 33, 64):
        yield plain_job([10000] * 5, buffer=rng.randbytes(length)).prove


def count_ends(rng):
    for count in (0, 1, 4, 5, 6, 19, 20, 21, 40, 256):
        job = plain_job([10000] * count)
        for tail in (0, 1, 16, 31):
            cut = replace(job, tail=rng.randbytes(tail))
            yield cut.prove
            yield cut.accepted
    for tail in (0, 1, 31, 32):
        yield plain_job([10000], tail=bytes(tail)).run()


def indicated_ends():
    """The indicated volume at 0 and 1, at 100,000,000 and one past, by a half and beside it."""
    for pulses, k_factor in (
        (1, 20_000_001),
        (1, 20_000_000),
        (1, 19_999_999),
        (1, 1_000_000_000),
        (49, 1_000_000_000),
        (50, 1_000_000_000),
        (100_000_000, 10_000_000),
        (99_999_999, 10_000_000),
        (100_000_000, 9_999_999),
        (20_000_000, 2_000_000),
        (20_000_001, 2_000_000),
        (40_000_000, 4_000_000),
        (40_000_001, 4_000_000),
        (80_000_001, 8_000_000),
        (80_000_003, 8_000_000),
        (80_000_004, 8_000_000),
        (100_000_000, 1),
        (1, 1),
        (10, 1),
        (11, 1),
    ):
        fitted = fitted_job(Run(pulses), Prover(), k_factor)
        yield fitted.run()
        yield fitted.prove
        yield fitted.accepted


def factor_ends():
    """Run factors at 8000 and 12000, one past, and the halves between."""
    for doubled in (15997, 15998, 15999, 16000, 16001, 23999, 24000, 24001, 24002, 24003):
        for times in (1, 7, 2400):
            # factor = base × 10^4 / pulses; pulses 20000 t make halves of odd bases
            for off in (-1, 0, 1):
                job = Job((Run(20000 * times + off),) * 5, Prover(base=doubled * times))
                yield job.run()
                yield job.prove
    yield Job((Run(100_000_000),) * 5, Prover(base=1)).run()
    yield Job((Run(1),) * 5, Prover(base=100_000_000)).run()
    # a corrected prover volume of 0 ends as 8
    yield Job((Run(1, prover_ctl=5000, prover_temperature=-200),) * 5, Prover(base=1)).run()


def group_edges(rng):
    """The repeatability test decided at its edge, the smallest and largest in each order."""
    for limit in (1, 2, 3, 5, 7, 10, 25, 50, 99, 100):
        for smallest in (8000, 8001, 9000, 9999, 10000, 10001, 10500, 11000, 11500):
            allowed = limit * smallest // 10_000
            for spread in (allowed, allowed + 1):
                five = [smallest, smallest + spread]
                five += [smallest + rng.randint(0, spread) for _ in range(3)]
                for order in range(2):
                    rng.shuffle(five)
                    if order:
                        five.sort(reverse=rng.random() < 0.5)
                    job = plain_job(five, limit=limit)
                    yield job.prove
                    if order:
                        yield job.accepted
    for five in (
        (10000, 10005, 10003, 10001, 10002),
        (9999, 10003, 10000, 10001, 10002),
        (9999, 10004, 10000, 10001, 10002),
        (10010, 10000, 10001, 10002, 10003, 10005),
    ):
        yield plain_job(five).prove
        yield plain_job(five).accepted


def group_places(rng):
    """The first group at each place in each count of runs; a tighter one later is not taken."""
    for count in range(5, 21):
        for first in range(count - 4):
            factors = [9000 + 700 * (at % 2) for at in range(first)]
            factors += [10000, 10005, 10002, 10004, 10001]
            later = [10004] * 5 + [10500] * 15
            factors += later[: count - len(factors)]
            job = plain_job(factors)
            yield job.prove
            if rng.random() < 0.5:
                yield job.accepted
        yield plain_job([9000 + 700 * (at % 2) for at in range(count)]).prove


def by_chance(rng):
    job = valid_job(rng)
    if rng.random() < 0.12:
        fault = rng.choice(proving_faults.ALL)
        job = fault(job, rng.randrange(len(job.runs)), rng)
    kind = rng.random()
    if kind < 0.6:
        return job.prove
    if kind < 0.75:
        return job.accepted
    return job.run(rng.randrange(len(job.runs)))
