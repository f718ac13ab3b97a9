"""Jobs as a skid has them, most of them accepted or nearly so."""

from dataclasses import replace

from . import ends, equilibria
from .shapes import Job, LongRun, Prover, Run


def valid_prover(rng):
    certified = rng.random() < 0.4
    pipes = ((10020, 365), (5761, 432), (12000, 375), (15250, 375), (35000, 500), (7981, 322))
    inside, wall = rng.choice(pipes)
    if rng.random() < 0.3:
        inside, wall = rng.randint(1000, 60000), rng.randint(100, 3000)
    return Prover(
        metal=rng.randint(0, 4) if certified else rng.randint(0, 3),
        certificate=rng.randint(100, 400) if certified else 0,
        inside=inside,
        wall=wall,
        modulus=rng.choice((28_000_000, 28_500_000, 30_000_000, rng.randint(10**7, 4 * 10**7))),
        base=rng.randint(100_000, 900_000),
    )


def valid_run(rng):
    run = valid_conditions(rng)
    return replace(
        run,
        prover_equilibrium_pressure=equilibria.allowed(run.prover_pressure, rng),
        meter_equilibrium_pressure=equilibria.allowed(run.meter_pressure, rng),
    )


def valid_conditions(rng):
    if rng.random() < 0.3:
        return Run(
            1,
            rng.randint(-200, 2000),
            rng.randint(-200, 2000),
            rng.randint(0, 1500),
            rng.randint(0, 1500),
            rng.randint(5000, 15000),
            rng.randint(5000, 15000),
            rng.randint(0, 10000),
            rng.randint(0, 10000),
        )
    compressibility = rng.randint(300, 3000)
    return Run(
        1,
        rng.randint(400, 1000),
        rng.randint(400, 1000),
        rng.randint(0, 400),
        rng.randint(0, 400),
        rng.randint(9500, 10300),
        rng.randint(9500, 10300),
        compressibility,
        compressibility + rng.randint(-20, 20),
    )


def within(value, ends_of):
    low, high = ends_of
    return min(max(value, low), high)


def equilibrium_beside(equilibrium, pressure, rng):
    """Nearly the same, where the pressure allows it; a liquid that does not boil stays one."""
    return equilibrium and within(equilibrium + rng.randint(-3, 3), (0, pressure))


def beside(run, rng):
    """The next run of the same day: nearly the same conditions."""
    prover_pressure = within(run.prover_pressure + rng.randint(-4, 4), ends.PRESSURE)
    meter_pressure = within(run.meter_pressure + rng.randint(-4, 4), ends.PRESSURE)
    return replace(
        run,
        prover_temperature=within(run.prover_temperature + rng.randint(-8, 8), ends.TEMPERATURE),
        meter_temperature=within(run.meter_temperature + rng.randint(-8, 8), ends.TEMPERATURE),
        prover_pressure=prover_pressure,
        meter_pressure=meter_pressure,
        prover_ctl=within(run.prover_ctl + rng.randint(-5, 5), ends.CTL),
        meter_ctl=within(run.meter_ctl + rng.randint(-5, 5), ends.CTL),
        prover_equilibrium_pressure=equilibrium_beside(
            run.prover_equilibrium_pressure, prover_pressure, rng
        ),
        meter_equilibrium_pressure=equilibrium_beside(
            run.meter_equilibrium_pressure, meter_pressure, rng
        ),
    )


def wanted_factors(limit, count, rng):
    """Factors that agree, nearly agree, or agree from a later run on."""
    smallest = rng.randint(8300, 11700) if rng.random() < 0.6 else rng.choice((9999, 10000, 10001))
    allowed = limit * smallest // 10_000
    spread = rng.choice((allowed // 2, allowed, allowed, allowed + 1, allowed + 1))
    factors = [smallest + rng.choice((0, spread, rng.randint(0, spread))) for _ in range(count)]
    for at in range(rng.choice((0, 0, 0, 1, 2, rng.randint(0, count)))):
        factors[at] += rng.choice((-1, 1)) * rng.randint(1, 2 * allowed + 2)
    return factors


def valid_job(rng):
    prover = valid_prover(rng)
    k = rng.choice((10_000_000, 100_000_000, 1_000_000_000, rng.randint(5_000_000, 1_000_000_000)))
    return job_of_a_day(prover, k, rng)


def interpolated_job(rng):
    """In the longer form, of so few pulses that a part of one counts: 1 to 1,000 a barrel."""
    return job_of_a_day(valid_prover(rng), int(10 ** rng.uniform(3, 6)), rng, LongRun)


def job_of_a_day(prover, k, rng, form=Run):
    limit = rng.choice((5, 5, 5, rng.randint(1, 100)))
    count = rng.choice((5, 5, 5, 6, 6, 7, 8, rng.randint(5, 20)))
    run = valid_run(rng)
    factors = wanted_factors(limit, count, rng)
    if form is LongRun:
        run = run.long
    runs = tuple(beside(run, rng).with_factor(factor, prover, k) for factor in factors)
    return Job(
        runs,
        prover,
        k,
        limit,
        rng.choice((rng.randint(1, 20), rng.randint(1, 2**32 - 1))),
        rng.randbytes(32),
        form=form,
    )
