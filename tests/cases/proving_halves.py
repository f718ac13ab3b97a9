"""Exact halves of each rounding of a run that can meet one."""

from dataclasses import replace

from . import equilibria
from .arithmetic import is_half
from .plain import fitted_job
from .proving_days import valid_prover, valid_run
from .shapes import Job, Prover, Run


def half_run(run, prover, k_factor=10_000_000):
    for job in (fitted_job(run, prover, k_factor), Job((run,) * 5, prover, k_factor)):
        yield job.run()
        yield job.prove


def halves(rng):
    for _ in range(60):
        yield from half_run(Run(2 * rng.randint(10, 40_000_000) + 1), Prover(), 20_000_000)
        yield from half_run(*prover_factor_half(rng))
        yield from half_run(meter_product_half(rng), Prover())
        yield from prover_volume_half(rng)
        yield from meter_volume_half(rng)


def prover_factor_half(rng):
    """Where other factors are 1, and at any CPL where CTS and CPS are: in a stout pipe at 60 °F."""
    stout = rng.random() < 0.5
    while True:
        prover = Prover(inside=1000, wall=3000) if stout else valid_prover(rng)
        pressure = rng.randint(1, 1500) if stout else rng.choice((0, rng.randint(1, 300)))
        compressibility = rng.choice((0, rng.randint(300, 3000)))
        temperature = 600 if stout else rng.choice((600, rng.randint(500, 900)))
        run = Run(
            200_000,
            temperature,
            600,
            pressure,
            0,
            625 * rng.randint(8, 24),
            10000,
            compressibility,
            0,
            equilibria.allowed(pressure, rng),
        )
        if is_half(run.prover_product(prover), 10**12):
            return run, prover


def meter_product_half(rng):
    while True:
        pressure = rng.randint(1, 1500)
        run = Run(
            meter_ctl=625 * rng.randint(8, 24),
            meter_pressure=pressure,
            meter_compressibility=rng.randint(1, 10000),
            meter_equilibrium_pressure=equilibria.allowed(pressure, rng),
        )
        if is_half(run.meter_ctl * run.meter_cpl, 10**4):
            return run


def prover_volume_half(rng):
    while True:
        run = valid_run(rng)
        prover = replace(valid_prover(rng), base=625 * rng.randint(1, 160))
        if is_half(prover.base * run.prover_factor(prover), 10**4):
            job = Job((run.with_factor(10000, prover, 1_000_000_000),) * 5, prover, 1_000_000_000)
            yield job.run()
            yield job.prove
            return


def meter_volume_half(rng):
    while True:
        run = replace(valid_run(rng), pulses=625 * rng.randint(1, 400))
        if is_half(run.pulses * run.meter_product, 10**4):
            yield from half_run(run, valid_prover(rng))
            return
