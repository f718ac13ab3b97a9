"""The faults of a job in the longer form, each found whatever others there are."""

from cases import ends
from cases.job_figures import GROUP as FIVE
from cases.job_figures import JobFigures, first_five
from cases.long_counts import indicated
from faults import PIPE, Fault, in_range, is_metal
from record_kinds import is_in

BUFFER, REQUEST = "a buffer that is not 32 bytes", "request number 0"
NOT_WHOLE, FEW, MANY = "records not whole", "too few runs", "too many runs"
SETTING = "a setting"
K_FACTOR, LIMIT = "a K factor", "a limit"
FIELD, UNNAMED = "a field", "an unnamed byte"
VOLUME, FACTOR = "an indicated volume", "a run factor"
GROUP = "no group"

OF_LENGTH = (NOT_WHOLE, FEW, MANY)
OF_RECORDS = (FIELD, UNNAMED)
OF_RUNS = (VOLUME, FACTOR)
NUMBERS = {
    BUFFER: 14,
    REQUEST: 22,
    **dict.fromkeys(OF_LENGTH, 1),
    SETTING: 3,
    **dict.fromkeys((K_FACTOR, LIMIT), 4),
    **dict(zip(OF_RECORDS, (5, 2))),
    **dict(zip(OF_RUNS, (7, 8))),
    GROUP: 9,
}

RUNS = {"prove_long": range(5, 21), "runs_long": range(5, 21), "run_long": range(1, 2)}
BASE = {"base": ends.PROVER["base"]}
# No formula uses the meter's temperature.
USED = {name: of for name, of in ends.LONG_RUN.items() if name != "meter_temperature"}


def boils(run):
    """Where a liquid's pressure is below its equilibrium pressure."""
    return (
        run.prover_pressure < run.prover_equilibrium_pressure
        or run.meter_pressure < run.meter_equilibrium_pressure
    )


def stands(run, table=ends.LONG_RUN):
    return in_range(run, table) and not boils(run)


def volumes(job):
    return indicated([run.pulses for run in job.runs], job.k_factor)


def of_runs(job, has_prover):
    """As far as volumes and factors can be worked out."""
    if not job.k_factor:
        return
    told = volumes(job)
    factors = [None] * len(told)
    if has_prover and all(stands(run, USED) for run in job.runs):
        factors = JobFigures(job).factors(told)
    for record, (volume, factor) in enumerate(zip(told, factors), 1):
        if not is_in(volume, ends.VOLUME):
            yield Fault(VOLUME, record)
        if factor is not None and not is_in(factor, ends.RUN_FACTOR):
            yield Fault(FACTOR, record)
    if len(factors) >= FIVE and None not in factors and first_five(factors, job.limit) is None:
        yield Fault(GROUP)


def faults(entry, job):
    """All of them, in the order in which they are to be found."""
    if len(job.buffer) != 32:
        yield Fault(BUFFER)
    if job.request == 0:
        yield Fault(REQUEST)
    if job.tail:
        yield Fault(NOT_WHOLE)
    if len(job.runs) not in RUNS[entry]:
        yield Fault(FEW if len(job.runs) < RUNS[entry][0] else MANY)
    has_prover = is_metal(job.prover) and in_range(job.prover, PIPE)
    if not (has_prover and in_range(job.prover, BASE)):
        yield Fault(SETTING)
    if not is_in(job.k_factor, ends.K_FACTOR):
        yield Fault(K_FACTOR)
    if not is_in(job.limit, ends.LIMIT):
        yield Fault(LIMIT)
    for record, run in enumerate(job.runs, 1):
        if not stands(run):
            yield Fault(FIELD, record)
        if any(run.unnamed):
            yield Fault(UNNAMED, record)
    yield from of_runs(job, has_prover)
