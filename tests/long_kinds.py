"""The kinds of jobs and runs in the longer form that must be reached: counts and fields at their
ends and past them, each unnamed byte; and, of other modules, faults and other rules."""

from itertools import product

import long_precedence
import long_rules
from cases import ends
from cases.long_counts import COUNTS, COUNTS_PAST
from cases.shapes import Job, LongRun
from cases.table_faults import BYTES
from long_faults import FIELD, GROUP, UNNAMED, VOLUME, faults
from outcomes import OK
from record_kinds import (
    first_unnamed,
    of_byte,
    of_fields,
    of_good_run,
    of_unnamed,
    of_value,
    wanted_fields,
)

ENTRIES = ("prove_long", "runs_long", "run_long")


def reached(text):
    entry = text[: text.index(b" ")].decode("ascii")
    job = Job.read(text)
    found = [*faults(entry, job)]
    yield from long_precedence.reached(found)
    kinds = {fault.kind for fault in found}
    if not kinds:
        for run in {*job.runs}:
            yield from of_good_run(run)
    elif found[0].kind == FIELD:
        yield from of_fields(job.runs[found[0].record - 1], ends.LONG_RUN)
    elif found[0].kind == UNNAMED:
        yield from of_unnamed(job.runs[found[0].record - 1])
    if entry == "run_long" and kinds <= {VOLUME}:
        yield from long_rules.of_volume(job.runs[0].pulses, job.k_factor)
    if entry != "run_long" and kinds <= {GROUP}:
        yield from long_rules.of_job(job)


def wanted(entry):
    """What is answered, and to which kind of job."""
    yield from long_precedence.wanted(entry)
    yield from long_rules.wanted(entry)
    yield from ((OK, of_value("pulses", count)) for count in COUNTS)
    if entry == "runs_long":
        return
    yield from ((5, of_value("pulses", count)) for count in COUNTS_PAST)
    for in_range, kind in wanted_fields(ends.LONG_RUN):
        if entry == "run_long" or not in_range:
            yield OK if in_range else 5, kind
    unnamed = range(first_unnamed(LongRun), LongRun.LAYOUT.size)
    yield from ((2, of_byte(byte, value)) for byte, value in product(unnamed, BYTES))
