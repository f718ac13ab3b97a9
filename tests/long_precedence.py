"""The faults of jobs in the longer form that must be reached: each alone, at each record, and of
every two the one that is answered."""

from itertools import combinations, product

from long_faults import (
    BUFFER,
    FEW,
    GROUP,
    K_FACTOR,
    LIMIT,
    MANY,
    NOT_WHOLE,
    NUMBERS,
    OF_LENGTH,
    OF_RECORDS,
    OF_RUNS,
    REQUEST,
    SETTING,
)
from outcomes import NONE
from precedence import LATER, TOGETHER, order

EARLIER = "of an earlier record"
MOST_RUNS = 20

# All faults of a stage come before any of the next: those of every record before any of a run.
STAGES = (
    (BUFFER,),
    (REQUEST,),
    OF_LENGTH,
    (SETTING,),
    (K_FACTOR, LIMIT),
    OF_RECORDS,
    OF_RUNS,
    (GROUP,),
)
# One run has neither a report nor a group; where it is missing, nothing is wrong with it.
STAGES_OF_ONE = ((NOT_WHOLE, MANY), (SETTING,), (K_FACTOR,), OF_RECORDS, OF_RUNS)
OF_JOB_ALONE = (BUFFER, REQUEST)


def alone(kind):
    return f"{kind} alone"


def at_record(kind, record):
    return f"{kind} at record {record}"


def place(first, other):
    if not (first.record and other.record):
        return ()
    if first.record == other.record:
        return (TOGETHER,)
    return (LATER if other.record > first.record else EARLIER,)


def reached(found):
    """Of the faults found."""
    if not found:
        return
    first, *others = found
    if not others:
        yield alone(first.kind)
    if first.record:
        yield at_record(first.kind, first.record)
    for other in others:
        yield order(first.kind, other.kind, *place(first, other))


def orders(stages, places):
    """Every two faults that can be told apart, the one that is answered first."""
    of_records = {*OF_RECORDS, *OF_RUNS}
    for one, other in combinations(stages, 2):
        for two in product(one, other):
            if two == (FEW, GROUP):
                continue  # fewer than five
            if of_records.issuperset(two):
                yield from ((*two, where) for where in places)
            else:
                yield two
    for two in (OF_RECORDS, OF_RUNS):
        yield (*two, TOGETHER)
        if LATER in places:
            yield from ((*pair, LATER) for pair in product(two, repeat=2))


def wanted(entry):
    if entry == "runs_long":
        yield from ((NONE, alone(kind)) for kind in NUMBERS if kind not in OF_JOB_ALONE)
        return
    if entry == "run_long":
        yield from ((NUMBERS[kind], alone(kind)) for kind in (FEW, *sum(STAGES_OF_ONE, ())))
        told = orders(STAGES_OF_ONE, (TOGETHER,))
    else:
        yield from ((number, alone(kind)) for kind, number in NUMBERS.items())
        for kind, record in product((*OF_RECORDS, *OF_RUNS), range(1, MOST_RUNS + 1)):
            yield NUMBERS[kind], at_record(kind, record)
        told = orders(STAGES, (LATER, EARLIER, TOGETHER))
    yield from ((NUMBERS[first], order(first, *other)) for first, *other in told)
