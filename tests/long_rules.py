"""Other rules than the paper's for a count in thousandths, and where an answer turns on them: other
counts, and other roundings of the indicated volume."""

from cases.arithmetic import half_up, is_half
from cases.ends import VOLUME
from cases.job_figures import JobFigures
from cases.long_counts import LOWER_WORD, OTHER_COUNTS, OTHER_ROUNDINGS, accepted_by
from outcomes import NONE, OK
from record_kinds import is_in

AT_HALF = "an exact half of a count that is not whole"
BELOW_HALF, ABOVE_HALF = "a thousandth below a half", "a thousandth above a half"
# By these a volume is in range where it is not by the paper's.
IN_RANGE_BY = ("whole pulses, any rest for one more", "any rest for one more", LOWER_WORD)


def otherwise(rule):
    return f"otherwise than by {rule}"


def of_volume(count, k_factor):
    """Of one run, whose volume may be out of range."""
    number = count * 10**4
    own = half_up(number, k_factor)
    others = {name: half_up(rule(count) * 10**4, k_factor) for name, rule in OTHER_COUNTS.items()}
    others |= {name: rule(number, k_factor) for name, rule in OTHER_ROUNDINGS.items()}
    for name, other in others.items():
        if other != own and (is_in(own, VOLUME) or is_in(other, VOLUME)):
            yield otherwise(name)
    for kind, by in ((AT_HALF, 0), (BELOW_HALF, 1), (ABOVE_HALF, -1)):
        if (count + by) % 1000 and is_half((count + by) * 10**4, k_factor):
            yield kind


def of_job(job):
    """Of a job in which nothing is wrong but that no five may agree."""
    figures = JobFigures(job)
    own = accepted_by(figures, job, lambda count: count)
    for name, rule in OTHER_COUNTS.items():
        if accepted_by(figures, job, rule) != own:
            yield otherwise(name)
    if own:
        first, *_ = own
        yield group_at(first + 1, len(job.runs))


def group_at(first, count):
    return f"the group at run {first} of {count}"


def wanted(entry):
    if entry == "run_long":
        yield from ((OK, otherwise(name)) for name in (*OTHER_COUNTS, *OTHER_ROUNDINGS))
        yield from ((OK, kind) for kind in (AT_HALF, BELOW_HALF, ABOVE_HALF))
        yield from ((7, otherwise(name)) for name in IN_RANGE_BY)
        return
    refused = 9 if entry == "prove_long" else NONE
    yield from ((what, otherwise(name)) for name in OTHER_COUNTS for what in (OK, refused))
    for count in (5, 6, 7, 12, 20):
        yield from ((OK, group_at(first, count)) for first in range(1, count - 3))
