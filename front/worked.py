"""A job worked: all that its page, worksheet, plot and JSON show, asked once."""

from dataclasses import dataclass

from . import faults, fields, figures, look_ups
from .profiles import BIDIRECTIONAL
from .program import Refused
from .refusals import Explained

NO_GROUP = 9


@dataclass(frozen=True)
class Worked:
    """`answer` is None where the job is refused; without figures of its records there is only `refusal` to show."""

    job: object
    answer: object = None
    refusal: Explained | None = None
    # A proving's runs, or a draw's fills and passes, and a bidirectional draw's round trips; the group is the accepted
    # one, else the nearest to it.
    runs: list | None = None
    fills: list | None = None
    passes: list | None = None
    trips: list | None = None
    group: figures.Group | None = None
    # What the panel shows of a live reading, a single each.
    panel: dict | None = None

    @property
    def accepted(self):
        """The numbers of the accepted runs, passes or round trips."""
        return self.group.numbers if self.group and not self.refusal else ()

    @property
    def judged(self):
        """Those of which three in a row must agree: a draw's round trips, or its passes."""
        return self.trips or self.passes

    @property
    def has_figures(self):
        """Every record of the job has its figures: only then is there a worksheet, and a plot of a proving."""
        return not self.refusal or self.refusal.number == NO_GROUP


def prove(job, program):
    answer, refusal = answered(figures.prove, job, program)
    if refusal and refusal.number != NO_GROUP:
        return Worked(job, refusal=refusal)
    runs = figures.of_runs(job, program)
    group = group_of([own["factor"] for own in runs], fields.GROUP_OF_RUNS, answer and answer.first, program)
    return Worked(job, answer, refusal, runs=runs, group=group)


def draw(job, program):
    answer, refusal = answered(figures.draw, job, program)
    if refusal and refusal.number != NO_GROUP:
        return Worked(job, refusal=refusal)
    fills, passes = figures.of_fills(job, program), figures.of_passes(job, program)
    trips = figures.of_trips(job, passes, program) if job.profile is BIDIRECTIONAL else None
    first = answer and job.profile.number_of(answer[2])
    group = group_of([own["volume"] for own in trips or passes], fields.GROUP_OF_PASSES, first, program)
    return Worked(job, answer, refusal, fills=fills, passes=passes, trips=trips, group=group)


def group_of(values, size, first, program):
    """The accepted ones, from the number of the first on; of a refused job those that came nearest to it."""
    if not first:
        return figures.best_of(values, size, program)
    return figures.group_of(first, values[first - 1 : first - 1 + size], program)


def ticket(job, program):
    return Worked(job, *answered(figures.ticket, job, program))


def live(job, program):
    answer, refusal = answered(figures.live, job, program)
    if refusal:
        return Worked(job, refusal=refusal)
    return Worked(job, answer, panel=figures.on_panel(dict(zip(fields.LIVE, answer)), program))


def panel(job, program):
    return Worked(job, *answered(figures.panel, job, program))


def answered(asked, job, program):
    """What the program answers, and what it refuses."""
    try:
        return asked(job, program), None
    except Refused as refused:
        return None, faults.explain(job, refused.refusal, program)


WORKERS = {"prove": prove, "draw": draw, "ticket": ticket, "live": live, "panel": panel}


def work(job, program):
    try:
        job = look_ups.filled(job, program)
    except Refused as refused:
        return Worked(refused.refusal.job, refusal=faults.explain(job, refused.refusal, program))
    return WORKERS[job.kind](job, program)
