"""A job's row of results: what its file says, what the program answers, and by what it is known again."""

from hashlib import sha256

from . import faults, fields, figures, jobs, look_ups, version
from . import worked as works
from .badfile import BadFile
from .fields import LIMIT
from .hints import plain
from .jobfiles import octets_of
from .outputs import STANDARD
from .program import Refused
from .sheet import text
from .spreads import SPREAD
from .units import shown

ACCEPTED, REFUSED, BAD, SKIPPED = "accepted", "refused", "bad file", "skipped"
FIRST_HEADINGS = ("date", "meter", "liquid")
HEADINGS = (*FIRST_HEADINGS, *(key for key in fields.HEADING if key not in FIRST_HEADINGS))
OTHERS = "other headings"
COLUMNS = (
    "file", "job", "outcome", "request", *HEADINGS, OTHERS, "K factor (pulses/bbl)", "base volume (bbl)",
    "base volume (in³)", "limit (%)", "spread (%)", "meter factor", "first used", "out of", "gross (bbl)", "net (bbl)",
    "temperature (°F)", "pressure (psi)", "report record", "refusal", "at record", "words", "remark", "SHA-256",
    "version",
)  # fmt: skip


def worked(path, program, extras):
    """A row, by its columns; what a job has not is left out. `extras` are made of the job on the way."""
    try:
        job = jobs.read(path)
    except BadFile as bad:
        return {"outcome": BAD, "words": bad.words, "SHA-256": digest_of(path)}
    return of_job(path, job, program, extras)


def of_job(path, job, program, extras):
    row = {"job": job.kind, "SHA-256": job.digest, "files": job.files, **headings(job), **GIVEN[job.kind](job)}
    row |= extras.make(path, job, program)
    try:
        job = look_ups.filled(job, program)
        return row | {"outcome": ACCEPTED} | ANSWERS[job.kind](job, program)
    except Refused as refused:
        told = faults.explain(job, refused.refusal, program)
        row |= {"outcome": REFUSED, "refusal": told.number, "at record": told.record, "words": told.line}
        return row | (nearest(job, program) if told.number == works.NO_GROUP else {})


def digest_of(path):
    """The digest of a file that holds no job; standard input cannot be read again."""
    if path == STANDARD:
        return ""
    try:
        return sha256(octets_of(path)).hexdigest()
    except BadFile:
        return ""


def headings(job):
    own = {key: told for key, told in job.heading.items() if key in HEADINGS}
    others = "; ".join(f"{key}: {told}" for key, told in job.heading.items() if key not in HEADINGS)
    return own | ({OTHERS: others} if others else {})


def cells(path, row):
    """The row as it is written: nothing out of a file or its name is a formula or a command of whatever opens it."""
    told = {"file": path, "version": version.NAME} | row
    return [text(plain(str(told.get(column, "")))) for column in COLUMNS]


def of_proving(job):
    return {
        "request": job.request,
        "K factor (pulses/bbl)": shown(job.k_factor, fields.K_FACTOR.unit.places, False),
        "base volume (bbl)": shown(job.prover.base, fields.BASE_VOLUME.unit.places, False),
        "limit (%)": shown(job.limit, LIMIT.unit.places),
    }


def spread_of(group):
    return {"spread (%)": shown(group.spread, SPREAD.places)}


def nearest(job, program):
    """Of a job in which no group agrees: the spread of the one that came nearest."""
    return spread_of(works.work(job, program).group)


def proved(job, program):
    outcome = figures.prove(job, program)
    return {
        "meter factor": shown(outcome.factor, 4, False),
        **spread_of(figures.group_of(outcome.first, outcome.five, program)),
        "first used": outcome.first,
        "out of": outcome.runs,
        # Bytes set apart: a spreadsheet would take 64 digits in a row for one number.
        "report record": outcome.record.hex(" "),
    }


def drawn(job, program):
    cubic_inches, barrels, first = figures.draw(job, program)
    volumes, number = figures.judged(job, program), job.profile.number_of(first)
    return {
        "base volume (bbl)": shown(barrels, 4, False),
        "base volume (in³)": shown(cubic_inches, 2, False),
        **spread_of(works.group_of(volumes, fields.GROUP_OF_PASSES, number, program)),
        "first used": first,
        "out of": job.fills[-1].counts["pass"],
    }


def ticketed(job, program):
    told = figures.ticket(job, program)
    return {"gross (bbl)": shown(told["gross"], 2, False), "net (bbl)": shown(told["net"], 2, False)}


def reading(temperature, pressure):
    return {"temperature (°F)": shown(temperature, 1, False), "pressure (psi)": shown(pressure, 0, False)}


def read_live(job, program):
    return reading(*figures.live(job, program))


def on_panel(job, program):
    """Asked for its refusal alone: its row has what was read, and no column is a single's."""
    figures.panel(job, program)
    return {}


GIVEN = {
    "prove": of_proving,
    "draw": lambda job: {"limit (%)": shown(fields.DRAW_LIMIT, LIMIT.unit.places)},
    "ticket": lambda job: {"meter factor": shown(job.counts["meter_factor"], 4, False)},
    "live": lambda job: {},
    "panel": lambda job: reading(**job.counts),
}
ANSWERS = {"prove": proved, "draw": drawn, "ticket": ticketed, "live": read_live, "panel": on_panel}
