"""The proving report: a page that a measurement technician signs."""

from . import fields, look_up_pages, page, spreads
from .fields import BARREL, FACTOR, LIMIT, SIDES
from .page import Grid, Notes, Octets, Page, Pairs, Section, Signatures
from .units import shown

TITLE, RIGHT = "METER PROVING REPORT", "pipe prover, API MPMS 12.2"
# Columns by group: a heading, a unit, and what of a run it shows, a count of its record or a figure.
READ = (
    ("", (("Pulses", "", "pulses"),)),
    *(
        (
            side.capitalize(),
            (
                ("T", "°F", f"{side}_temperature"),
                ("P", "psi", f"{side}_pressure"),
                ("Pe", "psi", f"{side}_equilibrium_pressure"),
                ("CTL", "", f"{side}_ctl"),
                ("F", "per psi", f"{side}_compressibility"),
            ),
        )
        for side in SIDES
    ),
)
STEPS = (
    (
        "Prover",
        (
            ("CTS", "", "cts"),
            ("CPS", "", "cps"),
            ("CPL", "", "prover_cpl"),
            ("CCFp", "", "prover_factor"),
            ("Volume", "bbl", "prover_volume"),
        ),
    ),
    (
        "Meter",
        (
            ("Indicated", "bbl", "indicated"),
            ("CPL", "", "meter_cpl"),
            ("CCFm", "", "meter_product"),
            ("Volume", "bbl", "meter_volume"),
        ),
    ),
    ("", (("Run", "factor", "factor"),)),
)
VOLUMES = ("indicated", "prover_volume", "meter_volume")
# Columns whose average no entry of the program tells: it is written in by hand, as on the form of the standard.
AVERAGED = ("pulses", "prover_temperature", "prover_pressure", "meter_temperature", "meter_pressure")
READ_KEY, READ_KEY_OF_PE = "P in psi gage.", "P and the equilibrium pressure Pe in psi gage."
STEPS_KEY = (
    "CCFp = CTS x CPS x CTL x CPL, prover volume = base volume x CCFp. Indicated = pulses / K,",
    "CCFm = CTL x CPL, meter volume = indicated x CCFm. Run factor = prover volume / meter volume.",
)


def metal_of(prover):
    name = fields.METALS[prover.metal] if prover.metal is not None else "not named"
    if prover.coefficient is None:
        return f"{name}, cubical coefficient {fields.COEFFICIENT.text(prover.in_use)}"
    return f"{name}; certified coefficient {fields.COEFFICIENT.text(prover.in_use)} is used"


def prover_pairs(prover):
    labels = {"inside_diameter": "Inside diameter", "wall_thickness": "Wall thickness", "modulus": "Modulus E"}
    rows = [("Prover metal", metal_of(prover))]
    return rows + [(labels[key], fields.PIPE[key].text(count)) for key, count in prover.pipe.items()]


def settings(job):
    return Pairs(
        [("Request number", str(job.request)), *prover_pairs(job.prover)]
        + [
            ("Base volume", f"{fields.BASE_VOLUME.text(job.prover.base)} at 60 °F and 0 psi"),
            ("Meter K factor", fields.K_FACTOR.text(job.k_factor)),
            ("Repeatability limit", f"{LIMIT.text(job.limit)} of the smallest of five consecutive run factors"),
            *(look_up_pages.of_job(job.look_up) if job.look_up else ()),
        ]
    )


def cell(key, run, figures, known):
    if key in known:
        # An F that was not found has no count.
        return shown(run.counts[key], known[key].unit.places) if run.counts[key] is not None else ""
    return shown(figures[key], BARREL.places if key in VOLUMES else FACTOR.places)


def table(job, figures, columns, accepted, foot=()):
    """A row a run, the accepted ones marked."""
    groups = [("", [("Run", ""), ("", "")]), *((name, [column[:2] for column in own]) for name, own in columns)]
    keys = [key for _, own in columns for *_, key in own]
    rows = [
        [str(number), "*" if number in accepted else "", *(cell(key, run, own, job.form.fields) for key in keys)]
        for number, (run, own) in enumerate(zip(job.runs, figures), 1)
    ]
    return Grid(groups, rows, foot)


def readings(job, accepted):
    """What was read; beneath it lines for the averages, as the standard's form has them."""
    known = job.shown
    columns = [(name, [column for column in own if column[-1] in known]) for name, own in READ]
    keys = [key for _, own in columns for *_, key in own]
    foot = ["avg", "*", *("____" if key in AVERAGED else "" for key in keys)] if accepted else ()
    return table(job, [{}] * len(job.runs), columns, accepted, foot)


def steps(worked):
    """Each run's figures; beneath them the mean of the accepted factors, which is the meter factor."""
    outcome = worked.answer
    columns = [key for _, own in STEPS for *_, key in own]
    foot = ["avg", "*", *[""] * (len(columns) - 1), shown(outcome.factor, FACTOR.places)] if outcome else ()
    return table(worked.job, worked.runs, STEPS, worked.accepted, foot)


def keys_of(job):
    """The notes below what was read and below the steps: a word of Pe only where a liquid has one, and of a look-up
    where there is one."""
    without = [side for side in SIDES if f"{side}_equilibrium_pressure" not in job.shown]
    given = ["CTL"] if job.look_up else ["CTL", "F"]
    looked_up = f" {look_up_pages.source(job)}" if job.look_up else ""
    if len(without) == len(SIDES):
        return [f"{READ_KEY} {given_with_each(given)}{looked_up}"], STEPS_KEY
    cpl = f"CPL = {fields.CPL_FROM_PE}" + "".join(f"; at the {side} Pe is 0" for side in without)
    return [f"{READ_KEY_OF_PE} {given_with_each([*given, 'Pe'])}{looked_up}"], (f"{cpl}.", *STEPS_KEY)


def given_with_each(names):
    *first, last = names
    return f"{', '.join(first)} and {last} are given with each run." if first else f"{last} is given with each run."


def repeatability(worked):
    group, limit = worked.group, worked.job.limit
    at = {factor: number for number, factor in reversed(list(zip(group.numbers, group.values)))}
    span = f"{group.numbers[0]} to {group.numbers[-1]} of {len(worked.runs)}"
    if worked.refusal:
        named = ("Best five", f"runs {span}: the five in a row that lie nearest together")
    else:
        named = ("Accepted runs", f"{span}: the first five in a row that agree, marked *")
    return Pairs(
        [
            named,
            ("Largest run factor", f"{shown(group.largest, 4)}, first in run {at[group.largest]}"),
            ("Smallest run factor", f"{shown(group.smallest, 4)}, first in run {at[group.smallest]}"),
            *spreads.rows(group, limit, not worked.refusal),
        ]
    )


def conclusion(worked):
    """The page below the runs."""
    if worked.refusal:
        return [Section("D. METER FACTOR"), Notes(["None: the job is not accepted."])]
    outcome = worked.answer
    return [
        Section("D. METER FACTOR"),
        Pairs([("Meter factor", f"{shown(outcome.factor, 4)}, the mean of the five")]),
        Section("E. REPORT RECORD, 32 BYTES IN HEX"),
        Octets(outcome.record.hex(" ")),
    ]


def build(worked):
    job = worked.job
    below_read, below_steps = keys_of(job)
    blocks = [*page.heading(job), Section("A. SETTINGS"), settings(job), Section("B. RUNS")]
    blocks += [readings(job, worked.accepted), Notes(below_read)]
    if job.look_up and job.look_up.found:
        blocks.append(look_up_pages.entries(job))
    if worked.runs:
        blocks += [steps(worked), Notes(below_steps)]
        blocks += [Section("C. REPEATABILITY"), repeatability(worked), *conclusion(worked)]
    nearest = [spreads.nearest("five: runs", worked.group, job.limit)] if worked.runs else []
    return Page(TITLE, RIGHT, [*blocks, Signatures("Proved")], page.verdict(worked.refusal, nearest))
