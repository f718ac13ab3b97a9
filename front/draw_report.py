"""The water draw report: fills, passes, a bidirectional prover's round trips, the base volume."""

from itertools import cycle

from . import fields, page, spreads
from .fields import BARREL, CUBIC_INCH, FINE_FACTOR, LIMIT
from .page import Grid, Notes, Page, Pairs, Section, Signatures
from .profiles import BIDIRECTIONAL, WAYS
from .report import prover_pairs
from .units import shown

TITLE, RIGHT = "WATER DRAW REPORT", "{} pipe prover, API MPMS 12.2 Part 4"
# Columns by group, as in the proving report: a count of the fill's record, or a figure.
READ = (
    ("", (("Pass", "", "pass"), ("P", "psi", "pressure"))),
    (
        "Measure",
        (
            ("Certified", "in³", "certified_volume"),
            ("Scale", "in³", "scale_reading"),
            ("T", "°F", "measure_temperature"),
            ("Gc", "per °F", "measure_coefficient"),
        ),
    ),
    ("Prover", (("T", "°F", "prover_temperature"),)),
    ("Water", (("CTDW", "", "ctdw"),)),
)
STEPS = (
    ("", (("Pass", "", "pass"),)),
    ("Measure", (("Adjusted", "in³", "adjusted"), ("CTS", "", "measure_cts"))),
    ("Prover", (("CTS", "", "prover_cts"),)),
    ("Water drawn", (("CCTS", "", "ccts"), ("Drawn", "in³", "drawn"))),
)
PASS_COLUMNS = (
    ("P", "psi", "pressure", 0),
    ("Sum of fills", "in³", "sum", 2),
    ("CPS", "", "cps", 6),
    ("CPL", "", "cpl", 6),
    ("Volume", "in³", "volume", 2),
)
STEPS_KEY = (
    "Adjusted = certified + scale reading, CCTS = measure CTS / prover CTS,",
    "drawn = adjusted x CTDW x CCTS.",
)
PASSES_KEY = (f"Volume of a pass = sum of its fills / (CPS x CPL), water's F {fields.PER_PSI.text(fields.WATER)}.",)
TRIP_COLUMNS = (
    ("", (("Trip", ""), ("", ""))),
    *((way.capitalize(), (("Pass", ""), ("Volume", "in³"))) for way in WAYS),
    ("Out + back", (("Volume", "in³"),)),
)


def fill_cell(key, fill, figures):
    if key in fields.FILL:
        return shown(fill.counts[key], fields.FILL[key].unit.places)
    return shown(figures[key], CUBIC_INCH.places if key in ("adjusted", "drawn") else FINE_FACTOR.places)


def fills_table(job, figures, columns):
    groups = [(name, [column[:2] for column in own]) for name, own in columns]
    groups[0][1].insert(0, ("Fill", ""))
    keys = [key for _, own in columns for *_, key in own]
    rows = [
        [str(number), *(fill_cell(key, fill, own) for key in keys)]
        for number, (fill, own) in enumerate(zip(job.fills, figures), 1)
    ]
    return Grid(groups, rows)


def settings(job):
    """A unidirectional page says its profile in its title alone."""
    told = prover_pairs(job.prover)
    if job.profile is BIDIRECTIONAL:
        told.append(("Profile", f"{job.profile.name}: odd passes out, even back"))
    limit = f"{LIMIT.text(fields.DRAW_LIMIT)} of the smallest of three consecutive {job.profile.judged}"
    return Pairs([*told, ("Repeatability limit", limit)])


def mark(number, worked):
    return "*" if number in worked.accepted else ""


def foot_of(worked, columns):
    """Beneath what is judged the mean of the accepted three, in the last column, which is the base volume."""
    return ["avg", "*", *[""] * (columns - 3), shown(worked.answer[0], CUBIC_INCH.places)] if worked.answer else ()


def passes_table(worked):
    """The passes: each with its mark where they are judged, or with the way that it goes where they come in pairs."""
    beside = cycle(WAYS) if worked.trips else [mark(each["pass"], worked) for each in worked.passes]
    columns = [("Pass", ""), ("Direction" if worked.trips else "", ""), *(column[:2] for column in PASS_COLUMNS)]
    rows = [
        [str(each["pass"]), told, *(shown(each[key], places) for _, _, key, places in PASS_COLUMNS)]
        for each, told in zip(worked.passes, beside)
    ]
    return Grid([("", columns)], rows, () if worked.trips else foot_of(worked, len(columns)))


def trips_table(worked):
    rows = [
        [str(each["trip"]), mark(each["trip"], worked)]
        + [cell for way in WAYS for cell in (str(each[way]["pass"]), shown(each[way]["volume"], CUBIC_INCH.places))]
        + [shown(each["volume"], CUBIC_INCH.places)]
        for each in worked.trips
    ]
    return Grid(list(TRIP_COLUMNS), rows, foot_of(worked, len(rows[0])))


def repeatability(worked):
    group, limit, judged = worked.group, fields.DRAW_LIMIT, worked.job.profile.judged
    span = f"{group.numbers[0]} to {group.numbers[-1]} of {len(worked.judged)}"
    if worked.refusal:
        named = ("Best three", f"{judged} {span}: the three in a row that lie nearest together")
    elif worked.trips:
        first = worked.answer[2]
        named = (f"Accepted {judged}", f"{span}, first pass used {first}: the first three that agree, marked *")
    else:
        named = (f"Accepted {judged}", f"{span}: the first three in a row that agree, marked *")
    return Pairs(
        [
            named,
            ("Largest volume", CUBIC_INCH.text(group.largest)),
            ("Smallest volume", CUBIC_INCH.text(group.smallest)),
            *spreads.rows(group, limit, not worked.refusal),
        ]
    )


def conclusion(worked):
    if worked.refusal:
        return Notes(["None: the job is not accepted."])
    base, barrels, _ = worked.answer
    of_trip = " of a round trip" if worked.trips else ""
    told = f"{CUBIC_INCH.text(base)}{of_trip}, the mean of the three"
    return Pairs([("Base volume", told), ("In barrels", BARREL.text(barrels))])


def figures_of(worked):
    """The page below what was read, each section under its letter."""
    sections = [
        ("PASSES", [passes_table(worked), Notes(PASSES_KEY)]),
        *([("ROUND TRIPS", [trips_table(worked)])] if worked.trips else []),
        ("REPEATABILITY", [repeatability(worked)]),
        ("BASE VOLUME", [conclusion(worked)]),
    ]
    lettered = [[Section(f"{letter}. {name}"), *own] for letter, (name, own) in zip("CDEF", sections)]
    return [fills_table(worked.job, worked.fills, STEPS), Notes(STEPS_KEY), *(each for own in lettered for each in own)]


def build(worked):
    job = worked.job
    blocks = [*page.heading(job), Section("A. SETTINGS"), settings(job), Section("B. FILLS")]
    blocks += [fills_table(job, [{}] * len(job.fills), READ), *(figures_of(worked) if worked.fills else [])]
    noun = f"three: {job.profile.judged}"
    nearest = [spreads.nearest(noun, worked.group, fields.DRAW_LIMIT)] if worked.group else []
    right = RIGHT.format(job.profile.name)
    return Page(TITLE, right, [*blocks, Signatures("Drawn")], page.verdict(worked.refusal, nearest))
