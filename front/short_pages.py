"""The short pages: a measurement ticket, a live reading, numbers for the panel, a report record read back."""

from . import channels, fields, look_up_pages, page, version
from .fields import CPL_FROM_PE, FACTOR, LIVE, PANEL, READING
from .page import Page, Pairs, Section, Signatures
from .records import LENGTH
from .units import shown

TICKET_LABELS = {
    "opening": "Opening reading", "closing": "Closing reading", "meter_factor": "Meter factor", "ctl": "CTL",
    "pressure": "Pressure", "compressibility": "Compressibility F", "equilibrium_pressure": "Equilibrium pressure Pe",
    "sediment_and_water": "Sediment and water",
}  # fmt: skip


def ticket(worked):
    job, figures = worked.job, worked.answer
    rows = [(TICKET_LABELS[key], count_of(job, key, field)) for key, field in job.shown.items()]
    rows += look_up_pages.of_job(job.look_up) if job.look_up else []
    blocks = [*page.heading(job), Section("A. READINGS AND FACTORS"), Pairs(rows)]
    if figures:
        blocks += [Section("B. VOLUMES"), volumes(figures, "equilibrium_pressure" in job.shown)]
    return Page("MEASUREMENT TICKET", "API MPMS 12.2", [*blocks, Signatures("Issued")], page.verdict(worked.refusal))


def count_of(job, key, field):
    """A ticket's number; of an F that is looked up it is said, and also where it was not found."""
    if job.counts[key] is None:
        return "not found"
    return field.text(job.counts[key]) + (", looked up" if job.look_up and key in job.look_up.counts(0) else "")


def volumes(figures, boils):
    how = f", {CPL_FROM_PE}" if boils else ""
    return Pairs(
        [
            ("Indicated", f"{READING.text(figures['indicated'])}, closing - opening"),
            ("CPL", f"{shown(figures['cpl'], FACTOR.places)}{how}"),
            ("Factor", f"{shown(figures['factor'], FACTOR.places)}, meter factor x CTL x CPL"),
            ("Gross standard", f"{READING.text(figures['gross'])}, indicated x factor"),
            ("Net standard", f"{READING.text(figures['net'])}, gross less sediment and water"),
        ]
    )


def live(worked):
    job = worked.job
    told = {key: sent.text for key, sent in job.sent.items()}
    for (key, field), count in zip(LIVE.items(), worked.answer or ()):
        told[key] = f"{field.text(count)}, from {told[key]}"
    # In half a line of print a single is broken; the page of a plain reading stays as it was.
    rows = labelled(LIVE, told, alone=channels.any_tagged(job.sent))
    blocks = [*page.heading(job, ()), Section("READING"), rows]
    if worked.panel:
        shows = {key: single.text for key, single in worked.panel.items()}
        blocks += [Section("ON THE PANEL"), labelled(PANEL, shows, alone=True)]
    return Page("LIVE READING", "to the nearest 0.1 °F and 1 psi", blocks, page.verdict(worked.refusal))


def panel(worked):
    job = worked.job
    told = {key: field.text(job.counts[key]) for key, field in PANEL.items()}
    for key, single in (worked.answer or {}).items():
        told[key] += f", shown as {single.text}"
    blocks = [*page.heading(job, ()), Section("NUMBERS"), labelled(PANEL, told, alone=True)]
    right = "temperature to the nearest single, pressure exactly"
    return Page("PANEL NUMBERS", right, blocks, page.verdict(worked.refusal))


def labelled(known, told, alone=False):
    return Pairs([(field.label.capitalize(), told[key]) for key, field in known.items()], alone)


def read(name, record, told, refusal=None):
    """A record read back; of one that is no report only its bytes."""
    rows = [("Record", name), ("Worked by", version.NAME), *(fields_of(told) if told else ())]
    blocks = [Pairs([*rows, ("Bytes", record[: LENGTH + 1].hex(" "))])]
    return Page("REPORT RECORD", "read back", blocks, page.verdict(refusal))


def fields_of(told):
    numbers = range(told["first"], told["first"] + fields.GROUP_OF_RUNS)
    factors = [shown(factor, FACTOR.places) for factor in told["five"]]
    return [
        ("Request number", str(told["request"])),
        ("Meter factor", shown(told["factor"], FACTOR.places)),
        ("Accepted runs", f"{numbers[0]} to {numbers[-1]} of {told['runs']}"),
        *((f"Run factor, run {number}", factor) for number, factor in zip(numbers, factors)),
    ]
