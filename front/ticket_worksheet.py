"""A measurement ticket as a spreadsheet, on whole counts as the proving worksheet is."""

from . import look_up_pages
from .sheet import Sheet, Step
from .worksheet import UNIT, cpl

VOLUME = "0.01 bbl"
PLACES = {UNIT: 4, VOLUME: 2}


def steps_of(known):
    """The steps of a ticket that has these fields."""
    return (
        Step("indicated", "Indicated", VOLUME, "closing - opening", "{closing}-{opening}"),
        cpl("cpl", "CPL", "", known),
        Step("factor", "Factor", UNIT, "meter factor x CTL x CPL", "ROUND({meter_factor}*{ctl}*{cpl}/100000000,0)"),
        Step("gross", "Gross standard", VOLUME, "indicated x factor", "ROUND({indicated}*{factor}/10000,0)"),
        Step("net", "Net standard", VOLUME, "gross less S", "ROUND({gross}*(100000-{sediment_and_water})/100000,0)"),
    )


def build(worked):
    job, figures, steps = worked.job, worked.answer, steps_of(worked.job.shown)
    sheet = Sheet("Ticket worksheet", job)
    sheet.note("1. TICKET", "Unit of one", "")
    for key, field in job.shown.items():
        sheet.row(key, field.label, field.unit.step, look_up_pages.how(job, key), [job.counts[key]])
    look_up_pages.on_sheet(sheet, job, [0])
    sheet.note("2. STEPS", "Unit of one", "each rounded once, halves up")
    sheet.steps(steps, 1)
    sheet.note("3. RESULT", "Unit of one", "")
    for step in steps[2:]:
        told = [figures[step.key]]
        sheet.row(f"told_{step.key}", f"{step.label} of the ticket", step.unit, "as Endakuro gave it", told)
    sheet.agree([(step.key, f"told_{step.key}", 0) for step in steps[2:]])
    sheet.note("4. AS READ", "Unit", "the steps with their points")
    for step in steps:
        sheet.pointed(step.key, step.label, "bbl" if step.unit == VOLUME else "", PLACES[step.unit], range(1))
    return sheet
