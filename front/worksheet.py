"""A proving job as a spreadsheet that recalculates to the program's digits.

Every figure is a whole count of its unit, and every ROUND is of a quotient of whole numbers: docs/WORKSHEET.md says why
no digit slips. The last part shows the same figures with their points."""

from . import fields, look_up_pages
from .sheet import Sheet, Step

FIVE = fields.GROUP_OF_RUNS
UNIT, VOLUME = "0.0001", "0.0001 bbl"


def cpl(key, label, side, known):
    """CPL at a side, by what its fields' keys begin with; P is taken from Pe where the job has one."""
    pressure, how = f"{{{side}pressure}}", "1 / (1 - F x P)"
    if f"{side}equilibrium_pressure" in known:
        pressure, how = f"({pressure}-{{{side}equilibrium_pressure}})", fields.CPL_FROM_PE
    return Step(key, label, UNIT, how, f"ROUND(1000000000000/(100000000-{{{side}compressibility}}*{pressure}),0)")


def indicated(pulses):
    """In 0.0001 barrel, of pulses in ones or in thousandths, and K in 0.001 pulse per barrel."""
    formula = f"ROUND({{pulses}}*1{'0' * (7 - pulses.unit.places)}/{{$k_factor}},0)"
    return Step("indicated", "Indicated volume", VOLUME, "pulses / K", formula)


def steps_of(known):
    """The steps of a run that has these fields."""
    return (
        indicated(known["pulses"]),
        Step(
            "cts", "Prover CTS", UNIT, "1 + (T - 60) x Gc",
            "ROUND((100000000+({prover_temperature}-600)*{$coefficient})/10000,0)",
        ),
        Step(
            "cps", "Prover CPS", UNIT, "1 + P x ID / (E x WT)",
            "ROUND(({$modulus}*{$wall_thickness}+{prover_pressure}*{$inside_diameter})*10000"
            "/({$modulus}*{$wall_thickness}),0)",
        ),
        cpl("prover_cpl", "Prover CPL", "prover_", known),
        Step(
            "prover_factor", "Prover factor CCFp", UNIT, "CTS x CPS x CTL x CPL",
            "ROUND({cts}*{cps}*{prover_ctl}*{prover_cpl}/1000000000000,0)",
        ),
        cpl("meter_cpl", "Meter CPL", "meter_", known),
        Step("meter_product", "Meter product CCFm", UNIT, "CTL x CPL", "ROUND({meter_ctl}*{meter_cpl}/10000,0)"),
        Step(
            "prover_volume", "Corrected prover volume", VOLUME, "base volume x CCFp",
            "ROUND({$base_volume}*{prover_factor}/10000,0)",
        ),
        Step(
            "meter_volume", "Corrected meter volume", VOLUME, "indicated x CCFm",
            "ROUND({indicated}*{meter_product}/10000,0)",
        ),
        Step(
            "factor", "Run factor", UNIT, "prover volume / meter volume",
            "ROUND({prover_volume}*10000/{meter_volume},0)",
        ),
    )  # fmt: skip


def build(worked):
    """The sheet; the program's own run factors and meter factor stand beside the recalculated ones."""
    job = worked.job
    sheet, count, steps = Sheet("Proving worksheet", job), len(job.runs), steps_of(job.shown)
    settings(sheet, job)
    sheet.note("2. RUNS", "Unit of one", "", *(f"run {at + 1}" for at in range(count)))
    for key, field in job.shown.items():
        sheet.row(key, field.label, field.unit.step, look_up_pages.how(job, key), [run.counts[key] for run in job.runs])
    look_up_pages.on_sheet(sheet, job, range(1, count + 1))
    sheet.note("3. STEPS", "Unit of one", "each rounded once, halves up")
    sheet.steps(steps, count)
    sheet.note("4. FIVE IN A ROW", "", "beginning with", *(f"run {at + 1}" for at in range(count - FIVE + 1)))
    sheet.groups("factor", count, FIVE, sheet.fixed("repeatability_limit"), UNIT)
    results(sheet, worked.runs, worked.answer)
    as_read(sheet, steps, count)
    return sheet


def settings(sheet, job):
    sheet.note("1. SETTINGS", "Unit of one", "")
    sheet.row("coefficient", "cubical coefficient Gc", fields.COEFFICIENT.unit.step, "", [job.prover.in_use])
    given = {**job.prover.pipe, "base_volume": job.prover.base}
    given |= {"k_factor": job.k_factor, "repeatability_limit": job.limit}
    known = fields.PIPE | fields.named(fields.BASE_VOLUME, fields.K_FACTOR, fields.LIMIT)
    for key, field in known.items():
        sheet.row(key, field.label, field.unit.step, "", [given[key]])


def results(sheet, figures, outcome):
    sheet.note("5. RESULT", "Unit of one", "")
    sheet.first_group("first", "First run used")
    sheet.of_first_group("meter_factor", "Meter factor", UNIT, "mean")
    told = outcome.factor if outcome else "none"
    sheet.row("told", "Meter factor of the report", UNIT, "as Endakuro gave it", [told])
    factors = [own["factor"] for own in figures]
    sheet.row("told_runs", "Run factors of the report", UNIT, "as Endakuro gave them", factors)
    sheet.agree([("meter_factor", "told", 0), *(("factor", "told_runs", at) for at in range(len(factors)))])


def as_read(sheet, steps, count):
    sheet.note("6. AS READ", "Unit", "the steps with their points", *(f"run {at + 1}" for at in range(count)))
    for step in steps:
        sheet.pointed(step.key, step.label, "bbl" if step.unit == VOLUME else "", 4, range(count))
    sheet.pointed("meter_factor", "Meter factor", "", 4, range(1))
