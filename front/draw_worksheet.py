"""A water draw as a spreadsheet, on whole counts as the proving worksheet is.

Two products pass what a spreadsheet's numbers hold exactly: what is drawn is multiplied in two parts, and a pass is
divided three digits at a time. docs/WORKSHEET.md says why no digit slips."""

from itertools import cycle

from . import fields
from .profiles import WAYS
from .sheet import Sheet, Step

THREE = fields.GROUP_OF_PASSES
UNIT, VOLUME = "0.000001", "0.01 in³"
FILL_STEPS = (
    Step("adjusted", "Adjusted measure", VOLUME, "certified + scale reading", "{certified_volume}+{scale_reading}"),
    Step(
        "measure_cts", "Measure CTS", UNIT, "1 + (T - 60) x Gc",
        "ROUND((100000000+({measure_temperature}-600)*{measure_coefficient})/100,0)",
    ),
    Step(
        "prover_cts", "Prover CTS", UNIT, "1 + (T - 60) x Gc",
        "ROUND((100000000+({prover_temperature}-600)*{$coefficient})/100,0)",
    ),
    Step("ccts", "CCTS", UNIT, "measure CTS / prover CTS", "ROUND({measure_cts}*1000000/{prover_cts},0)"),
    Step("water", "Adjusted x CTDW", "", "the product", "{adjusted}*{ctdw}"),
    Step("upper", "upper part of it", "", "whole millions", "INT({water}/1000000)"),
    Step(
        "product", "Adjusted x CTDW x CCTS", "", "whole millions of the product",
        "{upper}*{ccts}+INT(({water}-{upper}*1000000)*{ccts}/1000000)",
    ),
    Step("drawn", "Drawn", VOLUME, "the product, rounded", "ROUND({product}/1000000,0)"),
)  # fmt: skip
FACTORS = (
    Step(
        "cps", "CPS", UNIT, "1 + P x ID / (E x WT)",
        "1000000+ROUND({at_pressure}*{$inside_diameter}*1000000/({$modulus}*{$wall_thickness}),0)",
    ),
    Step("cpl", "CPL", UNIT, "1 / (1 - F x P), F 320", "ROUND(100000000000000/(100000000-320*{at_pressure}),0)"),
    Step("divisor", "CPS x CPL", "", "not rounded", "{cps}*{cpl}"),
)  # fmt: skip
TRIP_STEPS = (Step("trip", "Round trip", VOLUME, "out + back", "{out}+{back}"),)


def long_division():
    """The sum over the divisor, three digits at a time: each step's digits and what is left over."""
    left = "sum"
    for at in ("first", "second", "third", "fourth"):
        digits = f"{at}_digits"
        yield Step(digits, f"{at} three digits", "", "of sum / (CPS x CPL)", f"INT({{{left}}}*1000/{{divisor}})")
        yield Step(f"{at}_left", "left over", "", "", f"{{{left}}}*1000-{{{digits}}}*{{divisor}}")
        left = f"{at}_left"
    digits = "(({first_digits}*1000+{second_digits})*1000+{third_digits})*1000+{fourth_digits}"
    yield Step("volume", "Volume", VOLUME, "the digits, rounded", f"{digits}+IF(2*{{fourth_left}}>={{divisor}},1,0)")


def build(worked):
    """Parts 1 to 4 are any draw's; a bidirectional one has its round trips behind them."""
    job, count, trips = worked.job, len(worked.judged), worked.trips
    sheet = Sheet("Bidirectional water draw worksheet" if trips else "Water draw worksheet", job)
    settings(sheet, job.prover)
    sheet.note("2. FILLS", "Unit of one", "", *(f"fill {at + 1}" for at in range(len(job.fills))))
    for key, field in fields.FILL.items():
        sheet.row(key, field.label, field.unit.step, "read", [fill.counts[key] for fill in job.fills])
    sheet.note("3. STEPS OF A FILL", "Unit of one", "each figure rounded once, halves up")
    sheet.steps(FILL_STEPS, len(job.fills))
    passes_of(sheet, worked)
    if trips:
        trips_of(sheet, trips)
    part, name, volume = (6, "trip", "trip") if trips else (5, "pass", "volume")
    starts = range(count - THREE + 1)
    sheet.note(f"{part}. THREE IN A ROW", "", "beginning with", *(f"{name} {at + 1}" for at in starts))
    sheet.groups(volume, count, THREE, str(fields.DRAW_LIMIT), VOLUME)
    results(sheet, worked, part + 1)
    as_read(sheet, worked, part + 2)
    return sheet


def settings(sheet, prover):
    sheet.note("1. SETTINGS", "Unit of one", "")
    sheet.row("coefficient", "cubical coefficient Gc", fields.COEFFICIENT.unit.step, "", [prover.in_use])
    for key, field in fields.PIPE.items():
        sheet.row(key, field.label, field.unit.step, "", [prover.pipe[key]])


def passes_of(sheet, worked):
    """A column a pass; its fills stand beside each other."""
    numbers = [own["pass"] for own in worked.passes]
    ways = cycle(f" {way}" for way in WAYS) if worked.trips else cycle([""])
    sheet.note("4. PASSES", "Unit of one", "", *(f"pass {number}{way}" for number, way in zip(numbers, ways)))
    fills = list(enumerate(worked.job.fills))
    places = [[at for at, fill in fills if fill.counts["pass"] == number] for number in numbers]
    sums = [f"=SUM({sheet.span('drawn', own[0], own[-1])})" for own in places]
    pressures = [f"={sheet.cell('pressure', own[0])}" for own in places]
    sheet.row("at_pressure", "Pressure", fields.PSI.step, "of its fills", pressures)
    sheet.row("sum", "Sum of fills", VOLUME, "", sums)
    sheet.steps([*FACTORS, *long_division()], len(numbers))


def trips_of(sheet, trips):
    """A column a round trip, with the volumes of its two passes."""
    sheet.note("5. ROUND TRIPS", "Unit of one", "", *(f"trip {own['trip']}" for own in trips))
    for way in WAYS:
        numbers = [own[way]["pass"] for own in trips]
        label = f"{way.capitalize()} pass"
        sheet.row(f"{way}_pass", label, "", "its number", numbers)
        sheet.row(way, label, VOLUME, "its volume", [f"={sheet.cell('volume', number - 1)}" for number in numbers])
    sheet.steps(TRIP_STEPS, len(trips))


def results(sheet, worked, part):
    sheet.note(f"{part}. RESULT", "Unit of one", "")
    if worked.trips:
        sheet.first_group("first_trip", "First round trip used")
        first = f"INDEX({sheet.whole('out_pass')},{sheet.cell('first_trip')})"
        sheet.row("first", "First pass used", "", "its out pass", [sheet.if_any(first)])
    else:
        sheet.first_group("first", "First pass used")
    sheet.of_first_group("base", "Base volume", VOLUME, "mean")
    base = sheet.cell("base")
    sheet.row("barrels", "Base volume", "0.0001 bbl", "/ 9702", [sheet.if_any(f"ROUND({base}*10000/970200,0)")])
    told = worked.answer or ("none", "none", "none")
    sheet.row("told", "Base volume of the report", VOLUME, "as Endakuro gave it", [told[0]])
    sheet.row("told_barrels", "Base volume of the report", "0.0001 bbl", "as Endakuro gave it", [told[1]])
    same = [("base", "told", 0), ("barrels", "told_barrels", 0)]
    if worked.trips:
        volumes = [own["volume"] for own in worked.trips]
        sheet.row("told_first", "First pass used of the report", "", "as Endakuro gave it", [told[2]])
        sheet.row("told_trips", "Round trips of the report", VOLUME, "as Endakuro gave them", volumes)
        same += [("first", "told_first", 0), *(("trip", "told_trips", at) for at in range(len(volumes)))]
    sheet.agree(same)


def as_read(sheet, worked, part):
    parts = [("fill", FILL_STEPS, worked.fills), ("pass", [*FACTORS, *long_division()], worked.passes)]
    parts += [("trip", TRIP_STEPS, worked.trips)] if worked.trips else []
    for name, steps, own in parts:
        count = len(own)
        heads = (f"{name} {at + 1}" for at in range(count))
        sheet.note(f"{part}. AS READ", "Unit", "the steps with their points", *heads)
        for step in steps:
            if step.unit:
                unit, places = ("in³", 2) if step.unit == VOLUME else ("", 6)
                sheet.pointed(step.key, step.label, unit, places, range(count))
    sheet.pointed("base", "Base volume", "in³", 2, range(1))
    sheet.pointed("barrels", "Base volume", "bbl", 4, range(1))
