"""The report's digits over jobs by chance: every figure in its row and column is the file's or the line program's, and
no line is wider than a page."""

import random
import tempfile
from pathlib import Path

import jobtexts
from harness import Tally

from front import fields, figures, jobs, page, pages
from front import worked as works
from front.program import Program
from front.units import shown

JOBS = 150
# The columns of a run's rows, in the order in which they are printed.
RUN_COLUMNS = (
    (
        "pulses",
        "prover_temperature", "prover_pressure", "prover_equilibrium_pressure", "prover_ctl", "prover_compressibility",
        "meter_temperature", "meter_pressure", "meter_equilibrium_pressure", "meter_ctl", "meter_compressibility",
    ),
    (
        "cts", "cps", "prover_cpl", "prover_factor", "prover_volume",
        "indicated", "meter_cpl", "meter_product", "meter_volume", "factor",
    ),
)  # fmt: skip
FILL_COLUMNS = (
    (
        "pass", "pressure", "certified_volume", "scale_reading", "measure_temperature", "measure_coefficient",
        "prover_temperature", "ctdw",
    ),
    ("pass", "adjusted", "measure_cts", "prover_cts", "ccts", "drawn"),
)  # fmt: skip
FILL_PLACES = {"adjusted": 2, "drawn": 2, "measure_cts": 6, "prover_cts": 6, "ccts": 6}


def tables_after(lines, section):
    """The cells of the rows of each table below a section's name, and of its foot."""
    at = next(at for at, line in enumerate(lines) if line.startswith(section))
    end = next(place for place in range(at + 1, len(lines)) if not lines[place])
    tables, rows = [], [line.replace("|", " ").split() for line in lines[at:end]]
    for cells, below in zip(rows, [*rows[1:], [""]]):
        if cells[0].startswith("---") and below[0] == "avg":
            tables[-1]["foot"] = below
        elif cells[0].startswith("---"):
            tables.append({"rows": []})
        elif tables and cells[0].isdigit():
            tables[-1]["rows"].append(cells)
    return tables


def value(lines, name):
    """What stands behind a name."""
    return next(line.strip().removeprefix(name).strip() for line in lines if line.strip().startswith(name))


def has_column(job, key):
    """An equilibrium pressure has a column where a run has one; all else always has."""
    return "equilibrium" not in key or any(run.counts[key] for run in job.runs)


def told(counts, places, keys):
    return [shown(counts[key], places[key]) for key in keys]


def proving(tally, name, job, program):
    worked = works.work(job, program)
    lines = page.text(pages.build(worked))
    fits(tally, name, lines)
    if not worked.has_figures:
        tally.holds("\n".join(lines[:6]), "range 0.8000 to 1.2000", name)
        return
    places = {key: field.unit.places for key, field in job.form.fields.items()} | dict.fromkeys(figures.OF_A_RUN, 4)
    tables = tables_after(lines, "B. RUNS")
    if tally.same(len(tables), 2, f"{name}: tables"):
        for table, columns in zip(tables, RUN_COLUMNS):
            keys = [key for key in columns if has_column(job, key)]
            tally.same(len(table["rows"]), len(job.runs), f"{name}: rows")
            for number, (run, own, cells) in enumerate(zip(job.runs, worked.runs, table["rows"]), 1):
                marked = [str(number), *["*"] * (number in worked.accepted)]
                tally.same(cells, [*marked, *told(run.counts | own, places, keys)], f"{name}, run {number}")
    outcome = worked.answer
    if outcome:
        accepted = outcome.accepted
        tally.same(tables[1]["foot"], ["avg", "*", shown(outcome.factor, 4)], f"{name}: mean")
        tally.same(tables[0]["foot"], ["avg", "*", *["____"] * 5], f"{name}: averages by hand")
        tally.same(value(lines, "Meter factor  "), f"{shown(outcome.factor, 4)}, the mean of the five", name)
        span = f"{accepted[0]} to {accepted[-1]} of {len(job.runs)}:"
        tally.check(value(lines, "Accepted runs").startswith(span), name)
        tally.check(f"   {outcome.record.hex(' ')}" in lines, f"{name}: record")
    else:
        tally.check(all("foot" not in table for table in tables), f"{name}: averages of a refused job")
    head(tally, name, worked, lines)


def head(tally, name, worked, lines):
    """A page tells in its head that its job is not accepted, and only then."""
    told = [line for line in lines[:3] if line.startswith("NOT ACCEPTED")]
    expected = [f"NOT ACCEPTED: {worked.refusal.headline}"] if worked.refusal else []
    tally.same(told, expected, f"{name}: head")
    tally.check(f"   SHA-256 of the job file   {worked.job.digest}" in lines, f"{name}: digest")
    tally.check("   Worked by                 Endakuro 1.0" in lines, f"{name}: version")


def fits(tally, name, lines):
    widest = max(lines, key=len)
    tally.check(len(widest) <= 100, f"{name}: {len(widest)} columns: {widest!r}")


def draw(tally, name, job, program):
    worked = works.work(job, program)
    fills, passes, answer = worked.fills, worked.passes, worked.answer
    places = {key: field.unit.places for key, field in fields.FILL.items()} | FILL_PLACES
    lines = page.text(pages.build(worked))
    fits(tally, name, lines)
    head(tally, name, worked, lines)
    if answer:
        of_trip = " of a round trip" if paired(job) else ""
        tally.same(value(lines, "Base volume"), f"{shown(answer[0], 2)} in³{of_trip}, the mean of the three", name)
        tally.same(value(lines, "In barrels"), f"{shown(answer[1], 4)} bbl", name)
    tables = tables_after(lines, "B. FILLS")
    if tally.same(len(tables), 2, f"{name}: tables"):
        for table, keys in zip(tables, FILL_COLUMNS):
            for number, (fill, own, cells) in enumerate(zip(job.fills, fills, table["rows"], strict=True), 1):
                tally.same(cells, [str(number), *told(fill.counts | own, places, keys)], f"{name}, fill {number}")
    [table] = tables_after(lines, "C. PASSES")
    tally.same(len(table["rows"]), len(passes), f"{name}: passes")
    for number, cells in enumerate(table["rows"], 1):
        own = [fill["drawn"] for fill, of in zip(fills, job.fills) if of.counts["pass"] == number]
        used = answer and answer[2] <= number < answer[2] + 3
        marked = [str(number), *["*"] * bool(used)]
        if paired(job):
            marked = [str(number), "out" if number % 2 else "back"]
        tally.same(cells[: len(marked)], marked, f"{name}, pass {number}")
        tally.same(cells[len(marked) + 1], shown(sum(own), 2), f"{name}, sum of pass {number}")
        tally.same(cells[-1], shown(passes[number - 1]["volume"], 2), f"{name}, volume of pass {number}")
    tally.same("D. ROUND TRIPS" in lines, paired(job), f"{name}: round trips")
    if paired(job):
        tally.check("foot" not in table, f"{name}: a mean of passes")
        table = round_trips(tally, name, lines, [own["volume"] for own in passes], answer)
    if answer:
        tally.same(table["foot"], ["avg", "*", shown(answer[0], 2)], f"{name}: mean")


def paired(job):
    return job.profile.name == "bidirectional"


def round_trips(tally, name, lines, volumes, answer):
    """The table of round trips: each the sum of two passes, those used marked from the first pass used on."""
    [table] = tables_after(lines, "D. ROUND TRIPS")
    tally.same(len(table["rows"]), len(volumes) // 2, f"{name}: round trips")
    for trip, cells in enumerate(table["rows"], 1):
        out, back = 2 * trip - 1, 2 * trip
        used = answer and answer[2] <= out < answer[2] + 6
        sides = [cell for number in (out, back) for cell in (str(number), shown(volumes[number - 1], 2))]
        total = shown(volumes[out - 1] + volumes[back - 1], 2)
        tally.same(cells, [str(trip), *["*"] * bool(used), *sides, total], f"{name}, round trip {trip}")
    if answer:
        first = f"{answer[2] // 2 + 1} to {answer[2] // 2 + 3} of {len(volumes) // 2}, first pass used {answer[2]}: "
        tally.check(value(lines, "Accepted round trips").startswith(first), f"{name}: accepted round trips")
    return table


def widest():
    """Jobs at the ends of the ranges: their figures are the longest that there are."""
    yield from map(jobtexts.draw_text, jobtexts.widest_draws())
    yield jobtexts.paired_text(jobtexts.widest_draws(20)[0])
    prover = 'metal = "mild carbon"\ninside_diameter = 60.000\nwall_thickness = 0.100\nmodulus = 10000000\n'
    most, least = ("10000.0000", "1.5000"), ("9500.0000", "0.5000")
    whole, in_parts = "100000000", "99999999.999"
    for (base, ctl), equilibrium, pulses in (
        (most, 0, whole), (least, 0, in_parts), (least, 1000, whole), (least, 1000, in_parts),
    ):  # fmt: skip
        shared = "".join(
            f"{side}_temperature = -20.0\n{side}_pressure = 1500\n{side}_ctl = {ctl}\n{side}_compressibility = 0.0001\n"
            f"{side}_equilibrium_pressure = {equilibrium}\n"
            for side in ("prover", "meter")
        )
        runs = f"[[run]]\npulses = {pulses}\n" * 20
        heading = f'[heading]\ntitle = "{"long words " * 30}"\nnote = "{"x" * 300}"\n'
        meter = f"[meter]\nk_factor = 10000.000\n[every_run]\n{shared}"
        yield f"request = 4294967295\n{heading}[prover]\n{prover}base_volume = {base}\n{meter}{runs}"


def test():
    tally = Tally("report digits")
    with tempfile.TemporaryDirectory() as folder, Program() as program:
        path = Path(folder) / "job.toml"
        rng = random.Random(6)
        for number, given in enumerate(jobtexts.days(JOBS, 3)):
            text = jobtexts.proving_text(given)
            path.write_text(jobtexts.in_parts(text, rng) if number % 3 == 2 else text)
            proving(tally, f"job {number}", jobs.read(str(path), "prove"), program)
        for text, listed in (
            (jobtexts.draw_text, jobtexts.draws(JOBS, 4)),
            (jobtexts.paired_text, jobtexts.paired_draws(JOBS, 5)),
        ):
            for number, given in enumerate(listed):
                path.write_text(text(given))
                job = jobs.read(str(path), "draw")
                tally.same(job.records, given.records, f"draw {number}: records")
                draw(tally, f"{job.profile.name} draw {number}", job, program)
        for number, given in enumerate(widest()):
            path.write_text(given)
            job = jobs.read(str(path))
            tally.check(works.work(job, program).has_figures, f"widest {number} has no figures")
            (proving if job.kind == "prove" else draw)(tally, f"widest {number}", job, program)
    return tally
