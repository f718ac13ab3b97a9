"""Worksheets opened with LibreOffice: every computed cell is the line program's figure."""

import random
import shutil
import tempfile
from pathlib import Path

import cells
import jobtexts
import office
from harness import ROOT, Tally
from reports import widest

from front import draw_worksheet, jobs, ticket_worksheet
from front import worked as works
from front import worksheet
from front.program import Program
from front.sheet import FIRST_COLUMN

DAYS, HALVES, DRAWS, PAIRED, TICKETS, IN_PARTS = 150, 110, 20, 20, 48, 12
# So many of them at least are of liquids that boil.
BOILING = {"prover_equilibrium_pressure": 60, "meter_equilibrium_pressure": 60, "equilibrium_pressure": 8}


def proving(worked, program):
    return worksheet.build(worked), cells.of_proving(worked.job, worked.runs, worked.answer, program)


def draw(worked, program):
    return draw_worksheet.build(worked), cells.of_draw(worked, program)


def ticket(worked, program):
    return ticket_worksheet.build(worked), cells.of_ticket(worked.answer)


MAKERS = {"prove": proving, "draw": draw, "ticket": ticket}


def texts():
    """Job files by chance, exact halves of every rounding among them."""
    provings = jobtexts.days(DAYS, 1) + jobtexts.halves(HALVES, 2)
    draws = jobtexts.draws(DRAWS, 3) + jobtexts.draw_halves(DRAWS, 4) + jobtexts.widest_draws()
    yield from map(jobtexts.proving_text, provings)
    yield from map(jobtexts.draw_text, draws)
    yield from map(jobtexts.paired_text, jobtexts.paired_draws(PAIRED, 6) + jobtexts.widest_draws(6))
    yield from map(jobtexts.ticket_text, jobtexts.tickets(TICKETS, 5))
    yield from looked_up()
    yield from in_parts(IN_PARTS, 7)


def looked_up():
    """Jobs that look F up in the table for trying, one of them in some runs alone."""
    proving, ticket = ((ROOT / "examples" / name).read_text() for name in ("looked-up.toml", "ticket-looked-up.toml"))
    typed = "prover_temperature = 63.5\nmeter_compressibility = 0.00000800\n"
    assert "prover_temperature = 63.5\n" in proving
    return proving, ticket, proving.replace("prover_temperature = 63.5\n", typed)


def in_parts(count, seed):
    """Jobs in thousandths of a pulse: by chance, at and beside exact halves of the indicated volume, the largest."""
    rng = random.Random(seed)
    yield from (jobtexts.in_parts(jobtexts.proving_text(job), rng) for job in jobtexts.days(count, seed))
    yield from jobtexts.pulse_halves()
    yield from (text for text in widest() if "99999999.999" in text)


def formulas(sheet):
    """The names and columns of all cells that hold a formula."""
    for key, row in sheet.places.items():
        for at, cell in enumerate(sheet.rows[row][FIRST_COLUMN:]):
            if str(cell).startswith("="):
                yield key, at


def made(folder, program):
    """Each job's sheet, written beside it, with what its cells must show."""
    sheets = []
    shutil.copy(ROOT / "examples" / "table-for-trying.csv", folder)
    for number, text in enumerate(texts()):
        path = Path(folder) / f"{number}.toml"
        path.write_text(text)
        job = jobs.read(str(path))
        worked = works.work(job, program)
        if not worked.has_figures:
            continue
        sheet, told = MAKERS[job.kind](worked, program)
        path.with_suffix(".csv").write_bytes(sheet.octets)
        sheets.append((f"{job.kind} {number}", path.with_suffix(".csv"), sheet, told))
    return sheets


def test():
    tally = Tally("worksheets")
    with tempfile.TemporaryDirectory() as folder, Program() as program:
        sheets = made(folder, program)
        results = office.recalculated([path for _, path, *_ in sheets], folder)
    for (name, _, sheet, told), rows in zip(sheets, results):
        for key, at in formulas(sheet):
            tally.same(sheet.found(rows, key, at), str(told[key, at]), f"{name}: {key}, column {at + 1}")
    counts = {kind: sum(name.startswith(kind) for name, *_ in sheets) for kind in MAKERS}
    tally.check(counts["prove"] >= 200, f"only {counts['prove']} proving jobs have a worksheet")
    least_of = {"first_trip": PAIRED, "prover_compressibility_line": 2, "compressibility_line": 1}
    having = sum("0.001 pulse" in row for _, _, sheet, _ in sheets for row in sheet.rows)
    tally.check(having >= IN_PARTS // 2 + 5, f"only {having} worksheets have thousandths of a pulse")
    for key, least in (BOILING | least_of).items():
        having = sum(key in sheet.places for _, _, sheet, _ in sheets)
        tally.check(having >= least, f"only {having} worksheets have a {key}")
    told = ", ".join(f"{count} {kind}" for kind, count in counts.items())
    tally.name = f"worksheets ({told} in LibreOffice)"
    return tally
