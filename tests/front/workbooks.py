"""Workbooks opened with LibreOffice: every formula comes to the line program's figure, and is shown with the decimals
of its unit; without the library the message says how to get it."""

import re
import shutil
import tempfile
import zipfile
from pathlib import Path

import debian
import jobtexts
import office
from harness import ROOT, Tally, called
from reports import widest
from worksheets import MAKERS, formulas, in_parts, looked_up

from front import jobs, workbook
from front import worked as works
from front.program import Program
from front.sheet import FIRST_COLUMN
from front.units import shown

DAYS, DRAWS, PAIRED, TICKETS = 30, 6, 6, 8
EXAMPLES = ROOT / "examples"
PLACES = {"": 0, "1": 0, "0.1": 1, "0.01": 2, "0.001": 3, "0.0001": 4, "0.000001": 6, "0.0000001": 7, "0.00000001": 8}
# Rows without a unit.
PLAIN = {"out_pass", "back_pass", "any", "first_trip", "first", "told_first", "agree", "table"}
PLAIN |= {"prover_compressibility_line", "meter_compressibility_line", "compressibility_line"}


def texts():
    yield from map(jobtexts.proving_text, jobtexts.days(DAYS, 31))
    yield from map(jobtexts.draw_text, jobtexts.draws(DRAWS, 32))
    yield from map(jobtexts.paired_text, jobtexts.paired_draws(PAIRED, 34))
    yield from map(jobtexts.ticket_text, jobtexts.tickets(TICKETS, 33))
    yield from widest()
    yield from looked_up()
    yield from in_parts(3, 35)
    for name in ("prove-09-runs-drift", "bidirectional-09-trips-drift"):
        yield (EXAMPLES / "refusals" / f"{name}.toml").read_text()


def made(folder, program):
    books = []
    shutil.copy(EXAMPLES / "table-for-trying.csv", folder)
    for number, text in enumerate(texts()):
        path = Path(folder) / f"book{number}.toml"
        path.write_text(text)
        worked = works.work(jobs.read(str(path)), program)
        if worked.has_figures:
            sheet, told = MAKERS[worked.job.kind](worked, program)
            path.with_suffix(".xlsx").write_bytes(workbook.octets(sheet))
            books.append((path.with_suffix(".xlsx"), sheet, told, worked.job.digest))
    return books


def as_read(sheet, told):
    """What people must see: each row that has a unit, its figures with as many decimals as the unit has, and those
    without one that are no part of a product or of a test."""
    for key, row in sheet.places.items():
        label, unit, _, *cells = sheet.rows[row]
        if key.startswith("read_") or not unit and key not in PLAIN:
            continue
        number, _, name = unit.partition(" ")
        counts = [told[key, at] if str(cell).startswith("=") else cell for at, cell in enumerate(cells)]
        yield [label, name, *(each if isinstance(each, str) else shown(each, PLACES[number]) for each in counts)]


def without_library(tally, folder):
    kept, workbook.library = workbook.library, lambda: None
    try:
        out, csv = folder / "none.xlsx", folder / "none.csv"
        status, page, err = called("prove", EXAMPLES / "figure-5.toml", "--worksheet", out)
        tally.same((status, page), (3, ""), "without the library")
        expected = f"{out}: cannot be written: needs the library XlsxWriter: apt-get install python3-xlsxwriter"
        tally.holds(err, expected, "without the library")
        tally.check(not out.exists(), "without the library something is written")
        tally.same(called("prove", EXAMPLES / "figure-5.toml", "--worksheet", csv)[0], 0, "CSV without the library")
    finally:
        workbook.library = kept


def looks(tally, path):
    """What the file itself says of widths and formats."""
    with zipfile.ZipFile(path) as parts:
        sheet, styles = (parts.read(f"xl/{name}.xml").decode() for name in ("worksheets/sheet1", "styles"))
    tally.check(len(re.findall(r"<col ", sheet)) >= 4, "widths of columns")
    tally.holds(styles, "#,##0.0000", "decimals")
    tally.holds(styles, "<b/>", "bold headings")
    tally.holds(sheet, "<f>", "live formulas")


def test():
    tally = Tally("workbooks in LibreOffice")
    debian.install("xlsxwriter")
    with tempfile.TemporaryDirectory() as folder, Program() as program:
        books = made(folder, program)
        paths = [path for path, *_ in books]
        exact, seen = (office.sheets_of(paths, folder, shown) for shown in (False, True))
        for (path, sheet, told, digest), counts, read in zip(books, exact, seen):
            for key, at in formulas(sheet):
                found = sheet.found(counts["Counts"], key, at)
                tally.same(found, str(told[key, at]), f"{path.name}: {key}, column {at + 1}")
            rows = read["As read"]
            figures = [[*row[:2], *filter(None, row[FIRST_COLUMN:])] for row in rows]
            for expected in as_read(sheet, told):
                tally.check(expected in figures, f"{path.name}: no row {expected} as read")
            tally.holds(rows[1][0], f"{digest}, worked by Endakuro", f"{path.name}: origin")
            tally.check(["Digits agree", "", "yes"] in figures, f"{path.name}: digits agree")
        looks(tally, paths[0])
        without_library(tally, Path(folder))
        for name in ("prove figure-5", "draw water-draw", "draw bidirectional-draw", "ticket ticket"):
            kind, example = name.split()
            out = Path(folder) / f"{example}.xlsx"
            tally.same(called(kind, EXAMPLES / f"{example}.toml", "--worksheet", out)[0], 0, name)
            tally.check(zipfile.is_zipfile(out), f"{name}: no workbook")
    return tally
