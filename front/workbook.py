"""A sheet as a workbook of Excel, by XlsxWriter: headings, widths, decimals as the paper has them, live formulas.

The library is Debian's python3-xlsxwriter or pip's XlsxWriter. It is of Python alone, so that Debian's serves a Python
that is not Debian's too, from where Debian keeps it."""

import importlib
import io
import re
import sys
from pathlib import Path
from typing import NamedTuple

from .outputs import NotWritten
from .sheet import FIRST_COLUMN
from .sheet import column as letters

DEBIAN = Path("/usr/lib/python3/dist-packages")
MISSING = (
    "needs the library XlsxWriter: apt-get install python3-xlsxwriter, or pip install XlsxWriter;"
    " a worksheet that ends in .csv needs none"
)
WIDTHS, FIGURES = (30, 12, 34), 13
HEADING = {"bold": True, "bg_color": "#E3ECF3", "bottom": 1}
COUNTS = "Counts"
# '0.0001 bbl' has four decimals and the unit bbl, '1 psi' none.
UNIT_OF_ONE = re.compile(r"(?:1|0\.(0*1))(?: (.+))?")
# Rows without a unit that people want to see.
PLAIN = ("out_pass", "back_pass", "any", "first_trip", "first", "told_first", "agree", "table")
PLAIN += ("prover_compressibility_line", "meter_compressibility_line", "compressibility_line")


def library():
    """The library's module, None where there is none."""
    try:
        return importlib.import_module("xlsxwriter")
    except ModuleNotFoundError:
        pass
    if not (DEBIAN / "xlsxwriter").is_dir():
        return None
    # Last and for this import alone: nothing else of Debian's Python is meant.
    sys.path.append(str(DEBIAN))
    try:
        return importlib.import_module("xlsxwriter")
    except ModuleNotFoundError:
        return None
    finally:
        sys.path.remove(str(DEBIAN))


def check(path):
    """Refuses an output that could not be written, before anything runs."""
    if not library():
        raise NotWritten(path, MISSING)


def octets(sheet):
    """The workbook's bytes: its figures as people read them, and the counts that they are worked from."""
    kept = io.BytesIO()
    book = library().Workbook(kept, {"in_memory": True})
    book.set_properties({"title": sheet.title, "comments": sheet.origin})
    looks = Looks(book)
    fill(book.add_worksheet("As read"), as_read(sheet), looks)
    rows = [Row(cells, at in sheet.headings, sheet.decimals.get(at, 0)) for at, cells in enumerate(sheet.rows)]
    fill(book.add_worksheet(COUNTS), rows, looks)
    book.close()
    return kept.getvalue()


class Row(NamedTuple):
    cells: list
    is_heading: bool = False
    decimals: int = 0


class Looks:
    """How cells look, each made once."""

    def __init__(self, book):
        self.book, self.figures = book, {}
        self.title = book.add_format({"bold": True, "font_size": 13})
        self.heading = book.add_format(HEADING)
        self.over_figures = book.add_format({**HEADING, "align": "right"})

    def figure(self, decimals):
        if decimals not in self.figures:
            shown = "#,##0" + ("." + "0" * decimals if decimals else "")
            self.figures[decimals] = self.book.add_format({"num_format": shown, "align": "right"})
        return self.figures[decimals]


def as_read(sheet):
    """The named rows of a sheet with their points, by formulas; parts of a product and tests are left to the counts."""
    told = "Figures with their points. What was read is changed on the sheet Counts, and all is worked again."
    rows, names = [Row(sheet.rows[0]), Row(sheet.rows[1]), Row([told])], {at: key for key, at in sheet.places.items()}
    for at, cells in enumerate(sheet.rows):
        if at in sheet.headings:
            if rows[-1].is_heading:
                rows.pop()
            rows.append(Row([cell.replace("Unit of one", "Unit") for cell in cells], True))
            continue
        key = names.get(at, "read_")
        unit = UNIT_OF_ONE.fullmatch(cells[1]) if not key.startswith("read_") else None
        if unit or key in PLAIN:
            decimals, name = (len(unit[1] or ""), unit[2] or "") if unit else (0, "")
            figures = [pointed(f"{COUNTS}!{letters(own)}{at + 1}", decimals) for own in range(FIRST_COLUMN, len(cells))]
            rows.append(Row([cells[0], name, cells[2], *figures], False, decimals))
    return rows[:-1] if rows[-1].is_heading else rows


def pointed(place, decimals):
    return f"=IF(ISNUMBER({place}),{place}/1{'0' * decimals},{place})"


def fill(page, rows, looks):
    for at, width in enumerate(WIDTHS):
        page.set_column(at, at, width)
    page.set_column(FIRST_COLUMN, FIRST_COLUMN + max(len(row.cells) for row in rows), FIGURES)
    page.freeze_panes(0, FIRST_COLUMN)
    page.set_landscape()
    page.fit_to_pages(1, 0)
    for at, row in enumerate(rows):
        for column, cell in enumerate(row.cells):
            is_figure = column >= FIRST_COLUMN
            look = looks.figure(row.decimals) if is_figure else None
            if row.is_heading:
                look = looks.over_figures if is_figure else looks.heading
            write(page, at, column, cell, look if at else looks.title)


def write(page, row, column, cell, look):
    if isinstance(cell, int):
        page.write_number(row, column, cell, look)
    elif column >= FIRST_COLUMN and cell.startswith("="):
        # Without a value of its own a formula is worked when the book is opened, by LibreOffice too.
        page.write_formula(row, column, cell, look, "")
    else:
        page.write_string(row, column, cell, look)
