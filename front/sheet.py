"""A sheet of labelled rows with live formulas, written as CSV, or by workbook for Excel. Rows have names, for formulas
and tests to find them."""

import csv
import io
from typing import NamedTuple

from .page import origin

# The label, the unit of one and how it is worked stand before the figures.
FIRST_COLUMN = 3
# What a spreadsheet takes for a formula when a text begins with it.
FORMULA_SIGNS = ("=", "+", "-", "@", "\t", "\r")


def column(at):
    """A column's letters, from 0."""
    letters = ""
    at += 1
    while at:
        at, rest = divmod(at - 1, 26)
        letters = chr(ord("A") + rest) + letters
    return letters


def text(words):
    """A text that stays one: nothing out of a job file becomes a formula."""
    return f" {words}" if words.startswith(FORMULA_SIGNS) else words


class Step(NamedTuple):
    """A row of formulas: cells of the same column stand in braces, {cts}, settings behind a $, {$modulus}."""

    key: str
    label: str
    unit: str
    how: str
    formula: str


class Places(dict):
    """The cells that a step's formula names, for one column."""

    def __init__(self, sheet, at):
        self.sheet, self.at = sheet, at

    def __missing__(self, key):
        return self.sheet.fixed(key[1:]) if key.startswith("$") else self.sheet.cell(key, self.at)


class Sheet:
    def __init__(self, title, job):
        self.rows = []
        self.places = {}
        # The rows that are headings of parts, and the decimals of those that have any.
        self.headings, self.decimals = set(), {}
        self.title = f"{title}: {job.path}"
        self.origin = origin(job)
        about = "Figures are whole counts of the unit beside them; the last part has them with their points."
        self.rows += [[text(words)] for words in (self.title, self.origin, about)]

    def note(self, *words):
        """The heading of a part."""
        self.headings.add(len(self.rows))
        self.rows.append([text(word) for word in words])

    def row(self, key, label, unit, how, cells):
        """A named row; its cells stand under the columns of the runs."""
        self.places[key] = len(self.rows)
        self.rows.append([text(label), unit, text(how), *cells])

    def steps(self, steps, columns):
        """A row a step, with its formula in each column."""
        for step in steps:
            self.row(step.key, step.label, step.unit, step.how, [])
            self.rows[-1] += ["=" + step.formula.format_map(Places(self, at)) for at in range(columns)]

    def cell(self, key, at=0):
        """The place of a row's cell in a formula, for the same column in every row."""
        return f"{column(FIRST_COLUMN + at)}{self.places[key] + 1}"

    def fixed(self, key):
        """The place of a row's only cell."""
        return f"${column(FIRST_COLUMN)}${self.places[key] + 1}"

    def span(self, key, first, last):
        return f"{self.cell(key, first)}:{self.cell(key, last)}"

    def groups(self, key, count, size, limit, unit):
        """The repeatability test of every group in a row, a column each, under its first."""
        starts = range(count - size + 1)
        spans = [self.span(key, at, at + size - 1) for at in starts]
        self.row("largest", "Largest", unit, "of the group", [f"=MAX({span})" for span in spans])
        self.row("smallest", "Smallest", unit, "of the group", [f"=MIN({span})" for span in spans])
        test = (
            Step("spread", "Spread", "", "(largest - smallest) x 10,000", "({largest}-{smallest})*10000"),
            Step(
                "percent", "Spread of the smallest", "0.001 %", "(largest - smallest) / smallest, rounded",
                "ROUND(({largest}-{smallest})*100000/{smallest},0)",
            ),
            Step("allowed", "Allowed", "", "limit x smallest", limit + "*{smallest}"),
            Step("meets", "Meets the limit", "", "1 where spread <= allowed", "IF({spread}<={allowed},1,0)"),
        )
        self.steps(test, len(starts))
        self.row("mean", "Mean", unit, "of the group, rounded", [f"=ROUND(SUM({span})/{size},0)" for span in spans])

    def first_group(self, key, label):
        """The number of the first group that meets the limit."""
        meets = self.whole("meets")
        self.row("any", "Groups that meet the limit", "", "", [f"=SUM({meets})"])
        self.row(key, label, "", "the first group decides", [self.if_any(f"MATCH(1,{meets},0)")])
        self.first = key

    def of_first_group(self, key, label, unit, row):
        told = self.if_any(f"INDEX({self.whole(row)},{self.cell(self.first)})")
        self.row(key, label, unit, f"{row} of that group", [told])

    def if_any(self, formula):
        return f'=IF({self.cell("any")}=0,"none",{formula})'

    def agree(self, pairs):
        """Whether all pairs of rows have the same figures, each in its column."""
        same = ",".join(f"{self.cell(one, at)}={self.cell(other, at)}" for one, other, at in pairs)
        self.row("agree", "Digits agree", "", "", [f'=IF(AND({same}),"yes","no")'])

    def pointed(self, key, label, unit, places, columns):
        """A row's figures with their points put in."""
        cells = [self.cell(key, at) for at in columns]
        shown = [f'=IF(ISNUMBER({cell}),{cell}/{10**places},"none")' for cell in cells]
        self.row(f"read_{key}", label, unit, "", shown)
        self.decimals[self.places[f"read_{key}"]] = places

    def whole(self, key):
        """All cells of a row."""
        return self.span(key, 0, len(self.rows[self.places[key]]) - FIRST_COLUMN - 1)

    def found(self, rows, key, at=0):
        """A cell's content in the rows of a recalculated sheet."""
        return rows[self.places[key]][FIRST_COLUMN + at]

    @property
    def octets(self):
        """As CSV, with a byte order mark: without one some spreadsheets do not read ° and ³."""
        told = io.StringIO(newline="")
        csv.writer(told).writerows(self.rows)
        return told.getvalue().encode("utf-8-sig")
