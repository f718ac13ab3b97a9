"""A CSV as people and flow computers write it: a line of headings, then a table a line. A heading is a key in any case,
with spaces for underscores, and may have its unit behind it."""

import csv
import io
import re

from .badfile import BadFile
from .hints import echo, near, offer
from .jobfiles import File, octets_of
from .tables import Table
from .units import is_unit, split

SEPARATORS = ",;\t"
# A remark, and what a spreadsheet that saves one puts around it.
REMARK, AROUND = "#", f'{SEPARATORS} "'
# A heading's unit: 'Prover temperature (°F)'.
UNIT = re.compile(r"\s*[(\[]([^)\]]*)[)\]]\s*$")


def named(own, key, what):
    """The CSV that a key of a job file's table names, beside that file; None where there is none to be had."""
    if key not in own.values:
        own.lacks(key, f"the name of {what}")
        return None
    name = own.text(key)
    if name is None:
        return None
    path = own.file.folder / name
    try:
        file = File(path, octets_of(path), what)
    except BadFile as bad:
        own.bad(key, f"{echo(name)} {bad.words}")
        return None
    own.file.named[str(path)] = file.octets
    file.faults = own.file.faults
    return file


def folded(heading):
    return re.sub(r"[\s_]+", " ", heading).strip().casefold()


def remark_of(line):
    """What a line says that is a remark; None of any other."""
    said = line.strip(AROUND)
    return said.lstrip(f"{REMARK} ") if said.startswith(REMARK) else None


def without_remarks(lines):
    """The lines with none where a remark stands, so that the others keep their numbers; and how many come first."""
    kept = [line if remark_of(line) is None else "" for line in lines]
    return kept, next((at for at, line in enumerate(kept) if line.strip()), len(kept))


def tables(file, name, headings, left_out=(), whole=()):
    """A table each line. `whole` are the keys that each of them must have; such a file may have lines of remarks."""
    file.places = {}
    lines, above = without_remarks(file.lines) if whole else (file.lines, 0)
    if above == len(lines):
        return file.fault(0, f"holds no line of headings: expected {', '.join(whole)}")
    separator = max(SEPARATORS, key=lines[above].count)
    rows = csv.reader(io.StringIO("\n".join(lines[above:])), delimiter=separator, strict=True)
    columns, missing, number = None, set(), 0
    while True:
        line = above + rows.line_num + 1
        try:
            row = next(rows, None)
        except csv.Error as fault:
            return file.fault(line, f"is not CSV: {fault}")
        if row is None:
            return None
        if columns is None:
            told = len(file.faults)
            columns = columns_of(file, line, row, headings, left_out)
            missing = set(whole).difference(key for key, _ in columns)
            # A heading that is unknown, or stands there twice, stands for one that is missing, and is told already.
            for key in whole if len(file.faults) == told else ():
                if key in missing:
                    file.fault(line, f"{key}: missing: expected a column under this heading")
        elif any(cell.strip() for cell in row):
            number += 1
            file.places[(number,)] = line
            if len(row) > len(columns):
                file.fault(line, f"{name} {number}: has {len(row)} cells, and there are {len(columns)} headings")
            table = Table(file, f"{name} {number}", values_of(row, columns), (number,))
            table.needed = {own for own, _ in columns}
            table.slipped |= missing
            yield table


def columns_of(file, line, row, headings, left_out):
    """The key and unit of each column; None for one that is left out."""
    columns, seen, known = [], set(), list(headings.values())
    for heading in row:
        name = UNIT.sub("", heading)
        key = headings.get(folded(heading)) or headings.get(folded(name))
        if heading.strip() in left_out or not heading.strip():
            key = None
        elif key is None:
            file.fault(line, f"{echo(heading)}: unknown heading: {offer(near(name, known), known)}")
        elif key in seen:
            file.fault(line, f"{echo(heading)}: stands there twice: expected once")
        seen.add(key)
        columns.append((key, unit_of(heading, folded(heading) in headings)))
    return columns


def unit_of(heading, said):
    """The unit behind a heading, (°F), which its column is then held against. Where the job file says the heading
    itself, it may hold other words in brackets."""
    match = UNIT.search(heading)
    return match[1] if match and (not said or is_unit(match[1])) else ""


def values_of(row, columns):
    """The cells that hold something; a bare number has the unit that its heading names."""
    return {key: with_unit(cell.strip(), unit) for cell, (key, unit) in zip(row, columns) if key and cell.strip()}


def with_unit(cell, unit):
    return cell if split(cell)[1] else f"{cell} {unit}".strip()
