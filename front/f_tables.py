"""A table of compressibilities F as a person types it from the printed pages of API MPMS 11.2.1: a CSV with an entry a
line under the headings temperature, gravity and F, and lines of remarks, which begin with #."""

from dataclasses import dataclass
from functools import cached_property
from hashlib import sha256

from . import csv_lines
from .fields import ASKED, ENTRIES, ENTRY, NUMBER, PER_PSI, PRINTED
from .hints import echo
from .jobfiles import File, octets_of
from .records import ENTRY_LAYOUT
from .units import Inexact, shown

HEADINGS = {csv_lines.folded(key): key for key in ENTRY}
WHAT = "a CSV with an entry a line"
# Far more than a table may have; a line of the program holds them, so that the program refuses the table itself.
MOST_ENTRIES = 32_000
# Ways in which F is written where the printed table has it otherwise.
OTHERWISE = {PER_PSI: "F per psi", NUMBER: "F without its point"}


@dataclass(frozen=True)
class FTable:
    """A table as it is lent: the counts of each entry, and its line in the file. `remark` is the file's first line."""

    name: str
    digest: str
    remark: str
    entries: list
    lines: list

    @cached_property
    def records(self):
        return b"".join(ENTRY_LAYOUT.pack(entry) for entry in self.entries)

    @cached_property
    def places(self):
        """The line of each pair of temperature and gravity."""
        return {tuple(entry[key] for key in ASKED): line for entry, line in zip(self.entries, self.lines)}


def read(path, top):
    """The table of a file that a command names; its faults are told with those of `top`, what else the command says."""
    file = File(path, octets_of(path), WHAT)
    file.faults = top.faults
    return of_file(file, file.path)


def named(own, key):
    """The table that a key of a job file names, beside it; None where there is none to be had."""
    file = csv_lines.named(own, key, WHAT)
    return file and of_file(file, echo(own.text(key)))


def of_file(file, name):
    listed = list(csv_lines.tables(file, "entry", HEADINGS, whole=tuple(ENTRY)))
    if len(listed) > MOST_ENTRIES:
        few, many = ENTRIES
        told = f"has {len(listed):,} entries, more than a line of the program holds"
        file.fault(0, f"{told}: expected {few} to {many:,}")
        listed = []
    entries = [{key: table.count(field) for key, field in ASKED.items()} | {"F": f_of(table)} for table in listed]
    lines = [file.places[table.path] for table in listed]
    remark = echo(csv_lines.remark_of(file.lines[0]) or "")
    return FTable(name, sha256(file.octets).hexdigest(), remark, entries, lines)


def f_of(table):
    """F as the printed table has it; of one that is written otherwise it is told how it stands there."""
    field, written = ENTRY["F"], table.values.get("F", "")
    if not holds(field.fits, PRINTED, written):
        for unit, said in OTHERWISE.items():
            if holds(field.within, unit, written):
                meant = shown(unit.count(written), PRINTED.places)
                table.bad("F", f"{echo(written)} is {said}: write {meant}, as the printed table has it")
                return field.low
    return table.count(field)


def holds(judge, unit, written):
    """Whether what is written is a number of that unit, and its count is one that is meant."""
    try:
        return judge(unit.count(written))
    except Inexact:
        return False
