"""A page as blocks, and its blocks as plain text of at most WIDTH columns; html_page sets the same blocks for print."""

import textwrap
from dataclasses import dataclass
from typing import NamedTuple

from . import version
from .fields import HEADING, heading_label

NAMES = 26
WIDTH = 100
INDENT = "   "
# What Figures 5 and 6 of API MPMS 12.2 leave room for, filled in by hand where the job file does not say it.
BY_HAND = ("report", "company", "station", "meter", "batch", "date", "operator")
LINE = 24


class Section(NamedTuple):
    words: str


class Pairs(NamedTuple):
    """Names and values; short ones stand two a line in print, unless each is to stand `alone`."""

    rows: list
    alone: bool = False


class Grid(NamedTuple):
    """A group is its name and its columns, each (name, unit); rows hold a cell a column, as does the foot."""

    groups: list
    rows: list
    foot: list = ()


class Notes(NamedTuple):
    lines: list


class Octets(NamedTuple):
    """Bytes in hex."""

    text: str


class Blanks(NamedTuple):
    """Names with a line each, to be filled in by hand."""

    names: list


class Signatures(NamedTuple):
    done: str


@dataclass(frozen=True)
class Page:
    """`verdict` stands in the head of a job that was not accepted: its number in words, then what it is about."""

    title: str
    right: str
    blocks: list
    verdict: tuple = ()

    @property
    def words_of_verdict(self):
        return f"NOT ACCEPTED: {self.verdict[0]}" if self.verdict else ""


def origin(job):
    """What everything that is made of a job carries in one line."""
    return f"SHA-256 of the job file {job.digest}, worked by {version.NAME}"


def heading(job, by_hand=BY_HAND):
    """Which job this is, what its file says of it, and room for what it does not."""
    told = [("Job file", job.path), ("SHA-256 of the job file", job.digest), ("Worked by", version.NAME)]
    told += [(heading_label(key), words) for key, words in job.heading.items()]
    blanks = [HEADING[key] for key in by_hand if key not in job.heading]
    return [Pairs(told), *([Blanks(blanks)] if blanks else [])]


def verdict(refusal, nearest=()):
    """A refusal as a page's head has it; `nearest` tells how near its records came."""
    return (refusal.headline, *refusal.details, *nearest) if refusal else ()


def text(page):
    """The page's lines."""
    head = [page.title + page.right.rjust(WIDTH - len(page.title)), "=" * WIDTH]
    if page.verdict:
        about = [line for words in page.verdict[1:] for line in wrapped(words)]
        head += [page.words_of_verdict, *about, "=" * WIDTH]
    return head + [line for block in page.blocks for line in RENDERERS[type(block)](block)]


def wrapped(words, indent=INDENT):
    """A text within the width; a word that is longer than a line is cut."""
    return textwrap.wrap(words, WIDTH, initial_indent=indent, subsequent_indent=INDENT) or [indent.rstrip()]


def section(block):
    return ["", block.words]


def pairs(block):
    lines = []
    for name, value in block.rows:
        first = f"{INDENT}{name.ljust(NAMES)}"
        below = " " * len(INDENT.ljust(NAMES + len(INDENT)))
        lines += textwrap.wrap(value, WIDTH, initial_indent=first, subsequent_indent=below) or [first.rstrip()]
    return lines


def grid(block):
    columns = [column for _, own in block.groups for column in own]
    cells = [[name for name, _ in columns], [unit for _, unit in columns], *block.rows]
    cells += [block.foot] if block.foot else []
    widths = [max(len(row[at]) for row in cells) for at in range(len(columns))]
    starts = [sum(len(own) for _, own in block.groups[:at]) for at in range(len(block.groups))]
    for start, (name, own) in zip(starts, block.groups):
        # A group is at least as wide as its name.
        widths[start] += max(0, len(name) - sum(widths[start : start + len(own)]) - len(own) + 1)
    spans = [
        name.center(sum(widths[at : at + len(own)]) + len(own) - 1) for at, (name, own) in zip(starts, block.groups)
    ]
    # The widest figures of all leave no room beside the bars.
    bar, crossing = (" | ", "-+-") if len(INDENT + " | ".join(spans)) <= WIDTH else ("|", "+")

    def line(row):
        set_right = [cell.rjust(width) for cell, width in zip(row, widths)]
        parts = [" ".join(set_right[at : at + len(own)]) for at, (_, own) in zip(starts, block.groups)]
        return (INDENT + bar.join(parts)).rstrip()

    over = [(INDENT + bar.join(spans)).rstrip()] if any(name for name, _ in block.groups) else []
    rule = [INDENT + crossing.join("-" * len(span) for span in spans)]
    foot = [*rule, line(block.foot)] if block.foot else []
    return over + [line(row) for row in cells[:2]] + rule + [line(row) for row in block.rows] + foot


def notes(block):
    return [line for words in block.lines for line in wrapped(words)]


def octets(block):
    return wrapped(block.text)


def blanks(block):
    """Two a line."""
    told = [f"{name.ljust(14)}{'_' * LINE}" for name in block.names]
    return [INDENT + "    ".join(told[at : at + 2]) for at in range(0, len(told), 2)]


def signatures(block):
    done = f"{block.done} by {'_' * LINE}   Witnessed by {'_' * LINE}   Date {'_' * 14}"
    return ["", "", INDENT + done]


RENDERERS = {
    Section: section, Pairs: pairs, Grid: grid, Notes: notes, Octets: octets, Blanks: blanks, Signatures: signatures,
}  # fmt: skip
