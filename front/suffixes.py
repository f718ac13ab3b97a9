"""What an output is by the end of its name: one that is not ours would be opened by another program than it is for."""

from pathlib import Path

from . import workbook
from .badfile import BadFile
from .outputs import STANDARD, is_special

WORKBOOK = ".xlsx"
KNOWN = {"--worksheet": (".csv", WORKBOOK), "--plot": (".svg",), "--html": (".html", ".htm")}


def of(path):
    return Path(path).suffix.lower()


def check(places):
    """Refuses, as a bad command, an output whose name ends otherwise; outputs stand under their options."""
    for option, path in places.items():
        if option not in KNOWN or path in (None, STANDARD) or is_special(path):
            continue
        if of(path) not in KNOWN[option]:
            found = f"ends in {of(path)}" if of(path) else "has no ending"
            raise BadFile(path, option, f"{found}: expected {' or '.join(KNOWN[option])}")
        if of(path) == WORKBOOK:
            workbook.check(path)
