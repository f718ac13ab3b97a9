"""The numbers that a command line asks about, and the table that it names: taken exactly, all faults told at once."""

from . import f_tables
from .fields import ASKED
from .jobfiles import File
from .tables import Table

# How the command line is called in words.
COMMAND_LINE = "command line"


def read(path, *words):
    """The table, and the counts of what is asked of it."""
    line = File(COMMAND_LINE, b"")
    line.places = {}
    given = Table(line, "", dict(zip(ASKED, words)))
    asked = {key: given.count(field) for key, field in ASKED.items()}
    table = f_tables.read(path, line)
    line.finish()
    return table, asked
