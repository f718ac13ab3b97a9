"""In which form the runs of a job go to the program: all of them in the short one where every count is whole and no
record is long, else all in the long one."""

from .fields import PULSE
from .records import LONG, SHORT
from .units import Inexact


def of(tables):
    """The form of a job whose runs, and what they share, are these tables."""
    return SHORT if all(is_short(table.values) for table in tables) else LONG


def is_short(values):
    """Whether the short form holds a table's pulses; what is no number of them is told by the form that takes more."""
    if "record" in values:
        return not is_long(values["record"])
    written = values.get("pulses", 0)
    if isinstance(written, bool) or not isinstance(written, (int, str)):
        return False
    try:
        PULSE.count(written)
    except Inexact:
        return False
    return True


def is_long(record):
    """Whether a record in hex digits has the length of a long one."""
    try:
        return isinstance(record, str) and len(bytes.fromhex(record)) == LONG.layout.length
    except ValueError:
        return False
