"""A table of a job file: its keys and values taken exactly, every fault noted with its place."""

from .hints import echo, near, offer, shortened
from .toml_text import TOLD, Written
from .units import MOST_DIGITS, Inexact

MOST = int("9" * MOST_DIGITS)


class Table:
    """A table of the file with its place in words. A fault is noted, and what can be goes on in its place."""

    def __init__(self, file, place, values, path=()):
        self.file, self.place, self.path = file, place, path
        # Keys that are there under a name that nearly says them.
        self.slipped = set()
        # Keys that may not be left out, though a field has a default: those of a CSV's columns.
        self.needed = set()
        # Keys that are looked up where they are left out: until then they have no count.
        self.looked_up = frozenset()
        # A table that is not there lacks nothing more.
        self.whole = isinstance(values, dict)
        if not self.whole:
            if values is not None:
                self.bad("", f"expected a table, found {kind_of(values)}")
            values = {}
        self.values = values

    def bad(self, key, told, missing=False):
        place, here = ", ".join(word for word in (self.place, key) if word), (*self.path, key)
        line = self.file.places.get(here) or self.file.places.get(self.path, 0)
        self.file.fault(line, f"{echo(place)}: {told}" if place else told, key if missing else "")

    def only(self, known, homes=None):
        """No key but the known ones; one that belongs elsewhere is sent there, the nearest is offered."""
        for key in self.values:
            if key in known:
                continue
            if homes and key in homes:
                self.file.misplaced.add(key)
                here = f"in {self.place}" if self.place else "at the top of the file"
                self.bad(key, f"stands {here} and belongs {homes[key]}")
                continue
            elsewhere = [] if shortened(key, known) else shortened(key, homes or ())
            offered = elsewhere or near(key, known)
            self.slipped.update(offered)
            self.file.misplaced.update(elsewhere)
            belongs = f" It belongs {homes[elsewhere[0]]}" if elsewhere else ""
            self.bad(key, f"unknown key: {offer(offered, known)}{belongs}")

    def lacks(self, key, told):
        if self.whole and key not in self.slipped:
            self.bad(key, f"missing: expected {told}", missing=True)

    def table(self, key, needed=True):
        if key not in self.values and needed and self.whole and key not in self.slipped:
            self.bad("", f"the table [{key}] is missing")
        return Table(self.file, f"[{key}]", self.values.get(key, None if needed else {}), (*self.path, key))

    def tables(self, key, name):
        """An array of tables, [[key]], each placed by its name and number."""
        if key not in self.values:
            if key not in self.slipped:
                self.bad("", f"[[{key}]] is missing: expected one for each {name}")
            return []
        listed, path = self.values[key], (*self.path, key)
        if not isinstance(listed, list):
            self.bad(key, f"expected [[{key}]], one table for each {name}, found {kind_of(listed)}")
            return []
        return [Table(self.file, f"{name} {at}", values, (*path, at)) for at, values in enumerate(listed, 1)]

    def count(self, field, default=None):
        """A field's number in counts of its unit; its least where there is none to be had."""
        if default is None and field.key not in self.needed:
            default = field.default
        if field.key not in self.values:
            if default is None and field.key in self.looked_up:
                return None
            if default is None:
                self.lacks(field.key, f"the {field.label}, {field.range}")
            return field.low if default is None else default
        written = self.values[field.key]
        if written == TOLD:
            return field.low
        if isinstance(written, bool) or not isinstance(written, (int, str)):
            self.bad(field.key, f"expected a number ({field.unit.expected}), found {kind_of(written)}")
            return field.low
        if isinstance(written, int) and abs(written) > MOST:
            self.bad(field.key, f"has too many digits: expected {field.range}")
            return field.low
        try:
            count = field.unit.count(written)
        except Inexact as told:
            self.bad(field.key, str(told))
            return field.low
        if not field.fits(count):
            self.bad(field.key, f"{echo(field.text(count))} does not fit its place: expected {field.range}")
            return field.low
        return count

    def text(self, key):
        """A text in quotes, None where there is none."""
        value = self.values[key]
        if value == TOLD:
            return None
        if not isinstance(value, str) or isinstance(value, Written):
            self.bad(key, f"expected text in quotes, found {kind_of(value)}")
            return None
        return value

    def octets(self, key, length, expected=""):
        """Bytes written as hex digits, spaces allowed; zeros where there are none to be had."""
        written = self.text(key)
        if written is None:
            return bytes(length)
        try:
            octets = bytes.fromhex(written)
        except ValueError:
            self.bad(key, "expected hex digits, two a byte")
            return bytes(length)
        if len(octets) != length:
            self.bad(key, f"expected {expected or f'{length} bytes in hex'}, found {len(octets)}")
            return bytes(length)
        return octets


def kind_of(value):
    kinds = {dict: "a table", list: "a list", bool: "true or false", int: "a whole number", Written: "a number"}
    return kinds.get(type(value), "text" if isinstance(value, str) else "a date or time")
