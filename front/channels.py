"""What a transmitter sends for each place of a live reading: a plain single, or a channel tagged with its kind."""

from dataclasses import dataclass, replace

from . import fields
from .singles import ZERO, Single, single
from .tables import Table

# 02: 'a Fahrenheit temperature, a Celsius temperature or a pressure, each carrying its single'.
UNITS = {"fahrenheit": "°F", "celsius": "°C", "pressure": "psi"}
FAULT = fields.FAULT.key
KINDS = (*UNITS, FAULT)
# Where each kind belongs; in place of either there may be a fault code.
PLACES = {
    "fahrenheit": ("temperature",), "celsius": ("temperature",), "pressure": ("pressure",), FAULT: tuple(fields.LIVE),
}  # fmt: skip
# What a plain single of a place counts as beside a tagged channel.
PLAIN = {"temperature": "fahrenheit", "pressure": "pressure"}
EXPECTED = f"expected one of {', '.join(KINDS)}"


def written(kind):
    """How a kind stands in a file, in each of its places."""
    return " or ".join(f"{place} = {{ {kind} = .. }}" for place in PLACES[kind])


# Where a channel's key belongs, to be told where it stands outside of one; `pressure` is a place as well.
HOMES = {kind: f"in a channel: {written(kind)}" for kind in KINDS if kind not in fields.LIVE}


@dataclass(frozen=True)
class Sent:
    """A fault has a `code` and no `single`, every other kind the reverse. What is not `tagged` is plain in the file."""

    kind: str
    single: Single | None = None
    code: int | None = None
    tagged: bool = True

    @property
    def words(self):
        """KIND VALUE."""
        return self.kind, self.code if self.single is None else self.single.bits

    @property
    def text(self):
        """As pages and refusals tell it."""
        return f"{fields.FAULT.label} {self.code}" if self.single is None else self.single.text


def any_tagged(sent):
    return any(each.tagged for each in sent.values())


def line(sent):
    """The line that the program is asked: a reading of two plain singles has one of its own."""
    if not any_tagged(sent):
        return ("live", *(each.single.bits for each in sent.values()))
    return ("channels", *(word for each in sent.values() for word in each.words))


def beside_zero(sent):
    """The same temperature beside a pressure of 0, which is never refused."""
    zero = replace(sent["pressure"], kind="pressure", single=Single(ZERO, UNITS["pressure"]), code=None)
    return sent | {"pressure": zero}


def read(table):
    """What [live] says was sent for each place."""
    misplaced = table.file.misplaced
    # The place of a channel's key that stands outside it is not missing too.
    misplaced.update(place for kind in misplaced & HOMES.keys() for place in PLACES[kind])
    return {key: sent_for(table, field) for key, field in fields.LIVE.items()}


def sent_for(table, field):
    key = field.key
    if key not in table.values:
        table.lacks(key, f"the {field.label} in {field.unit.name}, or its bits in hex")
    elif isinstance(table.values[key], dict):
        return tagged(Table(table.file, f"{table.place}, {key}", table.values[key], (*table.path, key)))
    return Sent(PLAIN[key], single(table, key, field.unit.name), tagged=False)


def tagged(own):
    """A channel by its one key; a fault code goes on in the place of one that has none or several."""
    own.only(KINDS)
    kinds = [kind for kind in KINDS if kind in own.values]
    if kinds == [FAULT]:
        return Sent(FAULT, code=own.count(fields.FAULT))
    if len(kinds) == 1:
        [kind] = kinds
        return Sent(kind, single(own, kind, UNITS[kind]))
    if kinds or not own.values:
        # Keys that are no kinds have been told.
        own.bad("", f"{EXPECTED}, found {' and '.join(kinds) or 'none'}")
    return Sent(FAULT, code=fields.FAULT.low)
