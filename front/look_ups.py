"""Compressibilities that are looked up: what is sought, the entry that the line program finds, a job with all that it
leaves to its table. The program goes to the nearest half degree; nothing is rounded here."""

from dataclasses import dataclass, field, replace
from typing import NamedTuple

from .f_tables import FTable
from .fields import TEMPERATURE
from .program import Refusal, Refused, hexed

NO_SUCH_PAIR = 33


class Sought(NamedTuple):
    """An F that a job leaves out: of which run, 0 on a ticket, under which key, and the temperature there."""

    run: int
    key: str
    temperature: int

    @property
    def name(self):
        """How it is called in words."""
        return f"run {self.run}, {self.key.split('_')[0]} F" if self.run else "F"


class Found(NamedTuple):
    """An entry, and its line in the table's file."""

    temperature: int
    gravity: int
    compressibility: int
    line: int


@dataclass(frozen=True)
class LookUp:
    """What [compressibility] says and which F are sought by it; `found` has the entry of each temperature asked."""

    gravity: int
    table: FTable
    sought: tuple
    found: dict = field(default_factory=dict)

    def counts(self, run):
        """What was found for a run, or for the ticket, by its keys."""
        own = [each for each in self.sought if each.run == run and each.temperature in self.found]
        return {each.key: self.found[each.temperature].compressibility for each in own}


@dataclass(frozen=True)
class Missed(Refusal):
    """Look-ups of a job that were refused: one, or all for which there is no such pair. `job` has what was found."""

    job: object
    sought: tuple


def find(table, temperature, gravity, program):
    """The table's entry for these two, or its refusal raised."""
    *pair, count = program.numbers("look_up", temperature, gravity, hexed(table.records))
    return Found(*pair, count, table.places[tuple(pair)])


def filled(job, program):
    """The job with every F that it leaves to its table. A run's temperature that is out of range is not looked up: the
    job is refused for it by its own number, whatever F is."""
    own = getattr(job, "look_up", None)
    if own is None:
        return job
    found, missed, refusal = dict(own.found), {}, None
    for each in own.sought:
        asked = each.temperature
        if asked in found or asked in missed or each.run and not TEMPERATURE.within(asked):
            continue
        try:
            found[asked] = find(own.table, asked, own.gravity, program)
        except Refused as refused:
            missed[asked], refusal = each, refused.refusal
            if refusal.number != NO_SUCH_PAIR:
                # It is about the table or the gravity: the others would be refused by the same.
                break
    filled_in = job.with_found(replace(own, found=found))
    if refusal:
        raise Refused(Missed(refusal.number, refusal.record, filled_in, tuple(missed.values())))
    return filled_in
