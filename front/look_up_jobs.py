"""What [compressibility] of a job file says: the gravity and the table by which F is looked up where it is left out."""

from . import f_tables, fields
from .look_ups import LookUp, Sought

TABLE = "compressibility"
# The keys that may be left out, of a run and of a ticket.
LOOKED_UP = {"run": frozenset(f"{side}_{TABLE}" for side in fields.SIDES), "ticket": frozenset({TABLE})}
HOMES = dict.fromkeys(("gravity", "table"), f"in [{TABLE}]")


def is_in(top):
    """Whether a job file has that table; a key of that name above the tables is an F, which belongs elsewhere."""
    return isinstance(top.values.get(TABLE), (dict, list))


def tables(top):
    return [TABLE] if is_in(top) else []


def keys(top, noun):
    return LOOKED_UP[noun] if is_in(top) else frozenset()


def of_runs(top, runs):
    """For each side of each run by its own temperature."""
    if not is_in(top):
        return None
    own = top.table(TABLE)
    if "temperature" in own.values:
        own.bad("temperature", "is not said here: F is looked up by the temperature of its own side and run")
    keys = [(f"{side}_{TABLE}", f"{side}_temperature") for side in fields.SIDES]
    sought = [
        Sought(number, key, run.counts[temperature])
        for number, run in enumerate(runs, 1)
        for key, temperature in keys
        if run.counts[key] is None
    ]
    return look_up(own, sought, "run" if runs else "")


def of_ticket(top, counts):
    """By the temperature that is said there, since a ticket has no other."""
    if not is_in(top):
        return None
    own = top.table(TABLE)
    temperature = own.count(fields.TEMPERATURE)
    return look_up(own, [Sought(0, TABLE, temperature)] if counts[TABLE] is None else [], "ticket")


def look_up(own, sought, noun):
    own.only(["gravity", "table", "temperature"])
    if noun and not sought:
        own.bad("", f"looks nothing up, since every {noun} has its F: leave out the F that it is for")
    return LookUp(own.count(fields.GRAVITY), f_tables.named(own, "table"), tuple(sought))
