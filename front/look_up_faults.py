"""Why a look-up is refused, in words: the line of the table that is at fault, or what was asked. The line program has
judged; nothing is rounded to a half degree here."""

from . import field_faults
from .fields import ASKED, ENTRIES, ENTRY
from .look_ups import NO_SUCH_PAIR
from .refusals import Detail, Explained
from .units import shown

# What was asked is out of range: nothing of the table is at fault.
OF_ASKED = 13
# The last digit of tenths that lie on a half degree.
ON_A_HALF = ("0", "5")
# How entries rise: by gravity, then by temperature.
ORDER = ("gravity", "temperature")


def explain(table, asked, refusal):
    """The refusal of the look-up that a command asks for."""
    return Explained(refusal.number, refusal.record, (*about(table, asked, refusal), *span(table, refusal)))


def of_job(missed):
    """The same of a job's look-ups, each with the run and the side that it is for."""
    own, found = missed.job.look_up, []
    for each in missed.sought:
        before = f"{each.name}: " if missed.number == OF_ASKED else f"{each.name}: {own.table.name}: "
        asked = {"temperature": each.temperature, "gravity": own.gravity}
        found += [detail.placed(before, run=each.run) for detail in about(own.table, asked, missed)]
    return found + span(own.table, missed)


def about(table, asked, refusal):
    match refusal.number:
        case 1:
            return field_faults.of_count("entries", len(table.entries), ENTRIES)
        case 32:
            return of_entry(table, refusal.record)
        case 33:
            told = " and ".join(field.text(asked[key]) for key, field in ASKED.items())
            return [Detail(f"no entry lies within a quarter of a degree of {told}", "F")]
    return field_faults.out_of_range(asked, ASKED)


def span(table, refusal):
    """Between which ends the entries lie, for whoever misses one."""
    if refusal.number != NO_SUCH_PAIR:
        return []
    listed = {key: [entry[key] for entry in table.entries] for key in ASKED}
    told = [f"{shown(min(listed[key]), 1)} to {field.text(max(listed[key]))}" for key, field in ASKED.items()]
    return [f"entries of the table: {len(table.entries):,}, of {' and '.join(told)}"]


def of_entry(table, record):
    """Every rule that an entry breaks."""
    own, line = table.entries[record - 1], table.lines[record - 1]
    found = field_faults.out_of_range(own, ENTRY)
    for key, field in ASKED.items():
        if not shown(own[key], field.unit.places).endswith(ON_A_HALF):
            words = f"{field.label} is {field.text(own[key])}, not on a half degree"
            found.append(Detail(words, key, own[key], unit=field.unit))
    if record > 1:
        found += of_order(table, record - 1)
    return [each.placed(f"line {line}: ", line) for each in found]


def of_order(table, at):
    """An entry, by its place from 0, that does not come after the one before it: the same pair again, or one that
    belongs further up."""
    pairs = [tuple(entry[key] for key in ORDER) for entry in table.entries[: at + 1]]
    if pairs[at - 1] < pairs[at]:
        return []
    own, before = (" at ".join(ASKED[key].text(count) for key, count in zip(ORDER, pairs[of])) for of in (at, at - 1))
    first = pairs.index(pairs[at])
    words = f"{own} is out of order after line {table.lines[at - 1]}, {before}"
    if first == at - 1:
        words = f"{own} is the pair of line {table.lines[first]} again"
    elif first < at:
        words += f", and is the pair of line {table.lines[first]} again"
    return [Detail(words, " and ".join(ORDER))]
