"""The runs or fills of a job file: a table each, what all of them share, and the record that each comes to."""

from . import entry_files
from .kinds import Entry

# Far more than any job may have; a line of the program holds them, so that the program refuses the job itself.
MOST_ENTRIES = 4096


def tables_of(top, key, known, homes):
    """What all runs or fills share, and a table for each."""
    shared = top.table(f"every_{key}", needed=False)
    shared.only(known, homes)
    listed = entry_files.tables(top, key, known) if f"{key}s" in top.values else top.tables(key, key)
    if len(listed) > MOST_ENTRIES:
        top.bad(key, f"{len(listed)} are more than a line of the program holds: expected at most {MOST_ENTRIES}")
        listed = []
    for table in listed:
        table.slipped |= shared.slipped
        table.only([*known, "record"], homes)
    return shared, listed


def entries_of(shared, listed, layout, in_hex=""):
    """The runs or fills; [every_run] holds what each has unless it says otherwise itself."""
    common = {name: shared.count(each) for name, each in layout.fields.items() if name in shared.values}
    return [entry_of(table, common, layout, in_hex) for table in listed]


def entry_of(table, common, layout, in_hex):
    if "record" in table.values:
        if len(table.values) > 1:
            table.bad("record", "expected alone: a record holds every field")
        record = table.octets("record", layout.length, in_hex)
        return Entry(layout.unpack(record), record)
    counts = {name: table.count(each, common.get(name)) for name, each in layout.fields.items()}
    return Entry(counts, layout.pack(counts))
