"""What was looked up, as pages and worksheets show it: the page of a look-up, and what a job's page and worksheet say
of where each F comes from."""

from itertools import zip_longest

from . import page, version
from .fields import ASKED, GRAVITY, PER_PSI, PRINTED, SIDES, TEMPERATURE
from .page import Grid, Page, Pairs, Section
from .units import shown

RIGHT = "API MPMS 11.2.1, nearest 0.5 °F and 0.5 °API"
LOOKED_UP = "F looked up"
COLUMNS = [("T", "°F"), ("entry", "°F"), ("F", "per psi"), ("line", "")]
NONE = [""] * len(COLUMNS)
EVERY = "every run"


def table_rows(table, *beside):
    """Which table it is, and what it says of itself in its first line; `beside` stands next to its name in print."""
    told = [("Compressibility table", table.name), *beside, ("SHA-256 of the table", table.digest)]
    return told + ([("Table says", table.remark)] if table.remark else [])


def build(table, asked, found, refusal=None):
    """The page of a look-up."""
    blocks = [Pairs(table_rows(table, ("Worked by", version.NAME))), Section("ASKED"), numbers(asked)]
    if found:
        blocks += [Section("FOUND"), numbers(found._asdict()), Pairs(entry_rows(found), alone=True)]
    return Page("COMPRESSIBILITY LOOK-UP", RIGHT, blocks, page.verdict(refusal))


def numbers(counts):
    labels = {TEMPERATURE.key: "Temperature", GRAVITY.key: GRAVITY.label}
    return Pairs([(labels[key], field.text(counts[key])) for key, field in ASKED.items()])


def entry_rows(found):
    printed = shown(found.compressibility, PRINTED.places)
    told = f"{PER_PSI.text(found.compressibility)}, printed as {printed} / 100,000"
    return [("Compressibility F", told), ("Entry", f"line {found.line} of the table")]


def of_job(look_up):
    """The table and the gravity by which a job looks F up, and the temperature on a ticket, with the entry found."""
    told = f"{GRAVITY.text(look_up.gravity)} at 60 °F"
    # There is one gravity, and so all entries have the same.
    found = [f", found at {GRAVITY.text(entry.gravity)}" for entry in look_up.found.values()][:1]
    rows = table_rows(look_up.table, ("API gravity", "".join([told, *found])))
    for each in (each for each in look_up.sought if not each.run):
        entry = look_up.found.get(each.temperature)
        found = f", found at {TEMPERATURE.text(entry.temperature)}, line {entry.line} of the table" if entry else ""
        rows.append(("Temperature", TEMPERATURE.text(each.temperature) + found))
    return rows


def entries(job):
    """The entries that a proving finds, each with the temperatures that led to it; two in a line where they would take
    more lines than the runs, beside which they stand in print."""
    asked = {}
    for temperature, entry in sorted(job.look_up.found.items()):
        asked.setdefault(entry, []).append(shown(temperature, 1))
    cells = [
        [spanned(own), shown(entry.temperature, 1), shown(entry.compressibility, PER_PSI.places), str(entry.line)]
        for entry, own in asked.items()
    ]
    if len(cells) <= len(job.runs):
        return Grid([(LOOKED_UP, COLUMNS)], cells)
    rows = [one + other for one, other in zip_longest(cells[::2], cells[1::2], fillvalue=NONE)]
    return Grid([(LOOKED_UP, COLUMNS), ("", COLUMNS)], rows)


def spanned(rising):
    return str(rising[0]) if len(rising) == 1 else f"{rising[0]} to {rising[-1]}"


def source(job):
    """Which F of a proving's runs are looked up, in words."""
    told = "F is looked up by T and the gravity"
    runs = {side: runs_with(job, f"{side}_compressibility") for side in SIDES}
    if set(runs.values()) == {EVERY}:
        return f"{told}."
    some = " and ".join(f"at the {side} of {own}" for side, own in runs.items() if own)
    return f"{told} {some}; every other F is given."


def runs_with(job, key):
    """The runs in which the F under a key is looked up, in words; none where it is given in all."""
    listed = [each.run for each in job.look_up.sought if each.key == key]
    if listed in ([], [0]) or len(listed) == len(job.runs):
        return EVERY if listed else ""
    return f"run {listed[0]}" if len(listed) == 1 else f"runs {in_words(listed)}"


def in_words(listed):
    """Numbers that rise: 1 to 3, 5."""
    spans = []
    for number in listed:
        if not spans or spans[-1][-1] != number - 1:
            spans.append([])
        spans[-1].append(number)
    return ", ".join(spanned(own) for own in spans)


def how(job, key):
    """How a worksheet says that a figure came to be there."""
    runs = runs_with(job, key) if job.look_up else ""
    return {"": "read", EVERY: "looked up"}.get(runs, f"looked up in {runs}, else read")


def on_sheet(sheet, job, records):
    """The rows of a worksheet that say where F was looked up: by which gravity, in which table, in which line of it."""
    own = job.look_up
    if not own:
        return
    sheet.row("gravity", "API gravity", GRAVITY.unit.step, "by which F is looked up", [own.gravity])
    for each in (each for each in own.sought if not each.run):
        sheet.row("temperature", "temperature", TEMPERATURE.unit.step, "by which F is looked up", [each.temperature])
    sheet.row("table", "compressibility table", "", f"{own.table.name}, SHA-256 {own.table.digest}", [])
    for key in dict.fromkeys(each.key for each in own.sought):
        lines = {each.run: own.found[each.temperature].line for each in own.sought if each.key == key}
        label = f"{key.removesuffix('compressibility').replace('_', ' ')}F's line in the table"
        sheet.row(f"{key}_line", label, "", "", [lines.get(number, "given") for number in records])
