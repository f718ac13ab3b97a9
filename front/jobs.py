"""What a file of each kind of job holds, key by key."""

from dataclasses import replace
from hashlib import sha256

from . import channels, fields, look_up_jobs, run_forms
from .badfile import BadFile
from .entries import entries_of, tables_of
from .hints import echo, near, offer
from .jobfiles import File, octets_of
from .kinds import Draw, Live, Panel, Prover, Proving, Ticket
from .profiles import PROFILES, UNIDIRECTIONAL, says_bidirectional
from .records import FILL_LAYOUT
from .tables import TOLD, Table, kind_of

# What tells the kind of a job: the tables that no other kind has.
KIND_OF_TABLE = {"run": "prove", "runs": "prove", "fill": "draw", "fills": "draw"}
KIND_OF_TABLE |= {"ticket": "ticket", "live": "live", "panel": "panel"}
PROVER = ("metal", "coefficient", *fields.PIPE, "base_volume")
PROVER_OF_DRAW = ("profile", *PROVER)
OF_PROVING = ("request", "repeatability_limit")
# Where a key belongs, to be told where it stands elsewhere.
HOMES_OF_PROVER = dict.fromkeys(PROVER, "in [prover]")
HOMES_OF_PROVING = {
    **HOMES_OF_PROVER,
    **dict.fromkeys(fields.RUN, "in [[run]] or [every_run]"),
    **dict.fromkeys(OF_PROVING, "at the top of the file, above the first [table]"),
    "k_factor": "in [meter]",
    # A proving takes the base volume as it is given, of either profile.
    "profile": "in [prover] of a water draw",
    **look_up_jobs.HOMES,
}
HOMES_OF_DRAW = {
    **dict.fromkeys(PROVER_OF_DRAW, "in [prover]"),
    **dict.fromkeys(fields.FILL, "in [[fill]] or [every_fill]"),
}


def prover_of(table, known, base_needed, homes):
    table.only(known, homes)
    metals = ", ".join(fields.METALS)
    if "metal" not in table.values and "coefficient" not in table.values:
        table.lacks("metal", f"one of {metals}, or a certified coefficient")
    metal = coefficient = None
    if "metal" in table.values:
        name = table.text("metal")
        metal = fields.METALS.index(name) if name in fields.METALS else None
        if name is not None and metal is None:
            table.bad("metal", f"{echo(name)} is not known: expected one of {metals}")
    if "coefficient" in table.values:
        coefficient = table.count(fields.COEFFICIENT)
    pipe = {key: table.count(each) for key, each in fields.PIPE.items()}
    return Prover(metal, coefficient, pipe, table.count(fields.BASE_VOLUME, None if base_needed else 0))


def profile_of(top, table, heading):
    """The profile of a draw by its [prover]: unidirectional where the file does not say it."""
    if "profile" not in table.values:
        if says_bidirectional(heading.get("profile")):
            # Every key is free there, and the draw would be worked as what it is not.
            top.table("heading").bad("profile", f"stands in [heading] and belongs {HOMES_OF_DRAW['profile']}")
        return UNIDIRECTIONAL
    name = table.text("profile")
    if name is not None and name not in PROFILES:
        offered = near(name, PROFILES)
        meant = f"{offer(offered, PROFILES)} Expected" if offered else "expected"
        table.bad("profile", f"{echo(name)} is not known: {meant} one of {', '.join(PROFILES)}")
    return PROFILES.get(name, UNIDIRECTIONAL)


def runs_of(top):
    """The runs of a proving, and the form in which all of them are."""
    shared, listed = tables_of(top, "run", fields.RUN, HOMES_OF_PROVING)
    for table in listed:
        table.looked_up = look_up_jobs.keys(top, "run")
    form = run_forms.of([shared, *listed])
    return entries_of(shared, listed, form.layout, form.in_hex), form


def heading_of(top, of_top=()):
    """The head of the page in the file's own words and order; `of_top` are keys that a job has above its tables."""
    table, told = top.table("heading", needed=False), {}
    for key, value in table.values.items():
        if key in of_top and key not in top.values:
            top.file.misplaced.add(key)
            table.bad(key, f"stands in [heading] and belongs {HOMES_OF_PROVING[key]}")
        elif isinstance(value, (dict, list)):
            table.bad(key, f"expected text in quotes, a number or a date, found {kind_of(value)}")
        elif not str(value).isprintable() or not key.isprintable():
            # A page and a picture hold lines of text; a control character could do anything to a terminal.
            table.bad(key, "expected one line of text without control characters")
        elif value != TOLD:
            told[key] = {True: "true", False: "false"}[value] if isinstance(value, bool) else str(value)
    return told


def proving_of(top):
    tables = ["heading", "prover", "meter", "every_run", "run", "runs", *look_up_jobs.tables(top)]
    top.only([*OF_PROVING, *tables], HOMES_OF_PROVING)
    meter = top.table("meter")
    meter.only(["k_factor"], HOMES_OF_PROVING)
    proving = Proving(
        top.file.path,
        heading_of(top, OF_PROVING),
        top.count(fields.REQUEST),
        prover_of(top.table("prover"), PROVER, True, HOMES_OF_PROVING),
        meter.count(fields.K_FACTOR),
        top.count(fields.LIMIT, fields.HOUSE_LIMIT),
        *runs_of(top),
    )
    return replace(proving, look_up=look_up_jobs.of_runs(top, proving.runs))


def draw_of(top):
    top.only(["heading", "prover", "every_fill", "fill", "fills"], HOMES_OF_DRAW)
    table = top.table("prover")
    prover = prover_of(table, PROVER_OF_DRAW, False, HOMES_OF_DRAW)
    fills = entries_of(*tables_of(top, "fill", fields.FILL, HOMES_OF_DRAW), FILL_LAYOUT)
    heading = heading_of(top)
    return Draw(top.file.path, heading, prover, fills, profile_of(top, table, heading))


def sole_table(top, key, known, others=(), homes=None):
    """The table of a job that has no other but its heading and perhaps some others; `homes` says where keys belong that
    stand deeper than in that table."""
    top.only(["heading", key, *others], dict.fromkeys(known, f"in [{key}]") | (homes or {}))
    table = top.table(key)
    table.only(known, homes)
    return table


def ticket_of(top):
    table = sole_table(top, "ticket", fields.TICKET, look_up_jobs.tables(top))
    table.looked_up = look_up_jobs.keys(top, "ticket")
    counts = {key: table.count(each) for key, each in fields.TICKET.items()}
    return Ticket(top.file.path, heading_of(top), counts, look_up_jobs.of_ticket(top, counts))


def live_of(top):
    table = sole_table(top, "live", fields.LIVE, homes=channels.HOMES)
    return Live(top.file.path, heading_of(top), channels.read(table))


def panel_of(top):
    table = sole_table(top, "panel", fields.PANEL)
    return Panel(top.file.path, heading_of(top), {key: table.count(each) for key, each in fields.PANEL.items()})


READERS = {"prove": proving_of, "draw": draw_of, "ticket": ticket_of, "live": live_of, "panel": panel_of}


def read(path, wanted=None):
    """The job of a file; `wanted` is the kind that the command takes."""
    octets = octets_of(path)
    file = File(path, octets)
    values = file.values()
    kinds = [kind for table, kind in KIND_OF_TABLE.items() if table in values]
    if wanted and kinds and wanted not in kinds:
        raise BadFile(file.path, "", f"is a job of the kind {kinds[0]}: try ./endakuro {kinds[0]} {file.path}")
    if not wanted and not kinds:
        file.finish()
        raise BadFile(file.path, "", "holds no job: expected [[run]], [[fill]], [ticket], [live] or [panel]")
    job = READERS[wanted or kinds[0]](Table(file, "", values))
    file.finish()
    digest = sha256(b"".join((octets, *file.named.values()))).hexdigest()
    return replace(job, digest=digest, files=tuple(file.named))
