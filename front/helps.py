"""The texts of --help: what a command does, every key of its job file with its range, and the exit status."""

from . import fields
from .book_steps import STEPS
from .profiles import BIDIRECTIONAL, UNIDIRECTIONAL

ABOUT = """\
Meter proving from job files. Every figure shown comes from the proved line program, which is
built on first use."""

STATUS = """\
exit status: 0 accepted; 1 refused: the paper's number in words, the record, the field with its value
and range; 2 a bad file or command: the file, the key and what was expected; 3 the line program cannot
be built or run, or an output cannot be written. An output is written whole or not at all; - as its name is
standard output, in place of the page. examples/ has jobs of every kind and of every refusal."""

JOB_FILE = f"""\
A job file is TOML. Numbers are in the units that people write and are taken exactly: more digits than
the unit has is an error, never a rounding. A number may stand alone (73.5) or in quotes with its unit
("73.5 °F", "73.5 degF"). [heading], never needed, takes what the head of the page shows, in its order,
under any key; {", ".join(fields.HEADING)}
have names of their own there. All faults of a file are told at once, each with its line."""

WIDTH = 28


def row(key, words):
    return f"  {key.ljust(WIDTH)}{words}"


def keys(known):
    return [row(field.key, f"{field.label}, {field.range}{besides(field)}") for field in known.values()]


def besides(field):
    left_out = "" if field.default is None else f"{field.text(field.default)} where it is left out"
    return "".join(f"; {words}" for words in (field.note, left_out) if words)


def prover(base):
    metals = [
        f"{name} ({fields.PER_DEGREE.text(gc)})" for name, gc in zip(fields.METALS, fields.METAL_COEFFICIENTS)
    ]
    pairs = [", ".join(metals[at : at + 2]) for at in (0, 2)]
    return [
        "[prover]",
        row("metal", pairs[0] + ","),
        row("", pairs[1]),
        row("coefficient", f"{fields.COEFFICIENT.label}, {fields.COEFFICIENT.range};"),
        row("", "wins over the metal, one of both is needed"),
        *keys(fields.PIPE),
        *(keys(fields.named(fields.BASE_VOLUME)) if base else of_draw()),
    ]


def of_draw():
    """What a prover's table says in a draw alone."""
    one, two = (f"{own.name}, {own.passes[0]} to {own.passes[1]} passes" for own in (UNIDIRECTIONAL, BIDIRECTIONAL))
    return [
        row("base_volume", "may be given, is not used"),
        row("profile", f"{one}, where it is left out;"),
        row("", f"or {two} in pairs, odd out and even back: a round"),
        row("", "trip is the sum of its two, and the base volume is that of a round trip"),
    ]


def compressibility(*known):
    """The table of a job that looks F up."""
    return [
        "[compressibility] in place of F: each F that is left out is looked up in a table of API MPMS 11.2.1",
        *keys(fields.named(*known)),
        row("table", "its name, beside the job file: a CSV, see ./endakuro look-up --help"),
    ]


def entries(name, known, record):
    return [
        f"[[{name}]], one for each; [every_{name}] holds what all share, and a {name}'s own key wins",
        *keys(known),
        row("record", f'instead of all others: {record} in hex, "40 0d 03 .."'),
        f"[{name}s] in place of [[{name}]]: a CSV with a line a {name}, under the keys as headings",
        row("file", "its name, beside the job file"),
        row("ignore", 'headings that are no part of the job: ["Time"]'),
        row("any key of a " + name, 'the heading that its column has: "Prover temp (°F)"'),
    ]


def channel(fault):
    """What a channel's table says that the transmitter tags."""
    return [
        "a channel that is tagged, in place of either number: temperature = { celsius = 22.5 }",
        row("fahrenheit, celsius", f"a temperature by its kind; in °C the range is {fields.ABOUT_IN_CELSIUS},"),
        row("", f"and is judged to the nearest {fields.DEGREE.step} as that in °F is"),
        row("pressure", "a pressure in psi"),
        row(fault.key, f"{fault.label}, {fault.range}, that came in place of a reading: it is refused,"),
        row("", "as is a kind where another belongs"),
    ]


def described(about, *parts):
    """A command's text: what it does, the job file, its keys."""
    return "\n".join([about, "", JOB_FILE, "", *(line for part in parts for line in part)])


PROVE = described(
    "Prints the proving report of a job by pipe prover: settings, a row a run, the accepted five\n"
    "and their spread against the limit, the meter factor, the report record. A job in which no five\n"
    "runs agree is refused, and its report, worksheet and plot show why.",
    keys(fields.named(fields.REQUEST)),
    [row("repeatability_limit", f"{fields.LIMIT.range}; {fields.LIMIT.text(fields.HOUSE_LIMIT)} where it is left out")],
    prover(True),
    ["[meter]", *keys(fields.named(fields.K_FACTOR))],
    entries("run", fields.RUN, "the run's record, 32 or 48 bytes"),
    compressibility(fields.GRAVITY),
    [row("", "each F by its own side's temperature; one that is typed is used as typed")],
)
DRAW = described(
    "Prints the report of a water draw: a row a fill, the passes, a bidirectional prover's round trips, the\n"
    "accepted three, the base volume in cubic inches and barrels.",
    prover(False),
    entries("fill", fields.FILL, "the 32 bytes of the fill's record"),
)
TICKET = described(
    "Prints a measurement ticket: its factor, gross standard and net standard volume.",
    ["[ticket]", *keys(fields.TICKET)],
    compressibility(fields.TEMPERATURE, fields.GRAVITY),
    [row("", "the temperature is the liquid's, since a ticket has no other")],
)
LIVE = described(
    "Prints a transmitter's temperature and pressure as the skid takes them, and the singles by which the\n"
    "operator's panel shows them. Each is a number that a single holds exactly (73.25), nan or inf, or the\n"
    'single\'s bits in quotes ("42928000"), alone or behind its kind where the transmitter tags its channels.',
    ["[live]", *keys(fields.LIVE)],
    channel(fields.FAULT),
)
PANEL = described(
    "Prints the singles by which the operator's panel shows a temperature and a pressure, for those who wire\n"
    "or check one: each with its bits, most significant first, and the exact number in them. A temperature is\n"
    "the single nearest to it, a pressure is shown exactly.",
    ["[panel]", *keys(fields.PANEL)],
)
READ = "Prints what a 32-byte report record says: request, meter factor, the accepted runs and their factors."
LOOK_UP = "\n".join(
    [
        "Prints the entry of a table of compressibilities F for a temperature and a gravity, each taken to the",
        "nearest half degree first, as API MPMS 11.2.1 says; nothing is interpolated. A number may have its unit",
        "behind it, in quotes; one below zero stands as it is, -5.0.",
        "",
        "A table is a CSV that a person types from the printed pages: a line of headings, then a line an entry,",
        "rising by gravity and then by temperature, no pair twice, {} to {:,} entries. What is".format(*fields.ENTRIES),
        "more goes into another file. Temperatures and gravities lie on half degrees. Lines that begin with # are",
        "remarks; one at the top is shown on every page. All faults of a table are told at once, each with its",
        "line. ./endakuro new table prints one to begin with.",
        "",
        *keys(fields.ENTRY),
        row("", "as it is printed: 0.448 stands for 0.00000448 per psi"),
    ]
)
MOVE = """\
Moves a file of run records, bytes without a header, from the short form to the long one, which counts pulses
in thousandths; --back moves long records to the short form, exactly where every count is whole. A file holds
{} to {:,} records, and each is judged as a job judges it. OLD stays as it is, NEW is written whole or not at
all; forward and back again gives the same bytes. Nothing in a file says its form: the command does.

The short form has 32 bytes: pulses (4), prover T, meter T (signed 2 each), prover P, meter P, prover CTL,
meter CTL, prover F, meter F, prover Pe, meter Pe (2 each), zeros. The long one has 48: thousandths of a pulse
(8), the short form's bytes 4 to 31, zeros. All little-endian.""".format(*fields.MOVED)
BOOK = "\n".join(
    [
        "Works through a session and shows the book after each step: each shipper's reserve, ceiling and waiting",
        "numbers, the commons in use and the shipper last served. A session file is checked whole before its first",
        "step; one that has a refused step exits 1. At the keyboard refusals are told and the session goes on;",
        "lines can be edited and called back. --keep FILE goes on from the book that an earlier session left, its",
        "figures too, and writes it after each change, whole or not at all. A kept file without figures is read",
        "with those of a new book, and stays as it is until the book changes.",
        "",
        "steps:",
        *("  " + line for line in STEPS.splitlines()),
    ]
)
NEW = """\
Prints a job file of a kind, every key with what it is and its range. It runs as it is; put your own
figures in place of its own. table is a table of compressibilities, for look-up and for jobs that look F up,
with the one entry that the text of API MPMS 11.2.1 prints."""
LINES = """\
Runs the line program on standard input and output, once it is built: docs/LINES.md has its lines. Every
figure that the other commands show is an answer of it."""
REWORK = """\
Works every *.toml of the folders, and every file named, of any kind, on all cores; - is a job file from
standard input. Each job is a row of the CSV: its headings, settings, figures, refusal, the file's SHA-256 and
the version. Each refusal and bad file is a line, and each meter one at the end. What cannot be read, is a
pipe or takes too long is skipped with a line; a request number that comes twice is remarked on. Ctrl-C ends
after the jobs in hand and the rows worked stay; a second Ctrl-C ends at once and writes nothing. Exits 0 when
all were accepted, 1 when one was refused, 2 when a file was bad or skipped, 3 on an unexpected error, 130
after Ctrl-C."""
VERIFY = """\
Says whether a report is of a job: a page as text or for print, a plot, a worksheet or workbook, JSON, a
report record, or a CSV of rework's. It must carry the job file's SHA-256 (a record has none and is compared),
and all of it must be what the job comes to when it is worked again; the file's name may have changed. Exits
0 when it is, 1 when it is of another job or was changed, 2 when it carries no SHA-256."""
