"""--help of everything: each command is listed, and its help names its options and every key with its range."""

from harness import Tally, called, run

from front import fields

PROVER = {**fields.PIPE, **fields.named(fields.COEFFICIENT)}
KEYS = {
    "prove": PROVER
    | fields.named(fields.REQUEST, fields.K_FACTOR, fields.LIMIT, fields.BASE_VOLUME, fields.GRAVITY)
    | fields.RUN,
    "draw": {**PROVER, **fields.FILL},
    "ticket": fields.TICKET | fields.ASKED,
    "live": fields.LIVE,
    "panel": fields.PANEL,
    "read": {},
    "look-up": fields.ENTRY,
    "move": {},
    "book": {},
    "rework": {},
    "new": {},
    "lines": {},
    "verify": {},
}
WORDS = {
    "prove": (
        *("--record OUT", "--worksheet OUT", "--plot OUT", "--html OUT"),
        *("[prover]", "[meter]", "[[run]]", "[every_run]", *fields.METALS),
        *("[compressibility]", "\n  table  ", "one that is typed is used as typed"),
        *("1 to 100,000,000 pulses; up to 3 decimals where interpolated\n", "the run's record, 32 or 48 bytes"),
    ),
    "draw": (
        *("--worksheet OUT", "--html OUT", "[prover]", "[[fill]]", "[every_fill]", *fields.METALS),
        *("\n  profile ", "unidirectional, 3 to 20 passes, where it is left out", "bidirectional, 6 to 20 passes"),
    ),
    "ticket": ("--worksheet OUT", "--html OUT", "[ticket]", "[compressibility]", "\n  table  "),
    "live": (
        *("--html OUT", "[live]", "nan or inf", "bits", "panel", "temperature = { celsius = 22.5 }"),
        *("\n  fahrenheit, celsius  ", fields.ABOUT_IN_CELSIUS, "\n  fault  ", fields.FAULT.range),
    ),
    "panel": ("--html OUT", "[panel]", "nearest", "exactly", "bits"),
    "read": ("RECORD", "--hex BYTES"),
    "look-up": (
        *("TABLE.csv TEMPERATURE GRAVITY", "TEMPERATURE      -20.0 to 200.0 °F", "GRAVITY          0.0 to 90.0 °API"),
        *("--html OUT", "1 to 4,096 entries", "0.448 stands for 0.00000448 per psi", "half degree", "begin with #"),
    ),
    "move": (
        *("[--back] [--force] OLD NEW\n", "1 to 4,096 records", "The short form has 32 bytes", "The long one has 48"),
        *("NEW is written whole or not at", "- is standard input", "- is standard output", "every count is whole"),
    ),
    "new": ("KIND", "prove, draw, bidirectional, ticket, live, panel, table", "OUT.toml", "OUT.csv", "--force"),
    "lines": ("docs/LINES.md",),
    "book": (
        *("--keep FILE", "request SHIPPER NUMBER", "withdraw SHIPPER NUMBER", "take", "empty"),
        *("set R0 R1 R2 R3 T0 T1 T2 T3\n", " 1 to 13 and at most 16 in all", "reserve to 16; the commons"),
        *("a new book, with reserve 2 and ceiling 8 for all", "load LAST L0 L1 L2 L3 [R0 R1 R2 R3 T0 T1 T2 T3]\n"),
        *("commons in use", "A kept file without figures is read", "quit"),
    ),
    "verify": ("REPORT", "JOB.toml", "SHA-256", "--json"),
    "rework": ("--reports DIR", "--csv OUT", "--recursive", "--patience SECONDS", "--force", "Ctrl-C", "130"),
}


def test():
    tally = Tally("help")
    status, top, _ = run("--help")
    tally.same(status, 0, "--help: status")
    for command, known in KEYS.items():
        tally.holds(top, f"\n    {command} ", "--help")
        status, text, _ = called(command, "--help")
        tally.same(status, 0, f"{command} --help: status")
        for word in (*WORDS[command], "exit status: 0 accepted; 1 refused"):
            tally.holds(text, word, command)
        tally.same("--json " in text, command != "lines", f"{command}: --json")
        if " JOB.toml" in text and known:
            tally.holds(text, ", ".join(fields.HEADING), command)
        for key, field in known.items():
            lines = [line for line in text.splitlines() if line.split()[:1] == [key]]
            tally.check(any(field.range in line for line in lines), f"{command}: {key} without its range {field.range}")
        tally.check(max(map(len, text.splitlines())) <= 110, f"{command}: lines too long")
    tally.same(run("prvoe")[0], 2, "an unknown command")
    return tally
