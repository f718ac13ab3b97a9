"""Every file of examples/: its exit status, its figures, each refusal's words."""

from harness import ROOT, Tally, called, run

from front import refusals

FOLDER = ROOT / "examples"

# What each accepted example must show.
SHOWN = {
    "worked-run.toml": (
        "1 * | 1.0003 1.0000 1.0003 0.9913 19.8260 |",
        "0.9911 19.8220 | 1.0002",
        "Meter factor              1.0002",
    ),
    "second-five.toml": (
        "2 to 6 of 6",
        "of the smallest; limit 0.05 %: met",
        "07 00 00 00 12 27 02 06 10 27 11 27 12 27 13 27 15 27 00",
    ),
    "figure-5.toml": ("0.9984 17.6258 |", "Meter factor              0.9963"),
    "figure-6.toml": (
        "385 115 0.9780",
        "395 115 0.9789",
        "1.0003 1.0004 1.0078 0.9863 2.0450 |",
        "1.0080 0.9867",
        "Meter factor              0.9547",
    ),
    "flow-computer.toml": ("Runs from a flow computer", "Meter factor              0.9963"),
    "interpolated.toml": (
        "1 * | 628.406 | 63.0   80 0.9975 0.00000823 |",
        "4 * | 628.594 | 63.0",
        "4 * | 1.0001 1.0000 1.0007 0.9983 0.6239 |    0.6286 1.0005 0.9970 0.6267 | 0.9955",
        "Spread                    0.030 % (rounded) of the smallest; limit 0.05 %: met",
        "Meter factor              0.9957",
    ),
    "water-draw.toml": ("21,179.67", "21,182.13", "21,182.15", "21,181.32 in³", "2.1832 bbl"),
    "bidirectional-draw.toml": (
        " bidirectional pipe prover, API MPMS 12.2 Part 4\n",
        "Profile                   bidirectional: odd passes out, even back\n",
        "Repeatability limit       0.02 % of the smallest of three consecutive round trips\n",
        "1       out  40    21,183.21 1.000039 1.000128 21,179.67\n",
        "2      back  40    21,210.82 1.000039 1.000128 21,207.28\n",
        "1 * |    1 21,179.67 |    2 21,207.28 |  42,386.95",
        "2 * |    3 21,182.13 |    4 21,208.63 |  42,390.76",
        "3 * |    5 21,182.15 |    6 21,207.70 |  42,389.85",
        "first pass used 1:",
        "42,389.19 in³ of a round trip",
        "4.3691 bbl",
    ),
    "ticket.toml": ("500.00 bbl", "0.9913", "495.65 bbl", "493.17 bbl"),
    "ticket-figure-7.toml": ("0.9898", "52,587.08 bbl", "52,508.20 bbl"),
    "ticket-propane.toml": ("115 psi", "1.0080", "0.9420", "9,420.00 bbl"),
    "looked-up.toml": (
        "Compressibility table     table-for-trying.csv\n",
        "Table says                Made for trying: this is not the printed table of API MPMS 11.2.1\n",
        "API gravity               63.7 °API at 60 °F, found at 63.5 °API\n",
        "3 * | 17,746 | 63.5   80 0.9975 0.00000825 | 64.5   62 0.9965 0.00000829\n",
        "F is looked up by T and the gravity.\n",
        "\n   63.0  63.0 0.00000823    5\n   63.5  63.5 0.00000825    6\n   64.0  64.0 0.00000827    7\n",
        "\n   64.5  64.5 0.00000829    8\n   65.5  65.5 0.00000833   10\n",
        "Meter factor              0.9963",
    ),
    "ticket-looked-up.toml": (
        "Compressibility F         0.00000829 per psi, looked up\n",
        "API gravity               63.7 °API at 60 °F, found at 63.5 °API\n",
        "Temperature               64.6 °F, found at 64.5 °F, line 8 of the table\n",
        "496.11 bbl",
    ),
    "printed-entry.csv": (
        "ASKED\n   Temperature               100.0 °F\n   API gravity               19.9 °API\n",
        "FOUND\n   Temperature               100.0 °F\n   API gravity               20.0 °API\n",
        "Compressibility F         0.00000448 per psi, printed as 0.448 / 100,000\n",
        "Entry                     line 5 of the table\n",
    ),
    "table-for-trying.csv": (
        "Table says                Made for trying: this is not the printed table of API MPMS 11.2.1\n",
        "Compressibility F         0.00000829 per psi, printed as 0.829 / 100,000\n",
        "Entry                     line 8 of the table\n",
    ),
    "live.toml": (
        "73.3 °F, from 73.25 °F",
        "40 psi, from 40 psi",
        "Temperature               73.3000030517578125 °F (single 4292999a)",
        "Pressure                  40 psi (single 42200000)",
    ),
    "live-celsius.toml": (
        "Temperature               72.5 °F, from 22.5 °C (single 41b40000)\n",
        "Pressure                  40 psi, from 40 psi (single 42200000)\n",
        "Temperature               72.5 °F (single 42910000)\n",
    ),
    "panel.toml": (
        "73.3 °F, shown as 73.3000030517578125 °F (single 4292999a)",
        "40 psi, shown as 40 psi (single 42200000)",
    ),
    "report-7.record": ("Meter factor              1.0002", "2 to 6 of 6", "Run factor, run 6         1.0005"),
    "runs.records": ("moved forward into /dev/null: from 160 bytes, 32 a record, to 240 bytes, 48 a record\n",),
    "runs-long.records": ("moved back into /dev/null: from 240 bytes, 48 a record, to 160 bytes, 32 a record\n",),
    "book.txt": (
        "request 101 of shipper 0 is taken",
        "\n  shipper 0  reserve 2  ceiling 8  2 waiting: 102 103\n",
        "commons: 1 of 8 in use",
        "last served: shipper 0",
    ),
    "agreement.txt": (
        "\n  shipper 0  reserve 5  ceiling 12  6 waiting: 101 102 103 104 105 106\n",
        "\n  shipper 1  reserve 1  ceiling  6  3 waiting: 201 202 203\n",
        "\n  shipper 3  reserve 1  ceiling  6  0 waiting\n  commons: 3 of 8 in use\n",
        "request 201 of shipper 1 is taken",
        "request 102 of shipper 0 is taken",
    ),
}
# Which command an example is for; prove where nothing is said.
COMMANDS = {
    "water-draw.toml": "draw",
    "bidirectional-draw.toml": "draw",
    "ticket.toml": "ticket",
    "ticket-figure-7.toml": "ticket",
    "ticket-propane.toml": "ticket",
    "ticket-looked-up.toml": "ticket",
    "printed-entry.csv": "look-up",
    "table-for-trying.csv": "look-up",
    "live.toml": "live",
    "live-celsius.toml": "live",
    "panel.toml": "panel",
    "report-7.record": "read",
    "runs.records": "move",
    "runs-long.records": "move",
    "book.txt": "book",
    "agreement.txt": "book",
}

# Refusals are named by their command, by the profile of a draw, or by the way back of a move.
NAMED = {"bidirectional": "draw", "lookup": "look-up", "back": "move"}

# 01's table, with what 02 adds: the numbers that each command can give. prove lends 32 bytes itself, and move what its
# records take, so 14 cannot arise there; a proving and a ticket may be refused for what they look up.
NUMBERS = {
    "prove": {1, 2, 3, 4, 5, 7, 8, 9, 13, 22, 32, 33},
    "draw": {1, 2, 3, 5, 6, 9},
    "bidirectional": {1, 2, 3, 5, 6, 9},
    "ticket": {1, 10, 11, 13, 32, 33},
    "lookup": {1, 13, 32, 33},
    "live": {12, 13, 34, 35},
    "panel": {13},
    "read": {14, 15},
    "move": {1, 2, 5},
    "back": {1, 2, 5, 36},
    "book": {20, 21, 22, 23, 24, 25, 26, 27, 30, 31},
}
# The same in words.
WORDS = {
    1: "records not whole, or too few or many", 2: "an unnamed byte is not zero", 3: "prover setting out of range",
    4: "K factor or limit out of range", 5: "record field out of range",
    6: "pass number or its pressure breaks the rule", 7: "indicated volume out of range after rounding",
    8: "run factor out of range", 9: "no qualifying group", 10: "ticket field out of range",
    11: "closing below opening", 12: "reading not finite", 13: "reading out of range",
    14: "report buffer not 32 bytes", 15: "not a report", 20: "book not sound", 21: "unknown shipper",
    22: "number zero", 23: "already waiting", 24: "ceiling reached",
    25: "has its reserve or more and commons full", 26: "withdrawn number not waiting", 27: "nothing to take",
    30: "book not empty", 31: "figures outside the rules", 32: "faulty or disordered record", 33: "no such pair",
    34: "fault code from a transmitter", 35: "channel of the wrong kind", 36: "pulse count not whole",
}  # fmt: skip
SAID, ASKED = "# refused: ", "# asked: "
# What is said of files that hold bytes alone.
RECORD_WORDS = {
    "read-14-cut-short.record": ["record has 31 bytes, range 32"],
    "read-15-not-the-mean.record": ["job factor is 1.0003, range the rounded mean of the five"],
    "move-01-cut-short.records": [
        "150 bytes: 4 records of the short form, 32 bytes each, and 22 bytes over, range whole records",
    ],
    "move-01-long-form.records": [
        "240 bytes: 7 records of the short form, 32 bytes each, and 16 bytes over, range whole records",
        "as 5 records of the long form, 48 bytes each, they are moved with --back",
    ],
    "move-02-unnamed-byte.records": ["record 2: byte 25 is 01, range 00"],
    "move-05-too-hot.records": ["record 4: prover temperature is 250.0 °F, range -20.0 to 200.0 °F"],
    "back-01-short-form.records": [
        "160 bytes: 3 records of the long form, 48 bytes each, and 16 bytes over, range whole records",
        "as 5 records of the short form, 32 bytes each, they are moved without --back",
    ],
    "back-02-unnamed-byte.records": ["record 2: byte 40 is 01, range 00"],
    "back-05-less-than-a-pulse.records": [
        "record 3: pulses is 0.999 pulses, range 1.000 to 100,000,000.000 pulses",
    ],
    "back-36-parts-of-a-pulse.records": [
        "record 3: pulses is 17,746.125 pulses, not whole: the short form holds whole pulses alone",
    ],
}


def accepted(tally):
    others = {"morning.txt", "README.md", "flow-computer.csv"}
    names = {path.name for path in FOLDER.iterdir() if path.is_file()} - others
    tally.same(names, set(SHOWN), "files of examples/")
    by_process = set()
    for name in sorted(names & set(SHOWN)):
        command = COMMANDS.get(name, "prove")
        # Each command once as people do.
        ask = called if command in by_process else run
        by_process.add(command)
        status, out, err = ask(command, FOLDER / name, *asked_of(FOLDER / name))
        tally.same((status, err), (0, ""), f"{name}: status and complaints")
        for part in SHOWN[name]:
            tally.holds(out, part, name)


def named(path):
    """What a refusal's name says: its command, its number."""
    first, number = path.name.split("-")[:2]
    return NAMED.get(first, first), int(number)


def asked_of(path):
    """What stands behind the file on the command line: the temperature and the gravity that a table's example says; of
    run records where they go, and which way."""
    if path.suffix == ".records":
        return ["/dev/null", *["--back"] * (path.name.startswith("back-") or path.name == "runs-long.records")]
    lines = path.read_text().splitlines() if path.suffix == ".csv" else []
    return [word for line in lines if line.startswith(ASKED) for word in line.removeprefix(ASKED).split()]


def told_in(path):
    """The words that a refusal's file says will come: its first line, or its first lines where they are several."""
    if path.name in RECORD_WORDS:
        return RECORD_WORDS[path.name]
    lines = [line for line in path.read_text().splitlines() if line.startswith(SAID)]
    return [line.removeprefix(SAID) for line in lines]


def refused(tally):
    given = {}
    for path in sorted((FOLDER / "refusals").iterdir()):
        command, number = named(path)
        given.setdefault(path.name.split("-")[0], set()).add(number)
        words = told_in(path)
        status, out, err = called(command, path, *asked_of(path))
        tally.same(status, 1, f"{path.name}: status")
        head = f"refused {number}: {WORDS[number]}"
        lines = "\n   ".join((head, *words))
        if command == "book":
            tally.holds(out, f"\n{lines if len(words) > 1 else f'{head}; {words[0]}'}\n  ", path.name)
            tally.same(out.count("\nrefused "), 1, f"{path.name}: refusals")
        else:
            tally.same(err, f"{path}: {lines}\n", path.name)
            # Only where every run or pass has its figures is there a page to show.
            tally.same(bool(out), number == 9, f"{path.name}: a page")
    tally.same(given, NUMBERS, "refusals that have an example")
    tally.same((refusals.WORDS, set().union(*NUMBERS.values())), (WORDS, set(WORDS)), "the table of numbers")


def test():
    tally = Tally("examples")
    accepted(tally)
    refused(tally)
    return tally
