"""Looking F up in a table: the page's figures against the line program, every fault of a table by its line, refusals in
words over tables by chance."""

import json
import random
import re
import tempfile
from pathlib import Path

import tabletexts
from harness import ROOT, Tally, called, run
from tabletexts import HEADINGS, MARKED, csv_of, line_of, records_of

from front import f_tables, look_up_faults, look_ups
from front.jobfiles import File
from front.program import Program, Refused, hexed
from front.units import shown

EXAMPLES = ROOT / "examples"
TABLES, FAULTY = 60, 500
ROW = "64.5,63.5,0.829"
# A line of a table, and what is told of it.
LINES = {
    "64.5,63.5,0.00000829": "F: 0.00000829 is F per psi: write 0.829, as the printed table has it",
    "64.5,63.5,8.29e-6": "F: 8.29e-6 is F per psi: write 0.829, as the printed table has it",
    "64.5,63.5,829": "F: 829 is F without its point: write 0.829, as the printed table has it",
    "64.5,63.5,0.8295": "F: 0.8295 has more digits than the unit, 0.001 / 100,000 per psi: expected at most 3",
    "64.5,63.5,100000": "F: 100,000.000 / 100,000 per psi does not fit its place: expected 0.000 to 10.000 /",
    "64.5,63.5,": "F: missing: expected the compressibility F, 0.000 to 10.000 / 100,000 per psi",
    '"64,5",63.5,0.829': "temperature: 64,5 has a comma: write 64.5, with a decimal point",
    "64.55,63.5,0.829": "temperature: 64.55 has more digits than the unit, 0.1 °F: expected at most 1 decimal, in °F",
    "18.0 °C,63.5,0.829": "temperature: 18.0 °C is in °C, and only °F is taken: expected at most 1 decimal, in °F",
    "64.5,-0.5,0.829": "gravity: -0.5 °API does not fit its place: expected 0.0 to 90.0 °API",
    "64.5,,0.829": "gravity: missing: expected the API gravity, 0.0 to 90.0 °API",
}
# A table, and what is told of it: each line, 0 for the whole, with the words behind it.
NO_HEADINGS = {0: ["holds no line of headings: expected temperature, gravity, F"]}
FAULTS = {
    f"{HEADINGS}\n{ROW},7\n": {2: ["entry 1: has 4 cells, and there are 3 headings"]},
    "temperature,gravity,F (per psi)\n64.5,63.5,0.00000829\n": {2: ["entry 1, F: 0.00000829 per psi is F per psi: "]},
    f"temp,gravity,F\n{ROW}\n": {1: ["temp: unknown heading: did you mean temperature?"]},
    f"{MARKED}\ntemperature,F,\n64.5,0.829,\n": {2: ["gravity: missing: expected a column under this heading"]},
    "temperature,gravity,temperature\n64.5,63.5,64.5\n": {1: ["temperature: stands there twice: expected once"]},
    f"{ROW}\n": {1: [f"{cell}: unknown heading: expected one of temperature, gravity, F" for cell in ROW.split(",")]},
    "": NO_HEADINGS,
    f"{MARKED}\n\n# more\n": NO_HEADINGS,
    f'{HEADINGS}\n# a remark with a "\n64.5,63.5,"0"829\n': {3: ["is not CSV: "]},
    f"{MARKED}\n{HEADINGS}\n64.5,63.5,829\n# a remark\n\n65.0,63.5,0.8\n65.5,63.5x,0.83x\n66,,0.8\n": {
        3: ["entry 1, F: 829 is F without its point: "],
        7: ["entry 3, gravity: 63.5x is not in °API: ", "entry 3, F: 0.83x is not in "],
        8: ["entry 4, gravity: missing: "],
    },
} | {f"{HEADINGS}\n{line}\n": {2: [f"entry 1, {words}"]} for line, words in LINES.items()}
# The same table, written in other ways.
WAYS = {
    "semicolons": lambda text: text.replace(",", ";"),
    "tabs and CR LF": lambda text: text.replace(",", "\t").replace("\n", "\r\n"),
    "a mark before it": lambda text: f"\ufeff{text}",
    "units behind the headings": lambda text: text.replace(HEADINGS, "Temperature (°F),GRAVITY [API],f (/ 100000)"),
    "columns in another order": lambda text: re.sub(r"(?m)^([^#,\n]+),([^,\n]+),([^,\n]+)$", r"\3,\2,\1", text),
    "blanks, remarks and zeros": lambda text: re.sub(r"(?m)^(-?\d.*)$", r' \g<1>0 \n#,"', text),
    "as a spreadsheet saves it": lambda text: re.sub("(?m)^(#.*)$", r'"\1",,', text),
    "digits without zeros": lambda text: re.sub(r"\.0(?=,)", "", text),
}


def entry_faults(tally, path):
    """Every fault of a table at once, each by its line, as a table of its own and as a job's."""
    job = path.with_name("ticket.toml")
    text = (EXAMPLES / "ticket-looked-up.toml").read_text()
    job.write_text(text.replace("table-for-trying.csv", path.name))
    for content, lines in FAULTS.items():
        path.write_text(content)
        expected = [f"line {line}: {each}" if line else each for line, own in lines.items() for each in own]
        for words in (("look-up", path, "64.5", "63.5"), ("ticket", job)):
            status, out, err = called(*words)
            told = [line.removeprefix(f"{path}: ") for line in err.splitlines() if line.startswith(f"{path}: ")]
            tally.same((status, out, len(told)), (2, "", len(expected)), f"{content!r}: {err}")
            for line, start in zip(told, expected):
                tally.check(line.startswith(start), f"{content!r}: expected {start!r}, found {line!r}")
    path.write_text(f"{HEADINGS}\n" + f"{ROW}\n" * 32_001)
    status, _, err = called("look-up", path, "64.5", "63.5")
    told = f"{path}: has 32,001 entries, more than a line of the program holds: expected 1 to 4,096\n"
    tally.same((status, err), (2, told), "far too many entries")


def command_lines(tally, path):
    """What a command line may say, and what is told of it, with the faults of the table."""
    path.write_text(csv_of([(-50, 200, 331), (645, 635, 829)]))
    for words in (("-5.0", "20.0"), ("-5", "20"), ("-5.0 °F", "20.0 API"), ("−5.0", "20 °API"), ("-4.9", "19.8")):
        status, out, err = called("look-up", path, *words)
        tally.check(status == 0 and "0.00000331 per psi, printed as 0.331 / 100,000\n" in out, f"{words}: {err}")
    status, out, err = run("look-up", "-", "-5.1", "20.2", given=path.read_text())
    tally.check(status == 0 and "0.00000331" in out and "standard input\n" in out, f"standard input: {err}")
    path.write_text(f"{HEADINGS}\n64.5,63.5,829\n")
    status, out, err = called("look-up", path, "64.55", "warm")
    told = [line for line in err.splitlines() if not line.startswith("   ")]
    starts = ("command line: temperature: 64.55 has more digits", "command line: gravity: warm is not a number")
    tally.same((status, out, len(told)), (2, "", 3), f"all faults at once: {err}")
    for line, start in zip(told, (*starts, f"{path}: line 2: entry 1, F: ")):
        tally.check(line.startswith(start), f"all faults at once: {line}")
    told = json.loads(called("look-up", path, "64.55", "warm", "--json")[1])
    tally.same([each["line"] for each in told["faults"]], [None, None, 2], "a bad file for machines")
    for words in (("70000", "20"), ("64.5", "-0.1"), ("64.5", "7000")):
        status, _, err = called("look-up", path, *words)
        tally.check(status == 2 and "does not fit its place: expected " in err, f"{words}: {err}")
    missing = path.with_name("none.csv")
    told = f"{missing}: cannot be read: No such file or directory\n"
    tally.same(called("look-up", missing, "64.5", "20"), (2, "", told), "no such file")
    other = path.with_name("typed.html")
    other.write_text(csv_of([(645, 635, 829)]))
    status, _, err = called("look-up", other, "64.5", "63.5", "--html", other, "--force")
    tally.check(status == 2 and "is read by this command" in err and MARKED in other.read_text(), f"onto it: {err}")


def pages(tally, path, program):
    """Whatever is asked of a sound table is answered as the program answers it; a table may be written in many ways."""
    rng, found = random.Random(61), 0
    for number in range(TABLES):
        entries = tabletexts.sound(rng, rng.choice((1, 2, 20, 60)))
        asked = asked_of(rng, entries)
        told = answer(program, asked, entries)
        found += told is not None
        for name, way in ({"": str} | WAYS if number < len(WAYS) else {"": str}).items():
            path.write_bytes(way(csv_of(entries)).encode())
            one(tally, path, asked, entries, told, f"table {number}, {asked}{name and ', '}{name}")
    tally.check(TABLES // 4 < found < TABLES, f"{found} of {TABLES} are found")


def asked_of(rng, entries):
    """Anything within the ranges; mostly within a quarter of a degree of an entry, or beside it."""
    ends, near, far = ((-200, 2000), (0, 900)), rng.choice(entries), rng.choice((2, 2, 2, 3))
    if rng.random() < 0.2:
        return [rng.randint(*each) for each in ends]
    return [max(low, min(high, each + rng.randint(-far, far))) for (low, high), each in zip(ends, near)]


def one(tally, path, asked, entries, told, where):
    words = ("look-up", path, *(shown(each, 1, False) for each in asked))
    status, out, err = called(*words)
    if told is None:
        pair = f"{shown(asked[0], 1)} °F and {shown(asked[1], 1)} °API"
        said = f"refused 33: no such pair\n   no entry lies within a quarter of a degree of {pair}\n"
        tally.check((status, out) == (1, "") and said in err, f"{where}: expected {said!r}, found {err!r}")
        return
    if not tally.same((status, err), (0, ""), where):
        return
    place = [entry[:2] for entry in entries].index(tuple(told[:2]))
    # Where each entry has a remark below it, those above it have one too.
    line = line_of(place) + (place if "remarks" in where else 0)
    t, g, f = told
    of_f = f"{shown(f, 8)} per psi, printed as {shown(f, 3)} / 100,000\n"
    for part in (f"{shown(t, 1)} °F\n", f"{shown(g, 1)} °API\n", of_f, f"line {line} of the table\n"):
        tally.holds(out[out.index("FOUND") :], part, where)
    tally.holds(out, f"Table says                {MARKED.removeprefix('# ')}\n", where)
    found = json.loads(called(*words, "--json")[1])["result"]
    counts = [found[key]["count"] for key in ("temperature", "gravity", "compressibility")]
    tally.same((counts, found["line"]), (told, line), f"{where}: JSON")


def answer(program, asked, entries):
    """The program's own answer; None for a refusal."""
    try:
        return program.numbers("look_up", *asked, hexed(records_of(entries)))
    except Refused:
        return None


def refusals(tally, path, program):
    """What the program refuses with 32 is explained, by the line that is at fault, and nothing else is."""
    rng, seen = random.Random(62), {32: 0, 0: 0}
    for number in range(FAULTY):
        entries = tabletexts.faulty(rng, tabletexts.sound(rng, rng.randint(1, 12)))
        file = File(path, csv_of(entries).encode())
        table = f_tables.of_file(file, "table.csv")
        tally.same((file.faults, table.records), ([], records_of(entries)), f"table {number} is lent as it is typed")
        at, refusal = tabletexts.verdict(entries), None
        try:
            look_ups.find(table, 0, 0, program)
        except Refused as refused:
            refusal = refused.refusal
        is_faulty = refusal is not None and refusal.number == 32
        seen[32 if is_faulty else 0] += 1
        tally.same(is_faulty, at is not None, f"table {number}: {entries}")
        for place in range(len(entries)):
            found = look_up_faults.of_entry(table, place + 1)
            if at is None or place <= at:
                tally.same(bool(found), place == at, f"table {number}, entry {place + 1}: {found}")
        if is_faulty:
            told = look_up_faults.explain(table, {}, refusal)
            where = f"table {number}: {told}"
            tally.same((told.record, {each.line for each in told.details}), (at + 1, {line_of(at)}), where)
            tally.same(kinds_told(told.details), kinds_of(entries, at), where)
            tally.check(all(each.startswith(f"line {line_of(at)}: ") for each in told.details), where)
    tally.check(min(seen.values()) > 20, f"tables by chance: {seen}")


def kinds_told(details):
    said = {"range": ", range ", "half": "not on a half degree", "order": "out of order after line ", "pair": "again"}
    return {kind for kind, words in said.items() if any(words in each for each in details)}


def kinds_of(entries, at):
    """What is wrong with an entry, by 02's words."""
    t, g, f = entries[at]
    before = [(gravity, temperature) for temperature, gravity, _ in entries[:at]]
    kinds = {"range"} if not (-200 <= t <= 2000 and g <= 900 and f <= 10000) else set()
    kinds |= {"half"} if t % 5 or g % 5 else set()
    if before and (g, t) <= before[-1]:
        kinds |= {"pair"} if (g, t) in before else set()
        kinds |= {"order"} if (g, t) != before[-1] else set()
    return kinds


def lengths(tally, path):
    for count, expected in ((0, 1), (1, 0), (4096, 0), (4097, 1)):
        pairs = [(t, g, 829) for g in tabletexts.GRAVITIES for t in tabletexts.TEMPERATURES]
        path.write_text(csv_of(pairs[:count]))
        status, _, err = called("look-up", path, "-20.0", "0.0")
        words = f"{path}: refused 1: records not whole, or too few or many\n   entries: {count}, range 1 to 4096\n"
        tally.same((status, err), (expected, words if expected else ""), f"{count} entries")
    path.write_text(csv_of([(0, 0, 10001)]))
    for words, told in ((("250", "95"), "refused 32"), (("-20.1", "0"), "refused 32")):
        tally.holds(called("look-up", path, *words)[2], told, "32 before 13")
    path.write_text(csv_of([(0, 0, 10000)]))
    for words, told in ((("-20.1", "0"), "temperature is -20.1 °F"), (("0", "90.1"), "API gravity is 90.1 °API")):
        said = f"refused 13: reading out of range\n   {told}, range"
        tally.holds(called("look-up", path, *words)[2], said, "13 before 33")


def test():
    tally = Tally("look-ups")
    with tempfile.TemporaryDirectory() as folder, Program() as program:
        path = Path(folder) / "typed.csv"
        for part in (entry_faults, command_lines, lengths):
            part(tally, path)
        for part in (pages, refusals):
            part(tally, path, program)
    return tally
