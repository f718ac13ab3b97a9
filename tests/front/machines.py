"""--json of every command over all examples: whole numbers with their units, the page's figures, refusals with number,
record, field, value and range; and docs/JSON.md names every key."""

import json
import re
import shutil
import subprocess
import tempfile
from hashlib import sha256
from pathlib import Path

from examples import COMMANDS, WORDS, asked_of, named
from harness import LAUNCHER, ROOT, Tally, called, run

from front.units import shown

EXAMPLES = ROOT / "examples"
PAGE = (ROOT / "docs" / "JSON.md").read_text()
FIGURE = {"count", "unit", "decimals"}
# The field of a refused figure, its value and its range.
FIGURE_FIELDS = {
    "book-31-reserve-zero.txt": ("reserve of shipper 2", 0, 1, 13),
    "book-31-ceiling-below-reserve.txt": ("ceiling of shipper 0", 4, 5, 16),
    "book-31-ceiling-above-16.txt": ("ceiling of shipper 0", 17, 5, 16),
    "book-31-seventeen-reserved.txt": ("reserves", 17, 4, 16),
    "book-20-figures-outside-the-rules.txt": ("reserves", 17, 4, 16),
}


def no_fraction(written):
    raise ValueError(f"{written} is no whole number")


def parsed(line):
    return json.loads(line, parse_float=no_fraction, parse_constant=no_fraction)


def figures(told):
    """All figures of an object."""
    if isinstance(told, dict):
        if FIGURE <= set(told):
            yield told
        for value in told.values():
            yield from figures(value)
    elif isinstance(told, list):
        for value in told:
            yield from figures(value)


def keys(told, but=("heading", "jobs")):
    """All keys of an object; a heading's are the file's own."""
    if isinstance(told, dict):
        for key, value in told.items():
            yield key
            if key not in but:
                yield from keys(value)
    elif isinstance(told, list):
        for value in told:
            yield from keys(value)


def documented(tally, told, name):
    for key in sorted(set(keys(told))):
        tally.check(re.search(rf"[`\"]{key}[`\"]", PAGE), f"{name}: {key} is not in docs/JSON.md")


def whole(tally, told, name):
    for figure in figures(told):
        right = type(figure["count"]) is int and type(figure["decimals"]) is int and isinstance(figure["unit"], str)
        tally.check(right and set(figure) == FIGURE, f"{name}: {figure}")


def accepted(tally, path, command):
    """Every figure of the JSON is on the page, and the meter factor and such are where they belong."""
    words = (command, path, *asked_of(path))
    status, line, err = called(*words, "--json")
    told = parsed(line)
    tally.same((status, err, line.count("\n")), (0, "", 1), path.name)
    tally.same((told["command"], told["outcome"], told["endakuro"]), (command, "accepted", "1.0"), path.name)
    documented(tally, told, path.name)
    whole(tally, told, path.name)
    page = called(*words)[1]
    for figure in figures(told):
        tally.holds(page, shown(figure["count"], figure["decimals"]), f"{path.name}: {figure}")
    for own in (told.get("job"), told.get("table"), told.get("look_up", {}).get("table")):
        tally.check(not own or own["sha256"] in page, f"{path.name}: SHA-256 of {own}")
    return told


def refused(tally, path):
    command, number = named(path)
    status, line, err = called(command, path, *asked_of(path), "--json")
    told = parsed(line)
    name, refusal = path.name, told["refusal"]
    tally.same((status, told["outcome"]), (1, "refused"), name)
    tally.same((refusal["number"], refusal["words"]), (number, WORDS[number]), name)
    tally.same("result" in told, False, f"{name}: a result")
    documented(tally, told, name)
    whole(tally, told, name)
    for detail in refusal["details"]:
        tally.holds(err, detail["words"], name)
        record_of(tally, detail, refusal["record"], name)
        if "value" in detail and "range" in detail and "byte" not in detail["field"]:
            value, ends = detail["value"], detail["range"]
            tally.holds(detail["words"], shown(value["count"], value["decimals"]), f"{name}: value")
            tally.check(not ends["low"] <= value["count"] <= ends["high"], f"{name}: {detail} is within its range")
            tally.holds(detail["words"], shown(ends["low"], ends["decimals"]), f"{name}: range")
    about_field = number not in (9, 33)
    tally.same(all("field" in detail for detail in refusal["details"]), about_field, f"{name}: fields")


def record_of(tally, detail, record, name):
    """The record is the run or fill of the words; of a look-up it is the table's entry, whose line they have."""
    at = re.match(r"(?:run|fill|record) (\d+): ", detail["words"])
    of_table = re.search(r"\bline (\d+): ", detail["words"])
    if of_table:
        tally.same((detail["line"], record > 0), (int(of_table[1]), True), f"{name}: line")
    else:
        tally.same(("line" in detail, record), (False, int(at[1]) if at else 0), f"{name}: record")
    run = re.match(r"run (\d+), (?:prover|meter) F: ", detail["words"])
    tally.same(detail.get("run"), int(run[1]) if run else None, f"{name}: run")


def values(tally):
    """Some figures by name."""
    told = accepted(tally, EXAMPLES / "figure-5.toml", "prove")
    tally.same(told["result"]["meter_factor"], {"count": 9963, "unit": "", "decimals": 4}, "figure-5: meter factor")
    tally.same(told["runs"][2]["prover_temperature"], {"count": 635, "unit": "°F", "decimals": 1}, "figure-5: run 3")
    tally.same((told["group"]["first"], told["group"]["last"], told["group"]["accepted"]), (1, 5, True), "figure-5")
    told = parsed(called("prove", EXAMPLES / "refusals" / "prove-05-too-hot.toml", "--json")[1])
    unit = {"unit": "°F", "decimals": 1}
    value, ends = {"count": 2500, **unit}, {"low": -200, "high": 2000, **unit}
    detail = told["refusal"]["details"][0]
    expected = ("prover_temperature", value, ends)
    tally.same((detail["field"], detail["value"], detail["range"]), expected, "prove-05-too-hot")
    told = parsed(called("prove", EXAMPLES / "refusals" / "prove-09-runs-drift.toml", "--json")[1])
    tally.same((told["group"]["first"], told["group"]["accepted"]), (2, False), "prove-09-runs-drift: best five")


def bad(tally, folder):
    path = folder / "bad.toml"
    path.write_text("request = 1\nrequset = 2\n[prover]\nmetal = 3\n[[run]]\npulses = 1.5555\n")
    status, line, err = called("prove", path, "--json")
    told = parsed(line)
    tally.same((status, told["outcome"]), (2, "bad file"), "a bad file")
    tally.check({2, 4, 6} <= {fault["line"] for fault in told["faults"]}, f"a bad file: lines of {told['faults']}")
    for fault in told["faults"]:
        tally.holds(err, fault["words"], "a bad file")
    documented(tally, told, "a bad file")
    missing = folder / "none" / "plot.svg"
    status, line, err = called("prove", EXAMPLES / "figure-5.toml", "--json", "--plot", missing)
    told = parsed(line)
    tally.same((status, told["outcome"], f"{told['words']}\n"), (3, "failed", err), "an output that cannot be written")
    done = subprocess.run(
        [LAUNCHER, "prove", path, "--json"], stdout=open("/dev/full", "w"), stderr=subprocess.PIPE, text=True, cwd="/"
    )
    tally.check(done.returncode in (2, 3) and "Traceback" not in done.stderr, f"a full output: {done.stderr}")
    status, line, _ = called("prove", EXAMPLES / "figure-5.toml", "--json", "--plot", "-")
    tally.same((status, parsed(line)["outcome"]), (2, "bad file"), "two outputs on standard output")


def reworked(tally, folder):
    """A line a job, as its own command prints it, and the sum of them."""
    for path in [*EXAMPLES.glob("*.[tc]*"), *(EXAMPLES / "refusals").glob("*.[tc]*")]:
        if path.suffix in (".toml", ".csv"):
            shutil.copy(path, folder)
    (folder / "pipe.toml").symlink_to("nowhere")
    status, out, _ = run("rework", folder, "--csv", folder / "out.csv", "--json")
    *lines, last = [parsed(line) for line in out.splitlines()]
    files = sorted(path.name for path in folder.glob("*.toml"))
    tally.same([Path(told["job"]["file"]).name for told in lines], files, "rework: a line a job, in order")
    for told in lines:
        documented(tally, told, "rework")
        path = Path(told["job"]["file"])
        if told["outcome"] in ("accepted", "refused"):
            tally.same(told, parsed(called(told["command"], path, "--json")[1]), f"rework: {path.name}")
    counts = {kind: sum(told["outcome"] == kind for told in lines) for kind in last["jobs"]}
    tally.same((last["outcome"], last["jobs"]), ("done", counts), "rework: the last line")
    tally.same((status, last["csv"], last["reports"]), (2, str(folder / "out.csv"), None), "rework: status and CSV")
    documented(tally, last, "rework")


def as_shown(tally, book, page, name):
    """A book of the JSON is on the page, line by line."""
    if not book["sound"]:
        tally.same(set(book.values()), {False, None}, f"{name}: a book that is not sound")
        return
    for who, (waiting, *own) in enumerate(zip(book["lines"], book["reserves"], book["ceilings"])):
        listed = f": {' '.join(map(str, waiting))}" if waiting else ""
        row = r"\n  shipper {}  reserve +{}  ceiling +{}  +{} waiting{}\n".format(who, *own, len(waiting), listed)
        tally.check(re.search(row, page), f"{name}: {row!r} is not in {page!r}")
    tally.holds(page, f"\n  commons: {book['commons_used']} of {book['commons']} in use\n", name)
    tally.holds(page, f"\n  last served: shipper {book['last']}\n", name)


def booked(tally):
    """A line a step, with the book after it."""
    sessions = (EXAMPLES / "book.txt", EXAMPLES / "agreement.txt")
    for path in (*sessions, *sorted((EXAMPLES / "refusals").glob("book-*.txt"))):
        status, out, _ = called("book", path, "--json")
        lines = [parsed(line) for line in out.splitlines()]
        page = called("book", path)[1]
        tally.same([told["step"] for told in lines], re.findall("^> (.*)$", page, re.MULTILINE), f"{path.name}: steps")
        refused = [told for told in lines if told["outcome"] == "refused"]
        tally.same(bool(refused), status == 1, f"{path.name}: refusals")
        for told in lines:
            documented(tally, told, path.name)
            as_shown(tally, told["book"], page, f"{path.name}: {told['step']}")
        for told in refused:
            words = f"refused {told['refusal']['number']}: {told['refusal']['words']}"
            details = [detail["words"] for detail in told["refusal"]["details"]]
            tally.same(told["words"], "; ".join((words, *details)), path.name)
    told = parsed(called("book", EXAMPLES / "refusals" / "book-21-unknown-shipper.txt", "--json")[1].splitlines()[-1])
    detail = told["refusal"]["details"][0]
    tally.same((detail["field"], detail["range"]["low"], detail["range"]["high"]), ("shipper", 0, 3), "unknown shipper")
    for name, expected in FIGURE_FIELDS.items():
        told = parsed(called("book", EXAMPLES / "refusals" / name, "--json")[1].splitlines()[-1])
        [detail] = told["refusal"]["details"]
        found = (detail["field"], detail["value"]["count"], detail["range"]["low"], detail["range"]["high"])
        tally.same(found, expected, name)


def moved(tally):
    """Both files of run records: how many, how long, by which digest they are known."""
    short, long = (EXAMPLES / name for name in ("runs.records", "runs-long.records"))
    for direction, (old, new) in {"forward": (short, long), "back": (long, short)}.items():
        status, line, err = called("move", old, *asked_of(old), "--json")
        told = parsed(line)
        files = [
            {"form": "long" if path is long else "short", "records": 5, "length": path.stat().st_size,
             "sha256": sha256(path.read_bytes()).hexdigest()}
            for path in (old, new)
        ]  # fmt: skip
        named = [{"file": str(old), **files[0]}, {"file": "/dev/null", **files[1]}]
        tally.same((status, err, told["outcome"], told["direction"]), (0, "", "accepted", direction), direction)
        tally.same([told["from"], told["to"]], named, direction)
        documented(tally, told, direction)


def begun(tally):
    told = parsed(called("new", "ticket", "--json")[1])
    tally.same((told["kind"], told["text"]), ("ticket", called("new", "ticket")[1]), "new")
    documented(tally, told, "new")


def test():
    tally = Tally("JSON")
    for path in sorted(EXAMPLES.iterdir()):
        command = COMMANDS.get(path.name, "prove")
        if path.suffix in (".toml", ".record") or command == "look-up":
            accepted(tally, path, command)
    for path in sorted((EXAMPLES / "refusals").iterdir()):
        if path.suffix in (".toml", ".record", ".records", ".csv"):
            refused(tally, path)
    for part in (values, booked, begun, moved):
        part(tally)
    for part in (bad, reworked):
        with tempfile.TemporaryDirectory() as folder:
            part(tally, Path(folder))
    return tally
