"""Reworking many jobs: the CSV, a line a refusal, the summary, the bar on a terminal; nothing lost on Ctrl-C."""

import csv
import io
import re
import shutil
import signal
import subprocess
import tempfile
import time
from hashlib import sha256
from pathlib import Path

import jobtexts
from examples import named
from harness import LAUNCHER, ROOT, Tally, at_terminal, called, run

from front import version
from front.results import COLUMNS

MANY = 3000
EXAMPLES = ROOT / "examples"
# The files that a job names, in the order in which they are read.
NAMED_FILE = re.compile(r'^(?:file|table) = "(.+?)"', re.MULTILINE)
HEADED = """\
[heading]
tank = "T-4"
meter = "{meter}"
date = 2026-11-15
liquid = "=cmd()"
"""


def rows_of(path):
    with open(path, newline="", encoding="utf-8-sig") as file:
        return list(csv.DictReader(file))


def mixed(tally, folder):
    """Jobs of every kind, refused ones and a bad file among them."""
    for path in [*EXAMPLES.glob("*"), *(EXAMPLES / "refusals").glob("*")]:
        if path.suffix in (".toml", ".csv"):
            shutil.copy(path, folder)
    (folder / "bad.toml").write_text("run = 3\n")
    (folder / "=cmd.toml").write_text("run = 3\n")
    files = sorted(folder.glob("*.toml"))
    status, out, err = run("rework", folder, "--csv", folder / "out.csv")
    rows = rows_of(folder / "out.csv")
    tally.same((status, err), (2, ""), "status and complaints")
    tally.same([row["file"].strip() for row in rows], [path.name for path in files], "a row a file, in order")
    tally.check(not any(row["file"].startswith("=") for row in rows), "a name has become a formula")
    tally.same(tuple(rows[0]), COLUMNS, "columns")
    for row, path in zip(rows, files):
        parts = row["file"].split("-")
        if len(parts) > 2 and parts[1].isdigit() and (EXAMPLES / "refusals" / row["file"]).exists():
            found = (row["job"], row["outcome"], int(row["refusal"]))
            command, number = named(path)
            tally.same(found, (command, "refused", number), row["file"])
            tally.holds(out, f"{folder / row['file']}: {row['words']}\n", "a line a refusal")
        named_by_it = [folder / name for name in NAMED_FILE.findall(path.read_text())]
        octets = b"".join(each.read_bytes() for each in (path, *named_by_it))
        tally.same(row["SHA-256"], sha256(octets).hexdigest(), f"{path.name}: digest")
        tally.same(row["version"], version.NAME, f"{path.name}: version")
    counts = {kind: sum(row["outcome"] == kind for row in rows) for kind in ("accepted", "refused", "bad file")}
    told = ", ".join(f"{count} {kind}" for kind, count in counts.items())
    tally.same(out.splitlines()[-1], f"{len(files)} jobs: {told}; results in {folder / 'out.csv'}", "summary")
    figures_of(tally, {row["file"]: row for row in rows})
    return files


def figures_of(tally, rows):
    """Each figure in its column, and none where a job has none."""
    record = (EXAMPLES / "report-7.record").read_bytes().hex(" ")
    for name, expected in (
        ("second-five.toml", {"meter factor": "1.0002", "first used": "2", "out of": "6", "request": "7",
         "K factor (pulses/bbl)": "10000.000", "base volume (bbl)": "20.0000", "limit (%)": "0.05",
         "spread (%)": "0.050", "report record": record, "gross (bbl)": ""}),
        ("interpolated.toml", {"outcome": "accepted", "meter factor": "0.9957", "first used": "1", "out of": "5",
         "K factor (pulses/bbl)": "1000.000", "base volume (bbl)": "0.6250", "spread (%)": "0.030"}),
        ("water-draw.toml", {"base volume (bbl)": "2.1832", "base volume (in³)": "21181.32", "first used": "1",
         "out of": "3", "limit (%)": "0.02", "spread (%)": "0.012", "meter factor": ""}),
        ("bidirectional-draw.toml", {"job": "draw", "base volume (bbl)": "4.3691", "base volume (in³)": "42389.19",
         "first used": "1", "out of": "6", "limit (%)": "0.02", "spread (%)": "0.009", "meter factor": ""}),
        ("ticket.toml", {"gross (bbl)": "495.65", "net (bbl)": "493.17", "meter factor": "1.0002", "request": ""}),
        ("live.toml", {"temperature (°F)": "73.3", "pressure (psi)": "40"}),
        ("live-celsius.toml", {"outcome": "accepted", "temperature (°F)": "72.5", "pressure (psi)": "40"}),
        ("panel.toml", {"job": "panel", "outcome": "accepted", "temperature (°F)": "73.3", "pressure (psi)": "40"}),
        ("panel-13-too-hot.toml", {"temperature (°F)": "200.1", "pressure (psi)": "40"}),
        ("bad.toml", {"outcome": "bad file", "job": "",
         "words": "line 1: run: expected [[run]], one table for each run, found a whole number; "
         "the table [meter] is missing; request: missing: expected the request number, 1 to 4,294,967,295; "
         "the table [prover] is missing"}),
        ("prove-09-runs-drift.toml", {"outcome": "refused", "meter factor": "", "base volume (bbl)": "20.0000",
         "spread (%)": "0.090"}),
        ("draw-09-passes-drift.toml", {"outcome": "refused", "base volume (bbl)": "", "spread (%)": "0.052"}),
        ("bidirectional-09-trips-drift.toml", {"outcome": "refused", "first used": "", "spread (%)": "0.052"}),
        ("prove-05-too-hot.toml", {"outcome": "refused", "spread (%)": ""}),
    ):  # fmt: skip
        tally.same({column: rows[name][column] for column in expected}, expected, name)


def headings(tally, folder):
    """What files say of themselves: columns, a summary a meter, the same request twice."""
    text = (EXAMPLES / "second-five.toml").read_text()
    text = text[: text.index("[heading]")] + text[text.index("[prover]") :]
    drift = (EXAMPLES / "refusals" / "prove-09-runs-drift.toml").read_text()
    assert "request = 7\n" in text
    for number, meter in enumerate(("FT-1", "FT-1", "FT-2")):
        own = text.replace("= 7\n", f"= {1 + number % 2}\n") + HEADED.format(meter=meter)
        (folder / f"{number}.toml").write_text(own)
    (folder / "3.toml").write_text(drift)
    status, out, _ = called("rework", folder, "--csv", folder / "out.csv")
    rows = rows_of(folder / "out.csv")
    tally.same(status, 1, "headings: status")
    told = {key: rows[0][key] for key in ("date", "meter", "liquid", "other headings", "title")}
    expected = {"date": "2026-11-15", "meter": "FT-1", "liquid": " =cmd()", "other headings": "tank: T-4", "title": ""}
    tally.same(told, expected, "headings")
    remark = "request 1 is that of 0.toml too"
    tally.same([row["remark"] for row in rows], ["", "", remark, ""], "the same request twice")
    tally.holds(out, f"{folder / '2.toml'}: {remark}\n", "the same request twice")
    meters = [line for line in out.splitlines() if line.startswith(("meter ", "no meter"))]
    factors = "; meter factor 1.0002 to 1.0002"
    tally.same(meters, [
        "no meter named: 1 provings, 0 accepted, 1 refused",
        f"meter FT-1: 2 provings, 2 accepted, 0 refused{factors}",
        f"meter FT-2: 1 provings, 1 accepted, 0 refused{factors}",
    ], "a summary a meter")  # fmt: skip


def places(tally, folder):
    """Several files and folders, folders inside, results on standard output."""
    one, two, inner = folder / "one", folder / "two", folder / "one" / "inner"
    inner.mkdir(parents=True)
    two.mkdir()
    (folder / "one" / "link").symlink_to(two)
    for place in (one / "a.toml", inner / "b.toml", two / "c.toml", folder / "named.txt", two / "notes.md"):
        shutil.copy(EXAMPLES / "ticket.toml", place)
    words = ("rework", one, two, folder / "named.txt", two / "c.toml", "--csv", "-")
    status, out, err = called(*words)
    found = [row["file"] for row in csv.DictReader(io.StringIO(out.removeprefix("\ufeff")))]
    tally.same((status, found), (0, [str(one / "a.toml"), str(two / "c.toml"), str(folder / "named.txt")]), "places")
    told = "left out: 2 folders inside (--recursive goes into them), 1 files that are not *.toml\n"
    told += "3 jobs: 3 accepted, 0 refused, 0 bad file; results in standard output\n"
    tally.same(err, told, "what is left out")
    status, out, err = called("rework", one, "--recursive", "--csv", "-")
    found = [row["file"] for row in csv.DictReader(io.StringIO(out.removeprefix("\ufeff")))]
    tally.same((status, found), (0, ["a.toml", "inner/b.toml"]), "--recursive")
    tally.holds(err, "left out: 1 links to folders\n", "--recursive")
    for place in (folder / "none", inner / "none.toml"):
        status, _, err = called("rework", one, place, "--csv", folder / "x.csv")
        told = f"{place}: cannot be read: No such file or directory\n"
        tally.same((status, err, (folder / "x.csv").exists()), (2, told, False), "a place that is not there")


def from_input(tally, folder):
    """A job from standard input stands in its place among the others; its page has a name of its own."""
    text = (EXAMPLES / "ticket.toml").read_text()
    (folder / "a.toml").write_text(text)
    reports = folder / "pages"
    status, out, err = called("rework", folder / "a.toml", "-", "-", "--csv", "-", "--reports", reports, given=text)
    rows = list(csv.DictReader(io.StringIO(out.removeprefix("\ufeff"))))
    tally.same((status, [row["file"] for row in rows]), (0, [str(folder / "a.toml"), "standard input"]), "-")
    tally.same({row["SHA-256"] for row in rows}, {sha256(text.encode()).hexdigest()}, "-: SHA-256")
    pages = sorted(path.name for path in reports.iterdir())
    tally.same(pages, ["a.html", "standard-input.html"], "-: pages")
    tally.holds((reports / "standard-input.html").read_text(), "<dd>standard input</dd>", "-: its page")
    status, out, err = called("rework", "-", "--csv", folder / "x.csv", given="[ticket]\nopening = 1\n")
    tally.same((status, rows_of(folder / "x.csv")[0]["SHA-256"]), (2, ""), "-: a bad file")
    tally.holds(err + out, "standard input: line 1: [ticket], closing", "-: a bad file")
    with open(folder / "a.toml") as given:
        command = [str(LAUNCHER), "rework", "-", "--csv", str(folder / "a.toml"), "--force"]
        done = subprocess.run(command, stdin=given, capture_output=True, text=True)
    tally.same((done.returncode, (folder / "a.toml").read_text()), (2, text), "-: results onto it")


def terminal(tally, folder, files):
    command = [str(LAUNCHER), "rework", str(folder), "--csv", str(folder / "out.csv"), "--force"]
    status, shown = at_terminal(command)
    tally.same(status, 2, "status at a terminal")
    tally.holds(shown, f"[{'#' * 30}] {len(files)} of {len(files)} jobs", "bar")
    tally.holds(shown, f"\n{len(files)} jobs: ", "summary at a terminal")


def statuses(tally, folder):
    for name in ("ticket.toml", "refusals/ticket-11-readings-exchanged.toml"):
        shutil.copy(EXAMPLES / name, folder)
        expected = 1 if "refusals" in name else 0
        tally.same(called("rework", folder, "--csv", folder / "out.csv", "--force")[0], expected, name)


def interrupted(tally, folder):
    """Ctrl-C in the midst of many jobs: every row that was counted is there, whole."""
    (folder / "0.toml").write_text(jobtexts.proving_text(jobtexts.days(1, 6)[0]))
    for number in range(1, MANY):
        (folder / f"{number}.toml").hardlink_to(folder / "0.toml")
    out = folder / "out.csv"
    process = subprocess.Popen(
        [str(LAUNCHER), "rework", str(folder), "--csv", str(out)], stdout=subprocess.PIPE, text=True, cwd="/"
    )
    while process.poll() is None and sum(part.stat().st_size for part in folder.glob(".*.part")) < 5000:
        time.sleep(0.01)
    tally.check(not out.exists(), "the CSV is in its place before it is whole")
    process.send_signal(signal.SIGINT)
    said, _ = process.communicate(timeout=60)
    rows = rows_of(out)
    tally.same(process.returncode, 130, "status after Ctrl-C")
    tally.check(0 < len(rows) < MANY, f"{len(rows)} rows: Ctrl-C came too late or too early")
    tally.check(all(None not in row.values() and row["outcome"] for row in rows), "a row is not whole")
    tally.holds(said.splitlines()[-1], f"stopped after {len(rows)} of {MANY} jobs: ", "summary after Ctrl-C")


def test():
    tally = Tally("rework")
    with tempfile.TemporaryDirectory() as folder:
        files = mixed(tally, Path(folder))
        terminal(tally, Path(folder), files)
    for part in (headings, places, from_input, statuses, interrupted):
        with tempfile.TemporaryDirectory() as folder:
            part(tally, Path(folder))
    return tally
