"""verify: everything that is made of a job is known as the job's wherever both lie, and nothing else is."""

import csv
import json
import random
import re
import shutil
import tempfile
from pathlib import Path

from harness import ROOT, Tally, called

EXAMPLES = ROOT / "examples"
JOBS = {
    "prove": (
        "second-five.toml", "figure-6.toml", "looked-up.toml", "interpolated.toml", "refusals/prove-09-runs-drift.toml",
    ),
    "draw": (
        "water-draw.toml", "refusals/draw-09-passes-drift.toml",
        "bidirectional-draw.toml", "refusals/bidirectional-09-trips-drift.toml",
    ),
    "ticket": ("ticket.toml", "ticket-propane.toml", "ticket-looked-up.toml"),
}  # fmt: skip
OTHER = EXAMPLES / "figure-5.toml"
DAMAGED = 12
SAME = "is that job's, and all of it is what Endakuro 1.0 makes of it"
# A digit of each file that is changed: what stands there, and what instead.
CHANGES = {
    "page.txt": (b"Worked by", b"worked by"),
    "page.html": (b"</dd></div></dl>", b"9</dd></div></dl>"),
    "page.svg": (b'class="run', b'class="ran'),
    "page.json": (b'"count": 1', b'"count": 2'),
    "page.csv": (b"=ROUND(", b"=FLOOR("),
}


def made(kind, job, folder):
    """All that a command makes of a job."""
    named = {"--html": "page.html", "--worksheet": "page.csv"} | ({"--plot": "page.svg"} if kind == "prove" else {})
    words = [word for option, name in named.items() for word in (option, folder / name)]
    _, text, _ = called(kind, job, *words)
    (folder / "page.txt").write_text(text)
    called(kind, job, "--worksheet", folder / "page.xlsx")
    (folder / "page.json").write_text(called(kind, job, "--json")[1])
    return [*named.values(), "page.txt", "page.xlsx", "page.json"]


def one(tally, kind, example):
    with tempfile.TemporaryDirectory() as first, tempfile.TemporaryDirectory() as second:
        job, moved = Path(first) / "job.toml", Path(second) / "a job file of another name.toml"
        shutil.copy(EXAMPLES / example, job)
        for place in (first, second):
            shutil.copy(EXAMPLES / "table-for-trying.csv", place)
        names = made(kind, job, Path(first))
        shutil.move(job, moved)
        for name in names:
            report = Path(first) / name
            tally.same(called("verify", report, moved)[:2], (0, f"{report}: {SAME}\n"), f"{example}: {name}")
            status, out, _ = called("verify", report, OTHER)
            tally.check(status == 1 and "is not that job's: it is of the job file" in out, f"{example}: {name}: {out}")
            if name in CHANGES:
                old, new = CHANGES[name]
                tally.check(old in report.read_bytes(), f"{example}: {name} has no {old}")
                report.write_bytes(report.read_bytes().replace(old, new, 1))
                status, out, _ = called("verify", report, moved)
                told = "carries that job's SHA-256, but is not what Endakuro 1.0 makes of it: "
                tally.check(status == 1 and told in out, f"{example}: {name} changed: {status} {out}")


def damaged(tally, folder):
    """Reports cut off or with a byte changed behind the SHA-256: never the job's, and never an unexpected error."""
    rng, job = random.Random(41), EXAMPLES / "second-five.toml"
    for name in made("prove", job, folder):
        report, whole = folder / name, (folder / name).read_bytes()
        first = max((found.end() for found in re.finditer(rb"[0-9a-f]{64}", whole)), default=0)
        for number in range(DAMAGED):
            at = rng.randrange(first, len(whole) - 1)
            other = bytes([(whole[at] + rng.randrange(1, 256)) % 256])
            report.write_bytes(whole[:at] if number % 3 == 0 else whole[:at] + other + whole[at + 1 :])
            status, out, err = called("verify", report, job)
            # A workbook also has bytes that say nothing, as the hour at which it was packed.
            wanted = (0, 1, 2) if name == "page.xlsx" else (1,)
            tally.check(status in wanted, f"{name} damaged at {at}: {status} {out} {err}")


def rows(tally, folder):
    """A row of rework's results, and a record."""
    job = folder / "job.toml"
    shutil.copy(EXAMPLES / "second-five.toml", job)
    results = folder / "results.csv"
    called("rework", folder, "--csv", results)
    tally.same(called("verify", results, job)[:2], (0, f"{results}: {SAME}\n"), "a row of results")
    tally.same(called("verify", results, OTHER)[0], 1, "no row of results")
    text = results.read_text("utf-8-sig")
    at = next(iter(csv.DictReader(text.splitlines())))["meter factor"]
    results.write_text(text.replace(at, "1.0009"), "utf-8-sig")
    status, out, _ = called("verify", results, job)
    tally.check(status == 1 and out.endswith("meter factor is 1.0009\n"), f"a row changed: {out}")
    record = EXAMPLES / "report-7.record"
    tally.same(called("verify", record, job)[:2], (0, f"{record}: is that job's record\n"), "a record")
    tally.same(called("verify", record, OTHER)[0], 1, "another job's record")
    told = json.loads(called("verify", record, OTHER, "--json")[1])
    tally.same((told["command"], told["outcome"]), ("verify", "other job"), "verify --json")
    status, _, err = called("verify", ROOT / "crates.txt", job)
    tally.check(status == 2 and "carries no SHA-256 of a job file" in err, f"no report: {err}")
    status, _, err = called("verify", folder / "nowhere", job)
    tally.same(status, 2, "a report that is not there")


def refused(tally, folder):
    """A page for print of a job without figures."""
    job, out = EXAMPLES / "refusals" / "prove-05-too-hot.toml", folder / "page.html"
    called("prove", job, "--html", out)
    tally.same(called("verify", out, job)[0], 0, "a refused job's page")
    accepted = out.read_text().replace("NOT ACCEPTED: refused 5", "accepted")
    out.write_text(accepted)
    tally.same(called("verify", out, job)[0], 1, "a refused job's page without its verdict")


def test():
    tally = Tally("verify")
    for kind, examples in JOBS.items():
        for example in examples:
            one(tally, kind, example)
    for part in (damaged, rows, refused):
        with tempfile.TemporaryDirectory() as folder:
            part(tally, Path(folder))
    return tally
