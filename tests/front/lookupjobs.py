"""Jobs that look F up: the same figures as the same job with all F typed, the page tells them apart; what is told of
[compressibility]; a table that changes is seen."""

import json
import random
import re
import shutil
import tempfile
from hashlib import sha256
from pathlib import Path

import tabletexts
from harness import ROOT, Tally, called
from reports import widest
from tabletexts import csv_of

from front import jobs
from front import worked as works
from front.program import Program
from front.units import shown

EXAMPLES = ROOT / "examples"
PROVING, TICKET = ((EXAMPLES / name).read_text() for name in ("looked-up.toml", "ticket-looked-up.toml"))
TABLE = "table-for-trying.csv"
JOBS = 60
SIDES = ("prover", "meter")
KEYS = tuple(f"{side}_compressibility" for side in SIDES)
SHA = re.compile(r"SHA-256 of the table +([0-9a-f]{64})")


def texts_by_chance(rng):
    """A proving in which F is looked up, or typed at times; the same with all F typed; and its table."""
    source = (EXAMPLES / "figure-5.toml").read_text()
    head = re.sub(r"(?m)^(prover|meter)_compressibility.*\n", "", source[: source.index("[[run]]")])
    gravity, share = rng.randint(0, 900), rng.choice((0, 0, 0.3, 0.7))
    nearest = min(tabletexts.GRAVITIES, key=lambda each: abs(each - gravity))
    entries = [(t, nearest, rng.randint(300, 3000)) for t in range(600, 701, 5)]
    looked_up = typed = ""
    for _ in range(rng.randint(5, 20)):
        run = f"[[run]]\npulses = {rng.randint(17742, 17746)}\n"
        looked_up, typed = looked_up + run, typed + run
        for side in SIDES:
            temperature, is_typed = rng.randint(598, 702), rng.random() < share
            f = rng.randint(300, 3000) if is_typed else min(entries, key=lambda each: abs(each[0] - temperature))[2]
            said = f"{side}_temperature = {shown(temperature, 1)}\n"
            given = f"{side}_compressibility = {shown(f, 8)}\n"
            looked_up += said + (given if is_typed else "")
            typed += said + given
    said = f'[compressibility]\ngravity = {shown(gravity, 1)}\ntable = "table.csv"\n'
    return head + said + looked_up, head + typed, csv_of(entries)


def from_anywhere(tally, folder, program):
    """Runs of a CSV with a column of F that some fill, and a run as its record: what is typed stays, the rest is looked
    up; bytes that no field names are not lost on the way."""
    whole = works.work(jobs.read(str(EXAMPLES / "looked-up.toml")), program).job
    job, top = folder / "mixed.toml", PROVING[: PROVING.index("[[run]]")]
    rows = [f"pulses,prover_temperature,meter_temperature,{KEYS[1]}"]
    for at, run in enumerate(whole.runs):
        prover, meter = (shown(run.counts[f"{side}_temperature"], 1) for side in SIDES)
        rows.append(f"{run.counts['pulses']},{prover},{meter},{'0.00000700' if at == 2 else ''}")
    (folder / "runs.csv").write_text("\n".join(rows))
    job.write_text(f'{top}[runs]\nfile = "runs.csv"\n')
    own = works.work(jobs.read(str(job)), program).job
    counts = [[run.counts[key] for key in KEYS] for run in own.runs]
    expected = [[run.counts[key] for key in KEYS] for run in whole.runs]
    expected[2][1] = 700
    tally.same(counts, expected, "a column that some fill")
    digest = sha256(b"".join(each.read_bytes() for each in (job, folder / "runs.csv", folder / TABLE))).hexdigest()
    tally.same(own.digest, digest, "the digest is of all three files")
    record = whole.runs[0].record[:-1] + b"\x01"
    job.write_text(f'{PROVING}[[run]]\nrecord = "{record.hex()}"\n')
    words = "refused 2: an unnamed byte is not zero\n   run 6: byte 31 is 01, range 00\n"
    tally.same(called("prove", job), (1, "", f"{job}: {words}"), "a run as its record")


def widest_look_up(folder):
    """A job of twenty runs that finds forty entries, every figure at its widest; its headings are not."""
    text = next(text for text in widest() if "prover_equilibrium_pressure = 1000" in text)
    head = text[: text.index("[heading]")] + text[text.index("[prover]") : text.index("[[run]]")]
    head = re.sub(r"(?m)^(prover|meter)_(compressibility|temperature) = .*\n", "", head)
    temperatures = iter(tabletexts.TEMPERATURES)
    run = "[[run]]\npulses = 100000000\nprover_temperature = {}\nmeter_temperature = {}\n"
    runs = "".join(run.format(*(shown(next(temperatures), 1) for _ in KEYS)) for _ in range(20))
    (folder / "widest.csv").write_text(csv_of([(t, 900, 10000) for t in tabletexts.TEMPERATURES], ["# " + "w " * 60]))
    job = folder / "widest.toml"
    job.write_text(f'{head}[compressibility]\ngravity = 90.0\ntable = "widest.csv"\n{runs}')
    return job


def same_figures(tally, folder, program):
    """A job that looks F up comes to what the same job does with all F typed."""
    rng, job, table, mixed = random.Random(63), folder / "job.toml", folder / "table.csv", 0
    for number in range(JOBS):
        text, typed, content = texts_by_chance(rng)
        table.write_text(content)
        job.write_text(typed)
        other = works.work(jobs.read(str(job)), program)
        job.write_text(text)
        own = works.work(jobs.read(str(job)), program)
        where = f"job {number}"
        tally.same(own.job.records, other.job.records, f"{where}: records")
        tally.same((own.answer, own.runs, own.group), (other.answer, other.runs, other.group), f"{where}: figures")
        runs = text.split("[[run]]")[1:]
        left_out = [(at, key) for at, run in enumerate(runs, 1) for key in KEYS if f"{key} =" not in run]
        tally.same([each[:2] for each in own.job.look_up.sought], left_out, f"{where}: what is looked up")
        mixed += 0 < len(left_out) < len(runs) * len(KEYS)
        told(tally, own.job, called("prove", job)[1], content, where)
    tally.check(mixed > JOBS // 5, f"{mixed} jobs with some F typed")


def told(tally, job, page, content, where):
    """A page has the table's SHA-256 and each entry, with its line; and says which F is typed, if any is."""
    tally.check(max(map(len, page.splitlines())) <= 100, f"{where}: a line is too long")
    tally.same(SHA.findall(page), [sha256(content.encode()).hexdigest()], f"{where}: the table's SHA-256")
    for entry in job.look_up.found.values():
        # From the least to the most of those asked that led to it.
        asked = [shown(each, 1) for each, own in sorted(job.look_up.found.items()) if own == entry]
        first = asked[0] if len(asked) == 1 else f"{asked[0]} to {asked[-1]}"
        cells = (first, shown(entry.temperature, 1), shown(entry.compressibility, 8), str(entry.line))
        tally.check(re.search(r"\b" + r" +".join(map(re.escape, cells)) + r"\b", page), f"{where}: {cells}")
        row = content.splitlines()[entry.line - 1].split(",")
        tally.same(row[::2], [shown(entry.temperature, 1), shown(entry.compressibility, 3)], f"{where}: its line")
    note = re.search(r"F is looked up by T and the gravity(?:[^.]|\n)*\.", page)[0]
    said = " ".join(note.split()).removeprefix("F is looked up by T and the gravity").rstrip(".")
    tally.same(said, source(job.look_up.sought, len(job.runs)), f"{where}: which F is looked up")


def source(sought, count):
    """The same words, by what is sought and how many runs there are."""
    sides = []
    for key in KEYS:
        runs = [each.run for each in sought if each.key == key]
        of = "every run" if len(runs) == count else f"run {runs[0]}" if len(runs) == 1 else f"runs {spans(runs)}"
        sides += [f"at the {key.split('_')[0]} of {of}"] if runs else []
    if len(sought) == count * len(KEYS):
        return ""
    return f" {' and '.join(sides)}; every other F is given"


def spans(numbers):
    """Numbers that rise, in words."""
    ends = [at for at, number in enumerate(numbers) if number + 1 not in numbers]
    starts = [0, *(at + 1 for at in ends[:-1])]
    pairs = [(numbers[first], numbers[last]) for first, last in zip(starts, ends)]
    return ", ".join(str(first) if first == last else f"{first} to {last}" for first, last in pairs)


def out_of_range(tally, folder, program):
    """A run's temperature that is out of range is the job's own 5, and nothing is looked up for it."""
    job, page = folder / "hot.toml", folder / "hot.html"
    job.write_text(changed(PROVING, "prover_temperature = 63.5", "prover_temperature = 250.0"))
    words = "refused 5: record field out of range\n   run 3: prover temperature is 250.0 °F, range -20.0 to 200.0 °F\n"
    tally.same(called("prove", job), (1, "", f"{job}: {words}"), "a temperature out of range")
    runs = json.loads(called("prove", job, "--json")[1])["runs"]
    found = [run["prover_compressibility"] and run["prover_compressibility"]["count"] for run in runs]
    tally.same(found, [823, 823, None, 827, 827], "an F that is not looked up")
    called("prove", job, "--html", page)
    tally.same(called("verify", page, job)[0], 0, "the page of a refused job")


def missed(tally, folder, program):
    """Of pairs that the table lacks each temperature is told once; what was found is on the page and in the JSON."""
    job, page = folder / "missed.toml", folder / "missed.html"
    job.write_text(PROVING.replace("temperature = 64.0", "temperature = 70.3").replace("= 65.5", "= -20.0"))
    words = "no entry lies within a quarter of a degree of"
    expected = f"""{job}: refused 33: no such pair
   run 4, prover F: {TABLE}: {words} 70.3 °F and 63.7 °API
   run 4, meter F: {TABLE}: {words} -20.0 °F and 63.7 °API
   entries of the table: 9, of 62.5 to 65.5 °F and 63.5 to 64.0 °API
"""
    tally.same(called("prove", job, "--html", page), (1, "", expected), "two pairs that are missing")
    told = json.loads(called("prove", job, "--json")[1])
    tally.same([each["asked"]["count"] for each in told["look_up"]["found"]], [630, 635, 645], "what was found")
    tally.same([each.get("run") for each in told["refusal"]["details"]], [4, 4, None], "the runs")
    for part in ("NOT ACCEPTED: refused 33", "0.00000825", "70.3"):
        tally.holds(page.read_text(), part, "the page of a refused look-up")
    tally.same(called("verify", page, job)[0], 0, "the page of a refused look-up")
    results = folder / "missed.csv"
    called("rework", job, "--csv", results)
    for part in (",refused,8,", ",33,0,refused 33: no such pair; run 4,"):
        tally.holds(results.read_text("utf-8-sig").replace('"', ""), part, "its row")
    tally.same(called("verify", results, job)[0], 0, "its row")


def changed(text, old, new):
    assert old in text, old
    return text.replace(old, new)


def bad_jobs(tally, folder, program):
    """What is told of a [compressibility] that is not as it should be, and of an F that is missing without one."""
    job, nothing = folder / "bad.toml", "looks nothing up, since every {} has its F: leave out the F that it is for"
    both = "[every_run]\nprover_compressibility = 8e-6\nmeter_compressibility = 8e-6\n"
    without = {"prove": PROVING.index("[compressibility]"), "ticket": TICKET.index("[compressibility]")}
    cases = (
        ("prove", changed(PROVING, "[every_run]\n", both), f"[compressibility]: {nothing.format('run')}"),
        ("ticket", changed(TICKET, "[ticket]\n", "[ticket]\ncompressibility = 8e-6\n"),
         f"[compressibility]: {nothing.format('ticket')}"),
        ("prove", changed(PROVING, "gravity = 63.7", "gravity = 63.75"), "[compressibility], gravity: 63.75 has more"),
        ("prove", changed(PROVING, "gravity =", "temperature = 63.7\ngravity ="),
         "[compressibility], temperature: is not said here: F is looked up by the temperature of its own side and run"),
        ("ticket", changed(TICKET, "temperature = 64.6", ""),
         "[compressibility], temperature: missing: expected the temperature, -20.0 to 200.0 °F"),
        ("prove", changed(PROVING, "gravity = 63.7", ""),
         "[compressibility], gravity: missing: expected the API gravity, 0.0 to 90.0 °API"),
        ("prove", re.sub("table = .*", "", PROVING),
         "[compressibility], table: missing: expected the name of a CSV with an entry a line"),
        ("prove", re.sub("table = .*", 'table = "none.csv"', PROVING),
         "[compressibility], table: none.csv cannot be read: No such file or directory"),
        ("prove", re.sub("table = .*", "table = 3", PROVING), "[compressibility], table: expected text in quotes"),
        ("prove", changed(PROVING, "gravity =", "gravty ="), "[compressibility], gravty: unknown key: did you mean"),
        ("prove", changed(PROVING, "[compressibility]", "[[compressibility]]"),
         "[compressibility]: expected a table, found a list"),
        ("prove", changed(PROVING, "[prover]\n", "[prover]\ngravity = 63.7\n"),
         "[prover], gravity: stands in [prover] and belongs in [compressibility]"),
        ("ticket", f"compressibility = 8e-6\n{TICKET[: without['ticket']]}",
         "compressibility: stands at the top of the file and belongs in [ticket]"),
        ("ticket", TICKET[: without["ticket"]], "[ticket], compressibility: missing: expected the compressibility F, "),
        ("prove", PROVING[: without["prove"]] + PROVING[PROVING.index("[every_run]") :],
         "run 1, prover_compressibility: missing: expected the prover compressibility F, "),
    )  # fmt: skip
    for command, text, expected in cases:
        job.write_text(text)
        status, out, err = called(command, job)
        tally.check(status == 2 and not out and f": {expected}" in err, f"expected {expected!r}, found {err!r}")


def seen(tally, folder, program):
    """A table is an input: it is not written over, and one that changes after the report was written is seen."""
    table = folder / TABLE
    content = table.read_text()
    for kind, text in (("prove", PROVING), ("ticket", TICKET)):
        job = folder / f"{kind}.toml"
        job.write_text(text)
        reports = page, sheet, results = [folder / f"{kind}-{end}" for end in ("page.html", "sheet.csv", "results.csv")]
        for words in ((kind, job, "--worksheet", table), ("rework", job, "--csv", table)):
            status, _, err = called(*words, "--force")
            tally.check(status == 2 and "is read by this command" in err, f"{words[0]} onto the table: {err}")
        tally.same(table.read_text(), content, f"{kind}: the table")
        called(kind, job, "--html", page, "--worksheet", sheet)
        called("rework", job, "--csv", results)
        known = f'"{TABLE}, SHA-256 {sha256(content.encode()).hexdigest()}"'
        for part in (",looked up,", known, "F's line in the table,,,"):
            tally.holds(sheet.read_text("utf-8-sig"), part, f"{kind}: worksheet")
        for report in reports:
            tally.same(called("verify", report, job)[0], 0, f"{kind}: {report.name}")
        for other in (changed(content, "0.829", "0.828"), changed(content, "Made", "made"), f"{content}\n"):
            table.write_text(other)
            for report in reports:
                status, out, _ = called("verify", report, job)
                tally.check(status == 1 and "is not that job's" in out, f"{report.name} of another table: {out}")
        table.write_text(content)
    job, table = folder / "onto.toml", folder / "onto.html"
    job.write_text(changed(TICKET, TABLE, table.name))
    table.write_text(content)
    status, _, err = called("rework", job, "--reports", folder, "--csv", folder / "onto.csv", "--force")
    told = f"{table}: cannot be written: it is read by that job\n"
    tally.same((status, err, table.read_text()), (3, told, content), "a page onto the table")


def test():
    tally = Tally("jobs that look F up")
    with tempfile.TemporaryDirectory() as folder, Program() as program:
        shutil.copy(EXAMPLES / TABLE, folder)
        for part in (same_figures, from_anywhere, out_of_range, missed, bad_jobs, seen):
            part(tally, Path(folder), program)
    return tally
