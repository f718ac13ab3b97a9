"""The equilibrium pressure of liquids that boil: where a file may say it, what is refused at its ends and in which
words, and that pages and worksheets have a word of it only where a liquid has one."""

import json
import tempfile
import tomllib
from pathlib import Path

from harness import ROOT, Tally, called

from front import jobs, worksheets
from front import worked as works
from front.program import Program

EXAMPLES = ROOT / "examples"
PROPANE, TICKET = ((EXAMPLES / name).read_text() for name in ("figure-6.toml", "ticket-propane.toml"))
SAID = "prover_equilibrium_pressure = 115 # psi gage\nmeter_equilibrium_pressure = 115\n"
ON_TICKET = "equilibrium_pressure = 115 # psi gage\n"
# Jobs of liquids that do not boil, by their kind.
STILL = {
    "prove": ("figure-5", "worked-run", "second-five", "flow-computer", "refusals/prove-09-runs-drift"),
    "draw": ("water-draw", "bidirectional-draw"),
    "ticket": ("ticket", "ticket-figure-7"),
}
SIDES = {"prover": 385, "meter": 395}
OTHER = {"prover": "meter", "meter": "prover"}
FROM_PE, FROM_ZERO = "1 / (1 - F x (P - Pe))", "1 / (1 - F x P)"


def changed(text, old, new):
    assert old in text, old
    return text.replace(old, new)


def one_side(side, equilibrium, pressure=None):
    """Figure 6 with an equilibrium pressure on one side alone, and with this pressure there."""
    text = changed(PROPANE, SAID, f"{side}_equilibrium_pressure = {equilibrium}\n")
    own = f"{side}_pressure = "
    return text if pressure is None else changed(text, f"{own}{SIDES[side]}", f"{own}{pressure}")


def from_csv(path, headings, said=""):
    """Figure 6 with its runs in a CSV, which has both equilibrium pressures under these headings."""
    runs = tomllib.loads(PROPANE, parse_float=str)["run"]
    rows = [",".join([*runs[0], *headings]), *(",".join([*map(str, run.values()), "115", "115"]) for run in runs)]
    path.with_suffix(".csv").write_text("\n".join(rows))
    top = PROPANE[: PROPANE.index("[[run]]")]
    return changed(top, SAID, said) + f'[runs]\nfile = "{path.stem}.csv"\n'


def same_records(tally, path):
    """Every way to say it makes the same records: the prover's at byte 20, the meter's at 22."""
    expected = jobs.read(str(EXAMPLES / "figure-6.toml"))
    for number, run in enumerate(expected.runs, 1):
        tally.same(run.record[20:24].hex(), "73007300", f"figure-6: run {number}")
    in_each = changed(PROPANE, "[[run]]\n", f"[[run]]\n{SAID}")
    records = "".join(f'[[run]]\nrecord = "{run.record.hex()}"\n' for run in expected.runs)
    ways = {
        "in each run": in_each.replace(SAID, "", 1),
        "a run's own wins": in_each.replace("pressure = 115", "pressure = 77", 2),
        "with its unit": changed(PROPANE, "equilibrium_pressure = 115", 'equilibrium_pressure = "115 psig"'),
        "as a record": changed(PROPANE[: PROPANE.index("[[run]]")], SAID, "") + records,
    }
    for name, text in ways.items():
        path.write_text(text)
        tally.same(jobs.read(str(path), "prove").records, expected.records, name)
    for headings in (
        ("prover_equilibrium_pressure", "meter_equilibrium_pressure"),
        ("Prover equilibrium pressure (psi)", "METER EQUILIBRIUM PRESSURE [psig]"),
    ):
        path.write_text(from_csv(path, headings))
        tally.same(jobs.read(str(path), "prove").records, expected.records, f"in a CSV under {headings[0]}")
    path.write_text(PROPANE.replace("prover_equilibrium_pressure = 115", "prover_equilibrium_pressure = 258"))
    tally.same(jobs.read(str(path)).runs[0].record[20:24].hex(), "02017300", "each side in its place")
    path.write_text(changed(PROPANE, SAID, ""))
    left_out = jobs.read(str(path)).records
    tally.same({left_out[at + 20 : at + 24] for at in range(0, len(left_out), 32)}, {bytes(4)}, "left out")
    path.write_text(PROPANE.replace("pressure = 115", "pressure = 0"))
    tally.same(jobs.read(str(path)).records, left_out, "0 is as good as left out")


def empty_cell(tally, path):
    """A cell of its column that is empty is a pressure that is missing, not 0, unless every run has one."""
    keys, runs = ("prover_equilibrium_pressure", "meter_equilibrium_pressure"), path.with_suffix(".csv")
    for said, expected in (("", 2), (SAID, 0)):
        path.write_text(from_csv(path, keys, said))
        runs.write_text(changed(runs.read_text(), "28635,76.8,76.0,115,115", "28635,76.8,76.0,,115"))
        status, _, err = called("prove", path)
        tally.same(status, expected, f"an empty cell: {err}")
        wanted = "the prover equilibrium pressure Pe, 0 to 1,500 psi"
        missing = f"{runs}: line 4: run 3, {keys[0]}: missing: expected {wanted}\n"
        tally.same(missing in err, expected == 2, f"an empty cell: {err}")
    whole = jobs.read(str(EXAMPLES / "figure-6.toml"))
    tally.same(jobs.read(str(path)).records, whole.records, "an empty cell that every run's fills")


def unnamed_bytes(tally, path):
    """Bytes 20 to 23 are read; those behind them are unnamed still."""
    record, third = jobs.read(str(EXAMPLES / "figure-6.toml")).runs[0].record, "[[run]]\npulses = 28635\n"
    for place in range(20, 32):
        own = record[:place] + b"\x01" + record[place + 1 :]
        path.write_text(changed(PROPANE, third, f'[[run]]\nrecord = "{own.hex()}"\n{third}'))
        status, _, err = called("prove", path)
        if place < 24:
            tally.check("refused 2" not in err, f"byte {place}: {err}")
        else:
            told = f"refused 2: an unnamed byte is not zero\n   run 3: byte {place} is 01, range 00\n"
            tally.same((status, err), (1, f"{path}: {told}"), f"byte {place}")


def ends(tally, path):
    """At P there is no correction; one above it is refused in the place of a range fault of that P."""
    head = "refused 5: record field out of range"
    for side, pressure in SIDES.items():
        path.write_text(one_side(side, pressure))
        told = json.loads(called("prove", path, "--json")[1])
        tally.same({run[f"{side}_cpl"]["count"] for run in told["runs"]}, {10000}, f"{side}: Pe = P")
        for equilibrium, own in ((pressure + 1, pressure), (1, 0), (1500, 1499), (116, 115)):
            path.write_text(one_side(side, equilibrium, own))
            found = f"{side} equilibrium pressure Pe is {equilibrium:,} psi, above the {side} pressure"
            words = f"{found}, range 0 to {own:,} psi"
            expected = (1, "", f"{path}: {head}\n   run 1: {words}\n")
            tally.same(called("prove", path), expected, f"{side}: {equilibrium} above {own}")
        for equilibrium in (1501, 65535):
            path.write_text(one_side(side, equilibrium))
            words = f"{side} equilibrium pressure Pe is {equilibrium:,} psi, range 0 to 1,500 psi"
            expected = (1, "", f"{path}: {head}\n   run 1: {words}\n")
            tally.same(called("prove", path), expected, f"{side}: {equilibrium}")
        path.write_text(one_side(side, 65536))
        expected = f"{side}_equilibrium_pressure: 65,536 psi does not fit its place: expected 0 to 1,500 psi"
        status, _, err = called("prove", path)
        tally.check(status == 2 and expected in err, f"{side}: 65536: {err}")
    text = changed(PROPANE, "pressure = 115", "pressure = 700")
    path.write_text(changed(text, "prover_temperature = 76.6", "prover_temperature = 250.0"))
    told = json.loads(called("prove", path, "--json")[1])["refusal"]
    found = [(each["field"], each["value"]["count"], each["range"]["high"]) for each in told["details"]]
    both = [("prover_equilibrium_pressure", 700, 385), ("meter_equilibrium_pressure", 700, 395)]
    expected = (5, 1, [("prover_temperature", 2500, 2000), *both])
    tally.same((told["number"], told["record"], found), expected, "both sides and a temperature at once")


def ticket_ends(tally, path):
    head = "refused 10: ticket field out of range"
    for equilibrium, words in (
        (396, "equilibrium pressure Pe is 396 psi, above the pressure, range 0 to 395 psi"),
        (1501, "equilibrium pressure Pe is 1,501 psi, range 0 to 1,500 psi"),
    ):
        path.write_text(changed(TICKET, "pressure = 115", f"pressure = {equilibrium}"))
        tally.same(called("ticket", path), (1, "", f"{path}: {head}\n   {words}\n"), f"ticket: {equilibrium}")
    path.write_text(changed(TICKET, "pressure = 115", "pressure = 395"))
    tally.holds(called("ticket", path)[1], f"CPL                       1.0000, {FROM_PE}\n", "ticket: Pe = P")
    path.write_text(changed(TICKET, ON_TICKET, ""))
    page = called("ticket", path)[1]
    tally.holds(page, "CPL                       1.0114\n", "ticket: left out")
    path.write_text(changed(TICKET, "pressure = 115", "pressure = 0"))
    tally.same(below_head(called("ticket", path)[1]), below_head(page), "ticket: 0 is as good as left out")


def below_head(page):
    """A page without the lines that tell which file it is of."""
    return [line for line in page.splitlines() if "SHA-256" not in line and "Job file" not in line]


def made(kind, job, folder):
    """A job's page, page for print and worksheet."""
    named = {"--html": folder / "page.html", "--worksheet": folder / "page.csv"}
    page = called(kind, job, "--force", *(word for pair in named.items() for word in pair))[1]
    return {"page": page} | {option: path.read_text("utf-8-sig") for option, path in named.items()}


def unsaid(tally, folder):
    """Of a liquid that does not boil nothing says a word of it."""
    for kind, names in STILL.items():
        for name in names:
            for what, text in made(kind, EXAMPLES / f"{name}.toml", folder).items():
                for word in ("Pe", "quilibrium"):
                    tally.check(word not in text, f"{name}, {what}: {word}")
    for kind, text, word in (("prove", PROPANE, SAID), ("ticket", TICKET, ON_TICKET)):
        path = folder / "job.toml"
        path.write_text(text)
        for what, own in made(kind, path, folder).items():
            tally.check("Pe" in own and "115" in own and "(P - Pe)" in own, f"propane, {kind}, {what}")
        path.write_text(changed(text, word, ""))
        for what, own in made(kind, path, folder).items():
            tally.check("Pe" not in own and "quilibrium" not in own, f"without it, {kind}, {what}")


def one_side_alone(tally, path):
    """A side that has none has no column, no row, and its formula as it was."""
    for side, other in OTHER.items():
        path.write_text(one_side(side, 115))
        page = called("prove", path)[1]
        columns = next(line for line in page.splitlines() if line.startswith("   Run   | Pulses"))
        group = columns.split("|")[2 if side == "prover" else 3].split()
        tally.same((columns.split().count("Pe"), group), (1, ["T", "P", "Pe", "CTL", "F"]), f"{side} alone: columns")
        tally.holds(page, f"   CPL = {FROM_PE}; at the {other} Pe is 0.\n", f"{side} alone: the page")
        with Program() as program:
            sheet = worksheets.build(works.work(jobs.read(str(path)), program))
        tally.check(f"{other}_equilibrium_pressure" not in sheet.places, f"{side} alone: a row of the {other}'s")
        for each, taken in ((side, "({P}-{E})"), (other, "{P}")):
            keys = {"P": "pressure", "E": "equilibrium_pressure", "F": "compressibility"}
            at = {sign: sheet.cell(f"{each}_{key}") for sign, key in keys.items() if f"{each}_{key}" in sheet.places}
            formula = f"=ROUND(1000000000000/(100000000-{{F}}*{taken}),0)".format(**at)
            _, _, how, first, *_ = sheet.rows[sheet.places[f"{each}_cpl"]]
            tally.same((how, first), (FROM_PE if each == side else FROM_ZERO, formula), f"{side} alone: {each} CPL")
    path.write_text(PROPANE)
    tally.holds(called("prove", path)[1], f"   CPL = {FROM_PE}.\n", "both sides: the page")


def in_json(tally, path):
    """There are figures of it always."""
    keys = [f"{side}_equilibrium_pressure" for side in SIDES]
    for name, count in (("figure-5", 0), ("figure-6", 115)):
        told = json.loads(called("prove", EXAMPLES / f"{name}.toml", "--json")[1])
        found = [run[key] for run in told["runs"] for key in keys]
        tally.check(all(each == {"count": count, "unit": "psi", "decimals": 0} for each in found), f"{name}: {found}")
    for name, count in (("ticket", 0), ("ticket-propane", 115)):
        told = json.loads(called("ticket", EXAMPLES / f"{name}.toml", "--json")[1])
        found = told["readings"]["equilibrium_pressure"]
        tally.same(found, {"count": count, "unit": "psi", "decimals": 0}, name)


def earlier_json(tally, path):
    """JSON that an earlier version wrote, without these keys, is the job's still; a pressure put in is not."""
    for name in ("figure-5", "ticket", "figure-6", "ticket-propane"):
        kind, boils = name.split("-")[0].replace("figure", "prove"), name in ("figure-6", "ticket-propane")
        job = EXAMPLES / f"{name}.toml"
        told = json.loads(called(kind, job, "--json")[1])
        for record in (*told.get("runs", ()), told.get("readings", {})):
            for key in [key for key in record if "equilibrium" in key]:
                del record[key]
        path.write_text(json.dumps(told))
        tally.same(called("verify", path, job)[0], int(boils), f"{name}: without the keys")
        seven = {"count": 7, "unit": "psi", "decimals": 0}
        if kind == "prove":
            told["runs"][0]["prover_equilibrium_pressure"] = seven
        else:
            told["readings"]["equilibrium_pressure"] = seven
        path.write_text(json.dumps(told))
        tally.same(called("verify", path, job)[0], 1, f"{name}: with another")


def hints(tally, path):
    """What is said of keys that are nearly it."""
    for key, told in (
        ("prover_equilibrium", "did you mean prover_equilibrium_pressure?"),
        ("equilibrium_pressure", "did you mean prover_equilibrium_pressure or meter_equilibrium_pressure?"),
        ("meter_equilibrum_pressure", "did you mean meter_equilibrium_pressure?"),
    ):
        path.write_text(changed(PROPANE, SAID, f"{key} = 115\n"))
        status, _, err = called("prove", path)
        tally.check(status == 2 and f"[every_run], {key}: unknown key: {told}" in err, f"{key}: {err}")
    path.write_text(changed(PROPANE, "[meter]\n", "[meter]\nmeter_equilibrium_pressure = 115\n"))
    told = "stands in [meter] and belongs in [[run]] or [every_run]"
    tally.holds(called("prove", path)[2], f"[meter], meter_equilibrium_pressure: {told}", "in another table")


PARTS = (same_records, empty_cell, unnamed_bytes, ends, ticket_ends, one_side_alone, in_json, earlier_json, hints)


def test():
    tally = Tally("equilibrium pressure")
    with tempfile.TemporaryDirectory() as folder:
        for part in PARTS:
            part(tally, Path(folder) / "job.toml")
        unsaid(tally, Path(folder))
    return tally
