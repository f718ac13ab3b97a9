"""Pulses with up to three decimals: in which form a job's runs go to the program, the program's own answers on every
page, the same runs in either form; what is told of more decimals."""

import json
import random
import re
import struct
import tempfile
from pathlib import Path

import jobtexts
from harness import ROOT, Tally, called

from front import jobs
from front import worked as works
from front.program import Program, Refused, hexed
from front.records import LONG, SHORT

EXAMPLES = ROOT / "examples"
FIVE, LOOKED_UP = ((EXAMPLES / f"{name}.toml").read_text() for name in ("figure-5", "looked-up"))
HEAD = FIVE[: FIVE.index("[[run]]")]
JOBS = 60
# Ways to write the third count of Figure 5, and the same with a part of a pulse.
WHOLE = ("17746", "17746.0", "17746.000", "1.7746e4", '"17746 pulses"', '"17746.000 Pulses"', "17_746")
IN_PARTS = ("17746.125", "17746.1250", "1.7746125e4", "17_746.125", '"17746.125"', '"17746.125 pulses"', "17746125e-3")
CSV = "pulses,prover_temperature,meter_temperature\n17743,63.0,64.5\n17744,63.0,64.5\n{},63.5,64.5\n"
CSV += "17746,64.0,65.5\n17747,64.0,65.5\n"
# What a third count is told, and what of the rest of the job.
TOLD = {
    "17746.1255": "pulses: 17746.1255 has more digits than the unit, 0.001 pulse: expected at most 3 decimals, in pul",
    "1.77461255e4": "pulses: 1.77461255e4 has more digits than the unit, 0.001 pulse",
    '"17746.1255 pulses"': "pulses: 17746.1255 has more digits than the unit, 0.001 pulse",
    '"17,746.125"': "pulses: 17,746.125 has a comma: write 17746.125, without commas",
    '"17746,125"': "pulses: 17746,125 has a comma: write 17746.125, with a decimal point",
    '"17746.125 bbl"': "pulses: 17746.125 bbl is not in pulses: expected at most 3 decimals, in pulses",
    "nan": "pulses: nan is not a number: expected at most 3 decimals, in pulses",
    "true": "pulses: expected a number (at most 3 decimals, in pulses), found true or false",
    "-0.5": "pulses: -0.500 pulses does not fit its place: expected 1.000 to 100,000,000.000 pulses",
    "18446744073709551.616": "pulses: 18,446,744,073,709,551.616 pulses does not fit its place: expected 1.000 to",
    "-1": "pulses: -1 pulses does not fit its place: expected 1 to 100,000,000 pulses",
    "4294967296": "pulses: 4,294,967,296 pulses does not fit its place: expected 1 to 100,000,000 pulses",
}
# What the program says of a count that a file can hold.
REFUSED = {
    "0.5": "5: record field out of range\n   run 3: pulses is 0.500 pulses, range 1.000 to 100,000,000.000 pulses\n",
    "0.999": "5: record field out of range\n   run 3: pulses is 0.999 pulses, range 1.000 to 100,000,000.000 pulses\n",
    "100000000.001": "5: record field out of range\n   run 3: pulses is 100,000,000.001 pulses, range 1.000 to",
    "18446744073709551.615": "5: record field out of range\n   run 3: pulses is 18,446,744,073,709,551.615 pulses, ",
    "99999999.5": "7: indicated volume out of range after rounding\n   run 3: indicated volume is 99,999,999.500 pul",
    "35000.5": "8: run factor out of range\n   run 3: run factor is that of 35,000.500 pulses, 1,000.000 pulses/bbl ",
    "0": "5: record field out of range\n   run 3: pulses is 0 pulses, range 1 to 100,000,000 pulses\n",
}


def with_third(text, count):
    """Figure 5 with another count in its third run."""
    parts = text.split("pulses = 17746\n")
    assert len(parts) == 3
    return f"{parts[0]}pulses = {count}\n{parts[1]}pulses = 17746\n{parts[2]}"


def forms(tally, path):
    """Short, and the same bytes as ever, where every count is whole; else all of it long, by the paper's places."""
    short = jobs.read(str(EXAMPLES / "figure-5.toml"))
    tally.same((short.form, len(short.records)), (SHORT, 5 * 32), "figure-5")
    records = [lengthened(run.record) for run in short.runs]
    records[2] = struct.pack("<Q", 17_746_125) + records[2][8:]
    in_hex = "".join(f'[[run]]\nrecord = "{record.hex(" ")}"\n' for record in records)
    texts = {f"whole, {count}": (with_third(FIVE, count), SHORT, short.records) for count in WHOLE}
    texts |= {f"in parts, {count}": (with_third(FIVE, count), LONG, b"".join(records)) for count in IN_PARTS}
    texts["as records"] = HEAD + in_hex, LONG, b"".join(records)
    in_csv = f'{HEAD}[runs]\nfile = "runs.csv"\n'
    for name, content in (
        ("plain", CSV.format("17746.125")),
        ("with its unit", CSV.format("17746.125 pulses").replace(",", ";")),
        ("its unit in the heading", CSV.format("17746.125").replace("pulses,", "Pulses (pulses),")),
    ):
        path.with_name("runs.csv").write_text(content)
        path.write_text(in_csv)
        job = jobs.read(str(path))
        tally.same((job.form, job.records), (LONG, b"".join(records)), f"in a CSV, {name}")
    for name, (text, form, expected) in texts.items():
        path.write_text(text)
        job = jobs.read(str(path))
        tally.same((job.form, job.records), (form, expected), name)
    shared = re.sub(r"pulses = \d+\n", "", FIVE).replace("[every_run]\n", "[every_run]\npulses = 17746.125\n")
    path.write_text(shared)
    tally.same([run.counts["pulses"] for run in jobs.read(str(path)).runs], [17_746_125] * 5, "in [every_run]")


def lengthened(record):
    """02: pulses in thousandths (8 bytes), 'then the old bytes 4 to 31 at 8 to 35, then zeros'."""
    return struct.pack("<Q", struct.unpack("<I", record[:4])[0] * 1000) + record[4:] + bytes(12)


def faults(tally, path):
    """What is told of a count that cannot be taken, with its line; what is refused, by the run's number."""
    line = FIVE[: FIVE.index("pulses = 17746")].count("\n") + 1
    for count, words in TOLD.items():
        path.write_text(with_third(FIVE, count))
        status, out, err = called("prove", path)
        tally.same((status, out, err.count(": line ")), (2, "", 1), f"{count}: {err}")
        tally.check(err.startswith(f"{path}: line {line}: run 3, {words}"), f"{count}: expected {words}, found {err}")
    for count, words in REFUSED.items():
        path.write_text(with_third(FIVE, count))
        status, out, err = called("prove", path)
        tally.check((status, out) == (1, "") and f"{path}: refused {words}" in err, f"{count}: {err}")
    record = lengthened(jobs.read(str(EXAMPLES / "figure-5.toml")).runs[0].record)
    in_parts = with_third(FIVE, "17746.125")
    for text, words in (
        (FIVE + f'[[run]]\nrecord = "{record[:32].hex()}"\n[[run]]\nrecord = "00ff"\n',
         "run 7, record: expected 32 or 48 bytes in hex, found 2"),
        (in_parts + f'[[run]]\nrecord = "{record[:32].hex()}"\n',
         "run 6, record: expected 48 bytes in hex, since other runs have thousandths of a pulse, found 32"),
    ):  # fmt: skip
        path.write_text(text)
        status, _, err = called("prove", path)
        tally.check(status == 2 and f": {words}\n" in err, f"expected {words}, found {err}")
    for place in range(28, 48):
        own = record[:place] + b"\x01" + record[place + 1 :]
        path.write_text(f'{FIVE}[[run]]\nrecord = "{own.hex()}"\n')
        told = f"{path}: refused 2: an unnamed byte is not zero\n   run 6: byte {place} is 01, range 00\n"
        tally.same(called("prove", path), (1, "", told), f"byte {place}")


def same_report(tally, path, program):
    """The same runs in the long form come to the same figures and the same report, or the same refusal."""
    for number, given in enumerate(jobtexts.days(JOBS, 91)):
        text = jobtexts.proving_text(given)
        path.write_text(text)
        short = works.work(jobs.read(str(path)), program)
        runs = "".join(f'[[run]]\nrecord = "{lengthened(run.record).hex()}"\n' for run in short.job.runs)
        path.write_text(text[: text.index("[[run]]")] + runs)
        long = works.work(jobs.read(str(path)), program)
        tally.same((short.job.form, long.job.form), (SHORT, LONG), f"job {number}: forms")
        found, expected = ((own.runs, own.answer, own.group) for own in (long, short))
        tally.same(found, expected, f"job {number}")
        numbers = [own.refusal and (own.refusal.number, own.refusal.record) for own in (long, short)]
        tally.same(*numbers, f"job {number}: refusal")


def by_chance(tally, path, program):
    """Each figure of jobs in parts of a pulse is the program's answer to the long record, put together here."""
    rng, seen = random.Random(92), {"accepted": 0, "refused": 0}
    for number, given in enumerate(jobtexts.days(JOBS, 93)):
        text = jobtexts.in_parts(jobtexts.proving_text(given), rng)
        path.write_text(text)
        worked = works.work(jobs.read(str(path)), program)
        pulses = [int(each.replace(".", "")) for each in re.findall(r"pulses = (\d+\.\d{3})", text)]
        records = [
            struct.pack("<Q", thousandths) + run.record[8:36] + bytes(12)
            for thousandths, run in zip(pulses, worked.job.runs, strict=True)
        ]
        settings = (*worked.job.prover.words, worked.job.k_factor)
        own = [answer(program, "run_long", *settings, hexed(record)) for record in records]
        whole = (worked.job.request, *settings, worked.job.limit, hexed(bytes(32)), hexed(b"".join(records)))
        told = answer(program, "prove_long", *whole)
        seen["accepted" if told else "refused"] += 1
        found = worked.answer and [str(worked.answer.factor), worked.answer.record.hex()]
        tally.same(found, told and [told[0], told[-1]], f"job {number}")
        if worked.runs:
            tally.same([list(map(str, each.values())) for each in worked.runs], own, f"job {number}: figures")
    tally.check(min(seen.values()) > 5, f"jobs by chance: {seen}")


def answer(program, *words):
    """The program's values; None for a refusal."""
    try:
        return program.ask(*words)
    except Refused:
        return None


def looked_up(tally, path, program):
    """A job that looks F up, with a part of a pulse, comes to what it does with every F typed."""
    path.with_name("table-for-trying.csv").write_bytes((EXAMPLES / "table-for-trying.csv").read_bytes())
    path.write_text(with_third(LOOKED_UP, "17746.125"))
    own = works.work(jobs.read(str(path)), program)
    # The compressibilities of the table at 63.0, 63.5, 64.0, 64.5 and 65.5 °F, at bytes 20 and 22.
    found = ((823, 829), (823, 829), (825, 829), (827, 833), (827, 833))
    typed = [lengthened(run.record) for run in jobs.read(str(EXAMPLES / "figure-5.toml")).runs]
    typed[2] = struct.pack("<Q", 17_746_125) + typed[2][8:]
    records = [record[:20] + struct.pack("<HH", *pair) + record[24:] for record, pair in zip(typed, found)]
    tally.same((own.job.form, own.job.records), (LONG, b"".join(records)), "looked up, in parts")
    path.write_text(HEAD + "".join(f'[[run]]\nrecord = "{record.hex()}"\n' for record in records))
    typed = works.work(jobs.read(str(path)), program)
    tally.same((own.runs, own.answer.factor), (typed.runs, typed.answer.factor), "looked up, in parts")


def for_machines(tally, path):
    """The count with its decimals, in thousandths in all runs of such a job; whole counts as ever."""
    path.write_text(with_third(FIVE, "17746.125"))
    for job, counts, decimals in (
        (path, [17_743_000, 17_744_000, 17_746_125, 17_746_000, 17_747_000], 3),
        (EXAMPLES / "figure-5.toml", [17_743, 17_744, 17_746, 17_746, 17_747], 0),
    ):
        told = [run["pulses"] for run in json.loads(called("prove", job, "--json")[1])["runs"]]
        expected = [{"count": count, "unit": "pulses", "decimals": decimals} for count in counts]
        tally.same(told, expected, f"JSON of {job.name}")


def test():
    tally = Tally("pulses with decimals")
    with tempfile.TemporaryDirectory() as folder, Program() as program:
        path = Path(folder) / "job.toml"
        for part in (forms, faults, for_machines):
            part(tally, path)
        for part in (same_report, by_chance, looked_up):
            part(tally, path, program)
    return tally
