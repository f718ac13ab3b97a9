"""Runs and fills from a CSV that the job file names: the same job as with [[run]], and the faults of such a file."""

import tempfile
import tomllib
from hashlib import sha256
from pathlib import Path

from harness import ROOT, Tally, called, run

from front import fields, jobs

EXAMPLES = ROOT / "examples"
GOOD = (EXAMPLES / "figure-5.toml").read_text()
HEAD = GOOD[: GOOD.index("[[run]]")]
CSV = "pulses,prover_temperature,meter_temperature\n17743,63.0,64.5\n17744,63.0,64.5\n17746,63.5,64.5\n"
CSV += "17746,64.0,65.5\n17747,64.0,65.5\n"
# A name, what [runs] says besides the file, and the file: all of them the example's runs.
SAME = (
    ("plain", "", CSV),
    ("a mark and CR LF", "", "\ufeff" + CSV.replace("\n", "\r\n")),
    ("semicolons", "", CSV.replace(",", ";")),
    ("tabs", "", CSV.replace(",", "\t")),
    ("quotes and blanks", "", CSV.replace("17743", '" 17743 "').replace("63.0,", "63.0 ,") + "\n,,\n\n"),
    ("headings as people write", "", CSV.replace("pulses,prover_temperature,meter_temperature",
     "Pulses,Prover Temperature (°F),METER TEMPERATURE [deg F]")),
    ("columns of its own", 'pulses = "Count"\nprover_temperature = "T1 (F)"\nignore = ["Time", "Run #"]\n',
     "Run #," + CSV.replace("pulses,prover_temperature", "Count,T1 (F)").replace("\n1", "\n7,1").replace(",6", ",6")),
    ("a heading with words in brackets", 'prover_temperature = "T (inlet)"\n',
     CSV.replace("prover_temperature", "T (inlet)").replace("63.5", "63.5 °F")),
    ("units in cells too", 'prover_temperature = "T (F)"\n',
     CSV.replace("prover_temperature", "T (F)").replace("63.5", "63.5 °F")),
    ("a column that some fill", "", CSV.replace("temperature\n", "temperature,prover_pressure\n")
     .replace("17743,63.0,64.5\n", "17743,63.0,64.5,80\n")),
)  # fmt: skip
# A name, what [runs] says, the file, and what is said of it.
FAULTS = (
    ("another unit where the heading is said", 'prover_temperature = "T (°C)"\n',
     CSV.replace("prover_temperature", "T (°C)"),
     "runs.csv: line 2: run 1, prover_temperature: 63.0 °C is in °C, and only °F is taken"),
    ("a pressure in kPa", 'meter_pressure = "P (kPa)"\n',
     CSV.replace("temperature\n", "temperature,P (kPa)\n").replace("64.5\n", "64.5,62\n", 1),
     "runs.csv: line 2: run 1, meter_pressure: 62 kPa is not in psi"),
    ("a digit too many", "", CSV.replace("63.5", "63.55"),
     "runs.csv: line 4: run 3, prover_temperature: 63.55 has more digits than the unit, 0.1 °F"),
    ("another unit", "", CSV.replace("prover_temperature", "prover_temperature (°C)"),
     "runs.csv: line 2: run 1, prover_temperature: 63.0 °C is in °C, and only °F is taken"),
    ("a decimal comma", "", CSV.replace(",", ";").replace("63.5", "63,5"),
     "runs.csv: line 4: run 3, prover_temperature: 63,5 has a comma: write 63.5, with a decimal point"),
    ("a heading slipped", "", CSV.replace("pulses", "pulse count"),
     "runs.csv: line 1: pulse count: unknown heading: did you mean pulses?"),
    ("a heading twice", "", CSV.replace("prover_", "meter_"),
     "runs.csv: line 1: meter_temperature: stands there twice: expected once"),
    ("a cell missing", "", CSV.replace("17746,63.5", ",63.5"),
     "runs.csv: line 4: run 3, pulses: missing: expected the pulses"),
    ("a cell too many", "", CSV.replace("63.5,64.5", "63.5,64.5,1"),
     "runs.csv: line 4: run 3: has 4 cells, and there are 3 headings"),
    ("not CSV", "", CSV.replace("63.5", '"63"x'), "runs.csv: line 4: is not CSV: "),
    ("not text", "", b"\xff\xfe" + CSV.encode(), "job.toml: line 32: [runs], file: runs.csv is not text in UTF-8"),
    ("no file", "", None, "job.toml: line 32: [runs], file: runs.csv cannot be read: No such file or directory"),
    ("both", "", CSV, "job.toml: line 33: run: expected [[run]] or [runs], not both"),
    ("ignore a number", "ignore = 3\n", CSV,
     "job.toml: line 33: [runs], ignore: expected a list of headings in quotes"),
    ("a key unheard of", "columns = 3\n", CSV, "job.toml: line 33: [runs], columns: unknown key"),
)  # fmt: skip


def job_with(folder, says, content, more=""):
    path, runs = Path(folder) / "job.toml", Path(folder) / "runs.csv"
    path.write_text(f'{HEAD}[runs]\nfile = "runs.csv"\n{says}{more}')
    runs.unlink(missing_ok=True)
    if content is not None:
        runs.write_bytes(content if isinstance(content, bytes) else content.encode())
    return path


def same(tally, folder):
    expected = jobs.read(str(EXAMPLES / "figure-5.toml"))
    for name, says, content in SAME:
        path = job_with(folder, says, content)
        job = jobs.read(str(path), "prove")
        tally.same([each.counts for each in job.runs], [each.counts for each in expected.runs], name)
        both = path.read_bytes() + (Path(folder) / "runs.csv").read_bytes()
        tally.same(job.digest, sha256(both).hexdigest(), f"{name}: the digest is of both files")
    status, out, err = run("prove", path)
    tally.same((status, err), (0, ""), "from another folder")
    tally.holds(out, "Meter factor              0.9963", "from another folder")
    status, _, err = run("prove", path, "--worksheet", Path(folder) / "runs.csv", "--force")
    tally.same(status, 2, "an output onto the runs")
    tally.holds(err, "is read by this command", "an output onto the runs")


def fills(tally, folder):
    example = EXAMPLES / "water-draw.toml"
    values = tomllib.loads(example.read_text(), parse_float=str)
    rows = [",".join(fields.FILL)]
    for each in values["fill"]:
        own = values.get("every_fill", {}) | each
        rows.append(",".join(str(own[key]) for key in fields.FILL))
    (Path(folder) / "fills.csv").write_text("\n".join(rows))
    text = example.read_text()
    path = Path(folder) / "draw.toml"
    path.write_text(text[: text.index("[[fill]]")] + '[fills]\nfile = "fills.csv"\n')
    tally.same(jobs.read(str(path)).records, jobs.read(str(example)).records, "fills")


def faults(tally, folder):
    for name, says, content, expected in FAULTS:
        path = job_with(folder, says, content, "[[run]]\n" if name == "both" else "")
        status, out, err = called("prove", path)
        tally.same((status, out), (2, ""), f"{name}: status and page")
        tally.check(err.startswith(f"{folder}/{expected}"), f"{name}: expected {expected!r}, found {err!r}")


def test():
    tally = Tally("runs from a CSV")
    with tempfile.TemporaryDirectory() as folder:
        for part in (same, fills, faults):
            part(tally, folder)
    return tally
