"""./endakuro new, lines and --version."""

import re
import subprocess
import tempfile
from hashlib import sha256
from pathlib import Path

from examples import NAMED
from harness import LAUNCHER, ROOT, Tally, called, run
from helping import KEYS

from front import build, fields, version


def job_files(tally, folder):
    """A new job file of each kind runs as it is, and has every key with its range."""
    for kind in ("prove", "draw", "bidirectional", "ticket", "live", "panel"):
        command = NAMED.get(kind, kind)
        path = Path(folder) / f"{kind}.toml"
        status, text, err = called("new", kind)
        tally.same((status, err), (0, ""), f"new {kind}")
        path.write_text(text)
        status, out, err = called(command, path)
        tally.same((status, err), (0, ""), f"the new file of {kind} runs")
        for key, field in KEYS[command].items():
            lines = [line for line in text.splitlines() if line.removeprefix("# ").startswith(f"{key} = ")]
            tally.check(any(f"# {field.label}, {field.range}" in line for line in lines), f"new {kind}: {key}")
        tally.check(max(map(len, text.splitlines())) <= 120, f"new {kind}: a line is too long")
        decimals = text.count("1 to 100,000,000 pulses; up to 3 decimals where interpolated\n")
        tally.same(decimals, int(kind == "prove"), f"new {kind}: decimals of a pulse")
        if command == "draw":
            profile = "bidirectional" if kind in NAMED else "unidirectional"
            tally.holds(text, f'\nprofile = "{profile}" # ', f"new {kind}")
            tally.holds(out, f" {profile} pipe prover, ", f"the new file of {kind}")
        status, out, err = called("new", kind, path)
        told = f"{path}: OUT.toml: is there already: --force writes over it\n"
        tally.same((status, out, err, path.read_text()), (2, "", told, text), f"new {kind} onto a file")
        path.write_text("x")
        tally.same((called("new", kind, path, "--force")[0], path.read_text()), (0, text), f"new {kind} --force")
    tally.same(run("new", "proof")[0], 2, "no such kind")


def table(tally, folder):
    """A new table has the one entry that 002 prints, runs as it is, and serves the new jobs where they look F up."""
    path = Path(folder) / "table.csv"
    status, text, err = called("new", "table")
    tally.same((status, err, called("new", "table", path)[0]), (0, "", 0), "new table")
    tally.same(path.read_text(), text, "new table onto a file")
    entries = [line for line in text.splitlines() if not line.startswith("#")]
    tally.same(entries, ["temperature,gravity,F", "100.0,20.0,0.448"], "new table: its entries")
    for field in fields.ENTRY.values():
        tally.holds(text, field.range, "new table")
    tally.holds(called("look-up", path, "100.0", "19.9")[1], "0.00000448 per psi", "the new table runs")
    status, out, err = called("new", "table", path)
    tally.same((status, out, err), (2, "", f"{path}: OUT.csv: is there already: --force writes over it\n"), "once more")
    for kind in ("prove", "ticket"):
        text = called("new", kind)[1]
        start = text.index("# [compressibility]")
        note = "\n".join(line.removeprefix("# ") for line in text[start:].split("\n\n")[0].splitlines())
        rest = "".join(line for line in text.splitlines(True) if "compressibility = " not in line)
        job = Path(folder) / "looks-up.toml"
        job.write_text(f"{rest}\n{note.replace('63.7', '19.9')}\n")
        status, _, err = called(kind, job)
        tally.check(status == 1 and "refused 33: no such pair\n" in err, f"new {kind} that looks F up: {err}")
        job.write_text(re.sub(r"(temperature = )\d+\.\d", r"\g<1>100.0", job.read_text()))
        tally.same((called(kind, job)[0], called(kind, job)[2]), (0, ""), f"new {kind} that looks F up")


def line_program(tally):
    given = (ROOT / "examples" / "morning.txt").read_text()
    status, out, err = run("lines", given=given)
    expected = subprocess.run([ROOT / "tests" / "endakuro"], input=given, capture_output=True, text=True)
    tally.same((status, out, err), (0, expected.stdout, ""), "lines")
    tally.check(out.count("ok") > 1, "lines: no answers")
    process = subprocess.Popen([LAUNCHER, "lines"], stdin=subprocess.PIPE, stdout=subprocess.PIPE, text=True, bufsize=1)
    process.stdin.write("cpl 0 0 0 4\n")
    tally.same(process.stdout.readline(), "ok 10000\n", "lines: an answer before the input ends")
    process.stdin.close()
    tally.same(process.wait(20), 0, "lines: status")


def versions(tally):
    status, out, err = run("--version")
    tally.same((status, err), (0, ""), "--version")
    digest = sha256(build.BINARY.read_bytes()).hexdigest()
    expected = [version.NAME, f"line program {build.BINARY}", f"   SHA-256 {digest}"]
    tally.same(out.splitlines(), expected, "--version")


def test():
    tally = Tally("new files, lines, version")
    with tempfile.TemporaryDirectory() as folder:
        job_files(tally, folder)
        table(tally, folder)
    line_program(tally)
    versions(tally)
    return tally
