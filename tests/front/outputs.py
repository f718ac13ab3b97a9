"""What commands write besides their page: the record, the worksheet, the plot, the page for print; on refusal 9 no
record, on others the page for print alone."""

import os
import shutil
import subprocess
import tempfile
from pathlib import Path

from harness import LAUNCHER, ROOT, Tally, called, run

EXAMPLES = ROOT / "examples"
NAMES = {"record": "7.record", "worksheet": "7.csv", "plot": "7.svg", "html": "7.html"}


def outputs(folder):
    return {name: Path(folder) / file for name, file in NAMES.items()}


def prove(example, places):
    words = [word for name, place in places.items() for word in (f"--{name}", place)]
    return called("prove", EXAMPLES / example, *words)


def wild_names(tally):
    """A file's name that is no text, or has control characters, is shown as one in everything that is made of it."""
    with tempfile.TemporaryDirectory() as folder:
        for number, name in enumerate((b"\xff\xfe.toml", b"a\x1b[2J\nb.toml", b"=cmd.toml", b"<b>&amp;.toml")):
            job = os.path.join(os.fsencode(folder), name)
            shutil.copy(os.fsencode(EXAMPLES / "second-five.toml"), job)
            ends = ("--html", "html"), ("--worksheet", "csv"), ("--worksheet", "xlsx"), ("--plot", "svg")
            for option, end in ends:
                out = Path(folder) / f"{number}.{end}"
                # A command line's bytes are read once.
                ask = run if end == "html" else called
                status, shown, err = ask("prove", os.fsdecode(job), option, out)
                tally.same((status, err), (0, ""), f"{name} {option} {end}")
                tally.check("\x1b" not in shown and "\x1b".encode() not in out.read_bytes()[:2], f"{name}: {end}")
                tally.same(called("verify", out, os.fsdecode(job))[0], 0, f"{name}: verify {end}")


def endings(tally):
    """An ending that is not ours is an error, before anything is written; a large one is fine."""
    with tempfile.TemporaryDirectory() as folder:
        for option, name, expected in (
            ("--worksheet", "w.ods", "ends in .ods: expected .csv or .xlsx"),
            ("--worksheet", "w.xls", "ends in .xls: expected .csv or .xlsx"),
            ("--worksheet", "w", "has no ending: expected .csv or .xlsx"),
            ("--plot", "p.png", "ends in .png: expected .svg"),
            ("--html", "h.pdf", "ends in .pdf: expected .html or .htm"),
        ):
            path, plot = Path(folder) / name, Path(folder) / "other.svg"
            more = ("--plot", plot) if option != "--plot" else ()
            status, out, err = called("prove", EXAMPLES / "second-five.toml", option, path, *more)
            tally.same((status, out, err), (2, "", f"{path}: {option}: {expected}\n"), name)
            tally.check(not path.exists() and not plot.exists(), f"{name}: something is written")
        for option, name in (("--worksheet", "w.CSV"), ("--html", "h.htm")):
            path = Path(folder) / name
            tally.same(called("ticket", EXAMPLES / "ticket.toml", option, path)[0], 0, name)
            tally.check(path.exists(), f"{name} is not written")


def test():
    tally = Tally("outputs")
    with tempfile.TemporaryDirectory() as folder:
        places = outputs(folder)
        tally.same(prove("second-five.toml", places)[0], 0, "status")
        tally.same(places["record"].read_bytes(), (EXAMPLES / "report-7.record").read_bytes(), "record")
        tally.holds(places["worksheet"].read_text(), "=ROUND(", "worksheet")
        tally.holds(places["plot"].read_text(), "</svg>", "plot")
        tally.holds(places["html"].read_text(), "</html>", "page for print")
        tally.holds(places["html"].read_text(), "</svg>", "plot in the page for print")
        status, out, _ = called("read", places["record"])
        tally.same(status, 0, "the record is read back")
        tally.holds(out, "Meter factor              1.0002", "the record is read back")
        status, out, _ = called("read", "--hex", places["record"].read_bytes().hex(" "))
        tally.holds(out, "Meter factor              1.0002", "the record in hex is read back")
    status, _, err = called("read", "--hex", "")
    tally.same((status, err.splitlines()[-1]), (1, "   record has 0 bytes, range 32"), "no bytes")
    written = {"prove-05-too-hot.toml": ["html"], "prove-09-runs-drift.toml": ["worksheet", "plot", "html"]}
    for name, expected in written.items():
        with tempfile.TemporaryDirectory() as folder:
            places = outputs(folder)
            tally.same(prove(f"refusals/{name}", places)[0], 1, f"{name}: status")
            tally.same([each for each, place in places.items() if place.exists()], expected, f"{name}: written")
    for command, example in (("draw", "water-draw.toml"), ("ticket", "ticket.toml")):
        with tempfile.TemporaryDirectory() as folder:
            sheet = Path(folder) / "sheet.csv"
            tally.same(called(command, EXAMPLES / example, "--worksheet", sheet)[0], 0, f"{command} --worksheet")
            tally.holds(sheet.read_text(), "=ROUND(", f"{command} --worksheet")
    with tempfile.TemporaryDirectory() as folder:
        marked = Path(folder) / "marked.toml"
        marked.write_bytes(b"\xef\xbb\xbf" + (EXAMPLES / "ticket.toml").read_bytes().replace(b"\n", b"\r\n"))
        tally.same(called("ticket", marked)[0], 0, "a file as a Windows editor writes it")
        link = Path(folder) / "link"
        link.symlink_to(LAUNCHER)
        done = subprocess.run([link, "ticket", marked.name], cwd=folder, capture_output=True, text=True)
        tally.same((done.returncode, done.stderr), (0, ""), "through a link, from a folder of its own")
    endings(tally)
    wild_names(tally)
    status, _, err = run("prove", EXAMPLES / "second-five.toml", "--plot", "/nowhere/plot.svg")
    tally.same((status, err), (3, "/nowhere/plot.svg: cannot be written: No such file or directory\n"), "no such place")
    return tally
