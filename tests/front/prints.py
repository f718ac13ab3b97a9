"""Pages for print, opened with Chromium and printed on Letter and A4: one sheet each, with every figure of the text."""

import re
import subprocess
import tempfile
from collections import Counter
from pathlib import Path

import debian
import jobtexts
from browser import Browser
from harness import ROOT, Tally, called
from lookupjobs import widest_look_up
from reports import widest

EXAMPLES = ROOT / "examples"
PAPERS = {"Letter": "(letter)", "A4": "(A4)"}
# Examples that are called as their kind is.
SHORT = ("ticket", "live", "panel")
FURTHER = ("looked-up", "ticket-looked-up", "live-celsius", "interpolated")
# So many jobs are printed on both.
BOTH = 7
# Letters of 5 points, in millimetres, also where runs, fills and texts are at their most.
LEAST = 1.76
FIGURE = re.compile(r"\d[\d.,]*\d|\d")
# What a page that is one file does not have: anything to fetch or to run.
FETCHED = ("src=", "href=", "url(", "@import", "<link", "<script", "<iframe", "<object", "<img")


def pdf_of(page, paper, folder, browser):
    """A page printed on a paper: its sheets, their size, its text."""
    sized, pdf = folder / "sized.html", folder / "page.pdf"
    sized.write_text(page.replace("@page { ", f"@page {{ size: {paper}; ", 1))
    pdf.write_bytes(browser.printed(sized.as_uri()))
    told = subprocess.run(["pdfinfo", pdf], capture_output=True, text=True, check=True).stdout
    info = dict(re.split(r":\s+", line, maxsplit=1) for line in told.splitlines() if re.search(r":\s", line))
    text = subprocess.run(["pdftotext", "-layout", pdf, "-"], capture_output=True, text=True, check=True).stdout
    return int(info["Pages"]), info["Page size"], text


def figures_of(text):
    """How often each figure stands in a text; the file's own name may be anything."""
    return Counter(FIGURE.findall("\n".join(line for line in text.splitlines() if "Job file" not in line)))


def jobs(folder):
    """Jobs of each kind: plain, refused, the widest, the longest."""
    for name in ("figure-5", "figure-6", "water-draw", "bidirectional-draw", *SHORT, *FURTHER):
        yield EXAMPLES / f"{name}.toml"
    yield widest_look_up(folder)
    for name in ("prove-09-runs-drift", "draw-09-passes-drift", "bidirectional-09-trips-drift"):
        yield EXAMPLES / "refusals" / f"{name}.toml"
    by_chance = [jobtexts.proving_text(max(jobtexts.days(60, 21), key=lambda job: len(job.runs)))]
    by_chance.append(jobtexts.draw_text(max(jobtexts.draws(60, 22), key=lambda draw: len(draw.fills))))
    keys = ("company", "station", "batch", "operator")
    heading = "".join(f'{key} = "{key} of some twenty letters"\n' for key in keys)
    for number, text in enumerate([*widest(), *by_chance]):
        path = folder / f"job{chr(97 + number)}.toml"
        path.write_text(text if "[heading]" in text else f"{text}[heading]\n{heading}")
        yield path


def printed(tally, number, path, folder, browser):
    first = path.stem.split("-")[0]
    kind = first if first in SHORT else "draw" if "[[fill]]" in path.read_text() else "prove"
    out = folder / "page.html"
    status, text, _ = called(kind, path, "--html", out, "--force")
    page = out.read_text()
    tally.check(text.strip() and "<!DOCTYPE html>" in page, f"{path.name}: no page")
    for word in FETCHED:
        tally.check(word not in page, f"{path.name}: {word} in the page")
    size = float(re.search(r"font: ([\d.]+)mm", page)[1])
    tally.check(size >= LEAST, f"{path.name}: letters of {size} mm")
    tally.same("NOT ACCEPTED: refused 9" in page, status == 1, f"{path.name}: verdict")
    # Their widths are the same; A4 is the longer.
    for paper, size in list(PAPERS.items())[: 2 if number < BOTH else 1]:
        sheets, found, on_paper = pdf_of(page, paper, folder, browser)
        tally.same(sheets, 1, f"{path.name} on {paper}: sheets")
        tally.holds(found, size, f"{path.name} on {paper}")
        missing = figures_of(text) - figures_of(on_paper)
        tally.same(dict(missing), {}, f"{path.name} on {paper}: figures that are missing")
        for words in ("Proved by", "Drawn by", "Issued by", "Witnessed by", "Run factor"):
            expected = words in text if words != "Run factor" else kind == "prove"
            tally.same(words in on_paper, expected, f"{path.name} on {paper}: {words}")


def refused(tally, folder, browser):
    """Without figures there is still a page, and it says so; the terminal has the message alone."""
    out = folder / "refused.html"
    path = EXAMPLES / "refusals" / "prove-05-too-hot.toml"
    status, text, _ = called("prove", path, "--html", out)
    tally.same((status, text), (1, ""), "a refusal without figures")
    sheets, _, on_paper = pdf_of(out.read_text(), "Letter", folder, browser)
    tally.same(sheets, 1, "a refusal without figures: sheets")
    for words in ("NOT ACCEPTED: refused 5: record field out of range", "prover temperature is 250.0", "250.0"):
        tally.holds(on_paper, words, "a refusal without figures")


def looked_up(tally, folder, browser):
    """The page of a look-up, found and refused."""
    out, table = folder / "entry.html", EXAMPLES / "table-for-trying.csv"
    refusal = "NOT ACCEPTED: refused 33: no such pair"
    for asked, expected, words in (("64.6", 0, "0.00000829 per psi"), ("20.0", 1, refusal)):
        status, text, _ = called("look-up", table, asked, "63.7", "--html", out, "--force")
        sheets, _, on_paper = pdf_of(out.read_text(), "Letter", folder, browser)
        tally.same((status, sheets), (expected, 1), "a look-up: sheets")
        tally.holds(on_paper, words, "a look-up")
        tally.same(dict(figures_of(text) - figures_of(on_paper)), {}, "a look-up: figures that are missing")


def read_back(tally, folder, browser):
    """A record's page, and that of one that is no report."""
    out = folder / "record.html"
    good = (EXAMPLES / "report-7.record").read_bytes()
    for record, expected, words in (
        (good, 0, "1.0005"), (good[:4] + bytes(28), 1, "NOT ACCEPTED: refused 15: not a report"),
    ):  # fmt: skip
        status, text, _ = called("read", "--hex", record.hex(), "--html", out, "--force")
        sheets, _, on_paper = pdf_of(out.read_text(), "Letter", folder, browser)
        tally.same((status, sheets), (expected, 1), "a record: sheets")
        tally.holds(on_paper, words, "a record")
        tally.same(dict(figures_of(text) - figures_of(on_paper)), {}, "a record: figures that are missing")


def test():
    tally = Tally("pages printed by Chromium")
    debian.install("chromium", "pdftotext")
    with tempfile.TemporaryDirectory() as folder, Browser(Path(folder) / "profile") as browser:
        for number, path in enumerate(jobs(Path(folder))):
            printed(tally, number, path, Path(folder), browser)
        for part in (refused, read_back, looked_up):
            part(tally, Path(folder), browser)
    return tally
