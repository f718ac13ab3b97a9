"""Numbers for the panel, by themselves and below a live reading: the program's singles on every page and in the JSON,
as near as the paper wants them, read back as the same reading; nothing of them where a reading is refused."""

import json
import re
import tempfile
from dataclasses import replace
from fractions import Fraction
from pathlib import Path

from harness import ROOT, Tally, called

from front import as_json, jobs, page, pages
from front import worked as works
from front.program import Program
from front.units import shown

EXAMPLES = ROOT / "examples"
LIVE, PANEL = EXAMPLES / "live.toml", EXAMPLES / "panel.toml"
SINGLE = r"(-?[\d.]+) {} \(single ([0-9a-f]{{8}})\)"
UNITS = {"temperature": "°F", "pressure": "psi"}
# A row that no other stands beside in print: in half a line a single would be broken.
ALONE = re.compile("<div class=alone><dt>(?:Temperature|Pressure)<")
# Tenths and psi with their singles: both ends, zero, next to it, tenths that a single holds and others.
KNOWN = (
    (-200, 0, "c1a00000", "00000000"), (2000, 1500, "43480000", "44bb8000"), (0, 1, "00000000", "3f800000"),
    (-1, 2, "bdcccccd", "40000000"), (1, 3, "3dcccccd", "40400000"), (733, 40, "4292999a", "42200000"),
    (735, 999, "42930000", "4479c000"), (-199, 1499, "c19f3333", "44bb6000"), (1999, 1024, "4347e666", "44800000"),
)  # fmt: skip
# What is said of a file in which both are out of range, the temperature first as in a live reading.
BOTH = """\
{}: refused 13: reading out of range
   temperature is -20.1 °F, range -20.0 to 200.0 °F
   pressure is 65,535 psi, range 0 to 1,500 psi
"""
# Answers that no program of ours gives, and the numbers in their bits.
STAND_IN = {"live": ["ok", "733", "40"], "panel_temperature": ["ok", "3f9d70a4"], "panel_pressure": ["ok", "c2f6e979"]}
STRANGE = {"temperature": ("1.230000019073486328125", "3f9d70a4"), "pressure": ("-123.45600128173828125", "c2f6e979")}


class Watched(Program):
    """The line program, and the names of the lines that it was asked."""

    def __init__(self):
        super().__init__()
        self.asked = []

    def answer(self, *words):
        self.asked.append(words[0])
        return super().answer(*words)


class StandIn(Program):
    """A program that answers otherwise: what is shown must be its answers."""

    def answer(self, *words):
        return STAND_IN[words[0]]


def singles_on(text, first):
    """The single of each on a page, as (number, bits); they stand behind this in their row."""
    found = {}
    for key, unit in UNITS.items():
        rows = re.findall(rf"{key.capitalize()}(?:</dt><dd>| +){first}{SINGLE.format(unit)}", text)
        found[key] = rows[-1] if rows else None
    return found


def in_json(told):
    return {key: (own["number"], own["bits"]) for key, own in told.items()}


def counts_in(told):
    return tuple(figure["count"] for figure in told.values())


def forms_of(command, path, folder):
    """A job's text, its page for print and its JSON, as its command gives them."""
    out = folder / "page.html"
    status, text, err = called(command, path, "--html", out, "--force")
    assert (status, err) == (0, ""), err
    return text, out.read_text(), called(command, path, "--json")[1]


def one(tally, folder, tenths, psi, bits):
    """A panel's page and JSON have these bits; so have the live reading's that comes to the same."""
    path, name = folder / "job.toml", f"{tenths} tenths, {psi} psi"
    path.write_text(f"[panel]\ntemperature = {shown(tenths, 1, False)}\npressure = {psi}\n")
    text, printed, told = forms_of("panel", path, folder)
    told = json.loads(told)
    expected = in_json(told["result"])
    tally.same(tuple(own[1] for own in expected.values()), bits, f"{name}: bits")
    tally.same(counts_in(told["readings"]), (tenths, psi), f"{name}: readings")
    for form in (text, printed):
        tally.same(singles_on(form, r"[\d.,-]+ \S+, shown as "), expected, f"{name}: a page")
    tally.check(max(map(len, text.splitlines())) <= page.WIDTH, f"{name}: a line is too long")
    tally.same(len(ALONE.findall(printed)), 2, f"{name}: rows in print")
    temperature, pressure = (Fraction(own[0]) for own in expected.values())
    tally.check(abs(10 * temperature - tenths) * 131072 <= 10, f"{name}: {temperature} is too far away")
    tally.same(pressure, psi, f"{name}: pressure")
    path.write_text('[live]\ntemperature = "{}"\npressure = "{}"\n'.format(*bits))
    text, printed, told = forms_of("live", path, folder)
    told = json.loads(told)
    tally.same(counts_in(told["result"]), (tenths, psi), f"{name}: read back")
    tally.same((in_json(told["readings"]), in_json(told["panel"])), (expected, expected), f"{name}: read back")
    text, printed = (form.partition("ON THE PANEL")[2] for form in (text, printed))
    for form in (text, printed):
        tally.same(singles_on(form, ""), expected, f"{name}: a live reading's page")
    tally.same(len(ALONE.findall(printed)), 2, f"{name}: a live reading's rows in print")


def of_program(tally):
    """The bits are the program's, whatever it answers."""
    for path, key in ((LIVE, "panel"), (PANEL, "result")):
        worked = works.work(jobs.read(str(path)), StandIn())
        text = "\n".join(page.text(pages.build(worked)))
        for own, (number, bits) in STRANGE.items():
            tally.holds(text, f"{number} {UNITS[own]} (single {bits})", f"{path.name}: a stand-in's {own}")
        tally.same(in_json(as_json.job(worked)[key]), STRANGE, f"{path.name}: a stand-in's JSON")
    # It is also the name of a command there.
    tally.holds((ROOT / "docs" / "JSON.md").read_text(), "\n| `panel` | of an accepted live reading: ", "docs/JSON.md")


def refused(tally, folder):
    """A refused reading asks nothing of the panel and shows nothing of it; refused numbers have no single."""
    out, both = folder / "refused.html", folder / "both.toml"
    for path in sorted((EXAMPLES / "refusals").glob("live-*.toml")):
        with Watched() as program:
            works.work(jobs.read(str(path)), program)
            line = "channels" if " = {" in path.read_text() else "live"
            tally.same(set(program.asked), {line}, f"{path.name}: asked")
        status, text, _ = called("live", path, "--json", "--html", out, "--force")
        told = json.loads(text)
        tally.same((status, "panel" in told, "result" in told), (1, False, False), f"{path.name}: JSON")
        tally.check("ON THE PANEL" not in out.read_text(), f"{path.name}: a panel on its page")
    with Watched() as program:
        works.work(jobs.read(str(LIVE)), program)
        tally.same(program.asked, ["live", "panel_temperature", "panel_pressure"], "live.toml: asked")
    both.write_text("[panel]\ntemperature = -20.1\npressure = 65535\n")
    tally.same(called("panel", both), (1, "", BOTH.format(both)), "both out of range")
    told = json.loads(called("panel", both, "--json")[1])
    tally.same((counts_in(told["readings"]), "result" in told), ((-201, 65535), False), "both out of range: JSON")
    details = [(own["field"], own["value"]["count"]) for own in told["refusal"]["details"]]
    tally.same(details, [("temperature", -201), ("pressure", 65535)], "both out of range: fields")
    called("panel", both, "--html", out, "--force")
    printed = out.read_text()
    tally.holds(printed, "NOT ACCEPTED: refused 13: reading out of range", "both out of range: page")
    tally.check("(single" not in printed, "both out of range: a single on the page")


def faults_told(tally, folder):
    """Every fault of a file at once, each with its line."""
    path = folder / "bad.toml"
    path.write_text("# a panel\n[panel]\ntemperature = 73.25\npresure = 40\n[panels]\n")
    status, out, err = called("panel", path)
    lines = [line.removeprefix(f"{path}: ") for line in err.splitlines() if line.startswith(f"{path}: ")]
    expected = [
        "line 3: [panel], temperature: 73.25 has more digits than the unit, 0.1 °F: expected at most 1 decimal, in °F",
        "line 4: [panel], presure: unknown key: did you mean pressure?",
        "line 5: panels: unknown key: did you mean panel?",
    ]
    tally.same((status, out, lines), (2, "", expected), "a bad file")


def verified(tally, folder):
    """Pages of both kinds are known as the job's; those of an earlier version, without the panel, too."""
    with Program() as program:
        before = replace(works.work(jobs.read(str(LIVE)), program), panel=None)
    earlier = ("\n".join(page.text(pages.build(before))), pages.printed(before), as_json.text(as_json.job(before)))
    told = [word for word in ("ON THE PANEL", '"panel":') for form in earlier if word in form]
    tally.same(told, [], "an earlier version has the panel")
    forms = [(path, form) for path in (LIVE, PANEL) for form in forms_of(path.stem, path, folder)]
    report = folder / "report"
    for number, (path, form) in enumerate([*forms, *((LIVE, form) for form in earlier)]):
        name = f"verify {path.name}, form {number}"
        report.write_text(form)
        tally.same(called("verify", report, path)[0], 0, name)
        for digits in ("4292999a", "42200000", "42928000"):
            if digits in form:
                report.write_text(form.replace(digits, digits[:-1] + "7"))
                status, out, _ = called("verify", report, path)
                tally.check(status == 1 and "carries that job's SHA-256, but" in out, f"{name}, {digits}: {out}")


def test():
    tally = Tally("panel")
    with tempfile.TemporaryDirectory() as name:
        folder = Path(name)
        for tenths, psi, *bits in KNOWN:
            one(tally, folder, tenths, psi, tuple(bits))
        for part in (refused, faults_told, verified):
            part(tally, folder)
    of_program(tally)
    return tally
