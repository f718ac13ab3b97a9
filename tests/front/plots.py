"""Plots over jobs by chance: well-formed XML, a mark a run, the accepted five and the band where they belong."""

import tempfile
import xml.etree.ElementTree as xml
from pathlib import Path

import jobtexts
from harness import ROOT, Tally, run

from front import jobs, plot
from front import worked as works
from front.program import Program
from front.units import shown

JOBS = 120
TITLES = ("Plain", '5 < 6 & \\"7\\" > 2, ]]> é', "x" * 200)
SVG = "{http://www.w3.org/2000/svg}"


def marks(tree, kind):
    return [circle for circle in tree.iter(f"{SVG}circle") if circle.get("class") == f"run {kind}"]


def drawn(tally, name, worked):
    job, outcome, group = worked.job, worked.answer, worked.group
    factors = [own["factor"] for own in worked.runs]
    tree = xml.fromstring(plot.draw(worked))
    accepted = list(worked.accepted)
    told = {kind: [mark.find(f"{SVG}title").text for mark in marks(tree, kind)] for kind in ("accepted", "other")}
    others = [number for number in range(1, len(factors) + 1) if number not in accepted]
    for kind, numbers in (("accepted", accepted), ("other", others)):
        tally.same(told[kind], [f"run {n}: {shown(factors[n - 1], 4)}" for n in numbers], f"{name}: {kind} runs")
    places = sorted((float(mark.get("cx")), float(mark.get("cy"))) for kind in told for mark in marks(tree, kind))
    off = [text.text for text in tree.iter(f"{SVG}text") if text.get("class") == "off"]
    for (_, y), factor in zip(places, factors):
        for (_, other_y), other in zip(places, factors):
            apart = shown(factor, 4) not in off or shown(other, 4) not in off
            right = (y < other_y) == (factor > other) if apart else (y <= other_y or factor < other)
            tally.check(right, f"{name}: {factor} and {other} do not lie in their order")
    seen = all(0 < x < plot.WIDTH and 0 < y < plot.HEIGHT for x, y in places)
    tally.check(seen, f"{name}: a mark is off the picture")
    tally.check(not any(shown(factors[n - 1], 4) in off for n in accepted), f"{name}: an accepted run is off the scale")
    banded(tally, name, worked, tree, places, off)
    texts = [text.text for text in tree.iter(f"{SVG}text")]
    tally.holds(tree.find(f"{SVG}desc").text, f"{job.digest}, worked by Endakuro", f"{name}: origin")
    refused = "NOT ACCEPTED, refused 9: no qualifying group; best five: runs"
    tally.holds(texts[1], refused if worked.refusal else "accepted, meter factor", name)
    for wanted in ("Run", "Run factor", f"limit, {shown(job.limit, 2)} %"):
        tally.check(wanted in texts, f"{name}: no label {wanted!r}")
    name_drawn = job.heading.get("title", "Meter proving")[:66]
    tally.check(texts[0].startswith(name_drawn) and len(texts[0]) <= 70, f"{name}: title {texts[0]!r}")
    factor = [f"meter factor {shown(outcome.factor, 4)}"] if outcome else []
    tally.same([text for text in texts if text.startswith("meter factor")], factor, name)


def banded(tally, name, worked, tree, places, off):
    """The band stands on the smallest of the group, over its runs; exactly those within the limit lie in it."""
    group, limit = worked.group, worked.job.limit
    bands = [rect for rect in tree.iter(f"{SVG}rect") if rect.get("class") == "band"]
    if not tally.same(len(bands), 1, f"{name}: bands"):
        return
    x, y, width, height = (float(bands[0].get(key)) for key in ("x", "y", "width", "height"))
    over = [run for run, (cx, _) in enumerate(places, 1) if x < cx < x + width]
    tally.same(over, list(group.numbers), f"{name}: runs under the band")
    if shown(group.smallest, 4) in off:
        return
    inside = [run for run in over if y - 0.2 <= places[run - 1][1] <= y + height + 0.2]
    beyond = {n: (v - group.smallest) * 10_000 - limit * group.smallest for n, v in zip(group.numbers, group.values)}
    # Nearer to the edge than a tenth of the last digit, a mark lies on it.
    plain = [run for run in inside if abs(beyond[run]) >= 1000]
    tally.same(plain, [run for run in beyond if beyond[run] <= -1000], f"{name}: runs in the band")


def outliers(tally, folder, program):
    """One run far away presses neither the band nor the others together, and stands with its factor at the edge."""
    for at in range(6):
        for pulses in (190_000, 215_000):
            text = (ROOT / "examples" / "refusals" / "prove-09-runs-drift.toml").read_text()
            head, *runs = text.split("[[run]]")
            runs[at] = f"\npulses = {pulses}\n"
            for count in (5, 6):
                path = folder / "outlier.toml"
                path.write_text("[[run]]".join([head, *runs[:count]]))
                worked = works.work(jobs.read(str(path)), program)
                name = f"outlier at run {at + 1} of {count}"
                drawn(tally, name, worked)
                tree = xml.fromstring(plot.draw(worked))
                places = sorted((float(c.get("cx")), float(c.get("cy"))) for c in marks(tree, "other"))
                others = [y for run, (_, y) in enumerate(places) if run != at]
                tally.check(max(others) - min(others) > 150, f"{name}: the others lie too near together")
                off = [text.text for text in tree.iter(f"{SVG}text") if text.get("class") == "off"]
                expected = [shown(worked.runs[at]["factor"], 4)] if at < count else []
                tally.same(off, expected, f"{name}: off the scale")


def test():
    tally = Tally("plots")
    with tempfile.TemporaryDirectory() as folder, Program() as program:
        path = Path(folder) / "job.toml"
        for number, given in enumerate(jobtexts.days(JOBS, 5)):
            heading = f'[heading]\ntitle = "{TITLES[number % len(TITLES)]}"\n'
            path.write_text(jobtexts.proving_text(given) + heading)
            job = jobs.read(str(path), "prove")
            worked = works.work(job, program)
            if worked.has_figures:
                drawn(tally, f"job {number}", worked)
        outliers(tally, Path(folder), program)
        tally.same(plot.words("<a> & \"b\" 'c'\x07"), "&lt;a&gt; &amp; \"b\" 'c'?", "a text as XML holds it")
        out = Path(folder) / "out.svg"
        tally.same(run("prove", ROOT / "examples" / "second-five.toml", "--plot", out)[0], 0, "prove --plot")
        tally.same(len(marks(xml.parse(out).getroot(), "accepted")), 5, "second-five.toml: accepted marks")
    return tally
