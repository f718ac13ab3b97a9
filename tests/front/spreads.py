"""The spread on pages: rounded, beside the exact test; of a refused job that of the best group."""

import tempfile
from pathlib import Path

import jobtexts
from harness import ROOT, Tally
from reports import value

from front import fields, jobs, page, pages
from front import worked as works
from front.program import Program
from front.units import shown

JOBS = 120


def exact(values):
    """(largest - smallest) as a percentage of the smallest, in 0.001 %, halves up."""
    high, low = max(values), min(values)
    return (2 * (high - low) * 100_000 + low) // (2 * low)


def groups_of(values, size):
    return [values[at : at + size] for at in range(len(values) - size + 1)]


def told(tally, name, worked):
    """The rows of the page, against what this test works out itself."""
    if worked.job.kind == "prove":
        values, limit, size, noun = [own["factor"] for own in worked.runs], worked.job.limit, 5, "five: runs"
    else:
        noun = f"three: {'round trips' if worked.trips else 'passes'}"
        values, limit, size = [own["volume"] for own in worked.trips or worked.passes], fields.DRAW_LIMIT, 3
    groups = groups_of(values, size)
    meets = [(max(own) - min(own)) * 10_000 <= limit * min(own) for own in groups]
    tally.same(not worked.refusal, any(meets), f"{name}: accepted")
    nearest = [exact(own) for own in groups]
    at = meets.index(True) if any(meets) else nearest.index(min(nearest))
    own, verdict = groups[at], "met" if any(meets) else "not met"
    lines = page.text(pages.build(worked))
    against = f"{shown(exact(own), 3)} % (rounded) of the smallest; limit {shown(limit, 2)} %"
    tally.same(value(lines, "Spread"), f"{against}: {verdict}", name)
    test = f"({max(own)} - {min(own)}) x 10,000 <= {limit} x {min(own)}: {verdict}"
    tally.same(value(lines, "Test in whole numbers"), test, name)
    head = "\n".join(lines[: lines.index("=" * 100, 2)]) if worked.refusal else ""
    best = f"   best {noun} {at + 1} to {at + size}, {against}"
    tally.same([line for line in head.splitlines() if "best" in line], [best] * bool(worked.refusal), f"{name}: head")


def test():
    tally = Tally("spreads")
    names = ("prove-09-runs-drift", "draw-09-passes-drift", "bidirectional-09-trips-drift")
    refused = [ROOT / "examples" / "refusals" / f"{name}.toml" for name in names]
    with tempfile.TemporaryDirectory() as folder, Program() as program:
        texts = [path.read_text() for path in refused]
        texts += [*map(jobtexts.proving_text, jobtexts.days(JOBS, 9))]
        texts += [*map(jobtexts.draw_text, jobtexts.draws(JOBS, 10))]
        texts += [*map(jobtexts.paired_text, jobtexts.paired_draws(JOBS, 11))]
        for number, text in enumerate(texts):
            path = Path(folder) / "job.toml"
            path.write_text(text)
            worked = works.work(jobs.read(str(path)), program)
            if worked.has_figures:
                told(tally, f"job {number}", worked)
    return tally
