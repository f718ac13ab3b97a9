"""rework --reports: a page a job and a plot a proving, as the jobs lie in their folders; nothing is written over."""

import shutil
import tempfile
from pathlib import Path

from harness import ROOT, Tally, called

EXAMPLES = ROOT / "examples"
JOBS = ("figure-5.toml", "water-draw.toml", "bidirectional-draw.toml", "ticket.toml", "live.toml", "panel.toml")
JOBS += ("refusals/prove-09-runs-drift.toml",)
NAMES = ("prove-05-too-hot", *(Path(name).stem for name in JOBS))
WITH_PLOT = ("figure-5", "prove-09-runs-drift", "inner/figure-5")


def filled(folder):
    """A month of jobs, one of them in a folder inside, one of them a bad file."""
    month = folder / "month"
    (month / "inner").mkdir(parents=True)
    for name in (*JOBS, "refusals/prove-05-too-hot.toml"):
        shutil.copy(EXAMPLES / name, month)
    shutil.copy(EXAMPLES / "figure-5.toml", month / "inner")
    (month / "bad.toml").write_text("run = 3\n")
    return month


def written(pages):
    return sorted(str(path.relative_to(pages)) for path in pages.rglob("*") if path.is_file())


def test():
    tally = Tally("pages of a month")
    with tempfile.TemporaryDirectory() as name:
        folder = Path(name)
        month, pages = filled(folder), folder / "pages"
        words = ("rework", month, "--recursive", "--csv", folder / "out.csv")
        status, out, err = called(*words, "--reports", pages)
        tally.same((status, err), (2, ""), "status and complaints")
        jobs = (*NAMES, "inner/figure-5")
        expected = sorted([*(f"{job}.html" for job in jobs), *(f"{job}.svg" for job in WITH_PLOT)])
        tally.same(written(pages), expected, "a page a job and a plot a proving")
        for job in jobs:
            path = month / f"{job}.toml"
            tally.same(called("verify", pages / f"{job}.html", path)[0], 0, f"{job}.html is the job's")
            if job in WITH_PLOT:
                tally.same(called("verify", pages / f"{job}.svg", path)[0], 0, f"{job}.svg is the job's")
        refused = (pages / "prove-05-too-hot.html").read_text()
        tally.holds(refused, "NOT ACCEPTED: refused 5", "a refused job's page")
        for page in pages.rglob("*.html"):
            page.write_text("of an earlier month")
        status, _, err = called(*words, "--force", "--reports", pages)
        tally.same(status, 2, "--force")
        tally.check("of an earlier" not in (pages / "ticket.html").read_text(), "--force writes over a page")
        (folder / "out.csv").unlink()
        (pages / "ticket.html").write_text("of an earlier month")
        status, out, err = called(*words, "--reports", pages)
        told = f"{pages / 'bidirectional-draw.html'}: --reports: is there already: --force writes over it\n"
        tally.same((status, err), (2, told), "without --force")
        tally.same((pages / "ticket.html").read_text(), "of an earlier month", "without --force")
        tally.check(not (folder / "out.csv").exists(), "without --force results are written")
        status, _, err = called(*words, "--reports", month / "bad.toml")
        tally.same((status, err), (2, f"{month / 'bad.toml'}: --reports: is a file: expected a folder\n"), "a file")
        linked = folder / "linked"
        linked.mkdir()
        (linked / "ticket.html").symlink_to(month / "ticket.toml")
        status, _, err = called(*words, "--force", "--reports", linked)
        tally.check(status == 2 and "is read by this command" in err, f"a link to a job: {err}")
        tally.same((month / "ticket.toml").read_bytes(), (EXAMPLES / "ticket.toml").read_bytes(), "the job")
    return tally
