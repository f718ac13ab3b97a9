"""First use: the program is built with progress shown, and again only when a source is newer. A stand-in for rt brings
the built program, since proving it anew takes minutes."""

import os
import shutil
import subprocess
import tempfile
import time
from pathlib import Path

from harness import ROOT, Tally, at_terminal

from front import build

KIT = Path(shutil.which("rt")).resolve().parents[1]
# Prints as rt does, and like rt leaves a program that is there as it is; it fails where a file beside it says so.
STAND_IN = """#!/bin/sh
echo "$(pwd -P): $*" >> {log}
[ -f {fails} ] && {{ echo "fn group::choose: no proof: the reason"; exit 1; }}
for name in {names}; do
    echo "rt: chose --jobs 2 for $name" >&2
    echo "logic=proved functions=7" >&2
done
mkdir -p out
[ -f out/endakuro ] || cp {binary} out/endakuro
echo "rt: running out/endakuro; to give it other input, run that file yourself" >&2
"""


class Fresh:
    """A copy of what the launcher needs, with nothing built."""

    def __init__(self, folder):
        self.root, self.tools = Path(folder) / "copy", Path(folder) / "tools"
        self.log, self.fails = self.tools / "log", self.tools / "fails"
        for name in ("front", "examples"):
            shutil.copytree(ROOT / name, self.root / name, ignore=shutil.ignore_patterns("__pycache__"))
        for name in ("endakuro", "crates.txt"):
            shutil.copy(ROOT / name, self.root)
        (self.root / "tests" / "c").mkdir(parents=True)
        for name in ("tests/endakuro", "tests/kit.sh", "tests/c/run"):
            shutil.copy(ROOT / name, self.root / name)
        self.source = self.root / "crates" / "group" / "src" / "lib.rt"
        self.source.parent.mkdir(parents=True)
        self.source.write_text("")
        self.out = self.root / "crates" / "endakuro" / "out"
        self.out.parent.mkdir()
        self.tools.mkdir()
        rt = self.tools / "rt"
        given = {"log": self.log, "fails": self.fails, "binary": build.BINARY, "names": " ".join(build.crates())}
        rt.write_text(STAND_IN.format(**given))
        rt.chmod(0o755)
        self.env = os.environ | {"PATH": f"{self.tools}:{os.environ['PATH']}", "RATTLE_HOME": str(KIT)}

    @property
    def command(self):
        return [str(self.root / "endakuro"), "ticket", str(self.root / "examples" / "ticket.toml")]

    def run(self, env=None):
        return run_plain(self.command, env or self.env)

    @property
    def builds(self):
        return len(self.log.read_text().splitlines()) if self.log.exists() else 0


def run_plain(command, env):
    done = subprocess.run(command, capture_output=True, text=True, cwd="/", env=env, timeout=60)
    return done.returncode, done.stdout, done.stderr


def first_use(tally, fresh):
    status, _, err = run_plain([*fresh.command[:-1], "/nowhere/job.toml"], fresh.env)
    tally.same((status, fresh.builds), (2, 0), f"a bad file is told before anything is built: {err!r}")
    total = len(build.crates())
    status, out, err = fresh.run()
    tally.same((status, fresh.builds), (0, 1), "first use: status and builds")
    tally.holds(out, "493.17 bbl", "first use")
    tally.same(fresh.log.read_text(), f"{fresh.out.parent.resolve()}: run\n", "what rt is asked, and where")
    tally.holds(err, f"first use: proving endakuro and what it stands on, {total} crates", "first use")
    lines = [line for line in err.splitlines() if line.startswith("  ")]
    expected = [f"  {at} of {total}: {name} proved" for at, name in enumerate(build.crates(), 1)]
    tally.same(lines, expected, "progress")


def later_use(tally, fresh):
    status, _, err = fresh.run()
    tally.same((status, err, fresh.builds), (0, "", 1), "second use: nothing is built")
    now = time.time()
    for folder, ago in ((fresh.root / "crates", 200), (fresh.out, 100)):
        for place in folder.rglob("*"):
            os.utime(place, (now - ago, now - ago))
    os.utime(fresh.root / "crates.txt", (now - 200, now - 200))
    wrong = fresh.source.parents[1] / "must-fail" / "wave_1.edit"
    wrong.parent.mkdir()
    wrong.write_text("")
    tally.same((fresh.run()[0], fresh.builds), (0, 1), "a newer wrong program: nothing is built")
    os.utime(fresh.source, (now - 50, now - 50))
    status, _, err = fresh.run()
    tally.same((status, fresh.builds), (0, 2), "a newer source: built again")
    tally.check(err.startswith("proving endakuro"), f"a newer source: {err!r}")
    tally.same((fresh.run()[0], fresh.builds), (0, 2), "and once only")


def terminal(tally, fresh):
    shutil.rmtree(fresh.out)
    status, shown = at_terminal(fresh.command, env=fresh.env)
    total = len(build.crates())
    tally.same(status, 0, "first use at a terminal")
    tally.holds(shown, f"[{'#' * 30}] {total} of {total} crates proved, 0 s", "bar at a terminal")


def other_commands(tally, fresh):
    """rework and lines build it too, before they begin anything; --version and new need none."""
    launcher, job = fresh.command[0], fresh.command[-1]
    for words, given, expected in (
        (["rework", job, "--csv", "-"], "", "accepted"),
        (["lines"], "cpl 0 0 0 4\n", "ok 10000\n"),
    ):
        shutil.rmtree(fresh.out)
        pipes = {"input": given, "capture_output": True, "text": True}
        done = subprocess.run([launcher, *words], env=fresh.env, timeout=60, **pipes)
        tally.same(done.returncode, 0, f"{words[0]} on first use: {done.stderr!r}")
        tally.holds(done.stdout, expected, f"{words[0]} on first use")
    shutil.rmtree(fresh.out)
    before = fresh.builds
    tally.holds(run_plain([launcher, "--version"], fresh.env)[1], "not built yet", "--version before first use")
    tally.same((run_plain([launcher, "new", "prove"], fresh.env)[0], fresh.builds), (0, before), "new builds nothing")
    fresh.out.mkdir()


def failing(tally, fresh):
    shutil.rmtree(fresh.out)
    fresh.fails.touch()
    status, out, err = fresh.run()
    tally.same((status, out), (3, ""), "a build that fails")
    tally.holds(err, "rt run failed in crates/endakuro:\nfn group::choose: no proof: the reason", "a build that fails")
    bare = {"PATH": "/nowhere", "RATTLE_HOME": str(KIT)}
    python = shutil.which("python3")
    status, _, err = run_plain([python, *fresh.command], bare)
    tally.same((status, err), (3, "the Rattle kit is needed: no rt on the path\n"), "no rt")


def test():
    tally = Tally("building")
    with tempfile.TemporaryDirectory() as folder:
        fresh = Fresh(folder)
        for part in (first_use, later_use, terminal, other_commands, failing):
            part(tally, fresh)
    return tally
