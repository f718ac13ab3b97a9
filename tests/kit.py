"""The Rattle kit's prover on the crates of crates.txt, over the libraries that `rt ci` (or `rt lib`) left in crates/*/out.

`rt` has no command that keeps the whole log of a wrong program, or that makes the C archive over what `rt ci` proved just now; this calls
the prover as `rt ci` does.
"""

import os
import pathlib
import shutil
import subprocess
import sys

ROOT = pathlib.Path(__file__).resolve().parent.parent
PARTS = ("src", "specs", "proofs")


def home():
    """The kit's folder."""
    told = os.environ.get("RATTLE_HOME")
    rt = shutil.which("rt")
    if not told and not rt:
        sys.exit("no rt on the path")
    return pathlib.Path(told) if told else pathlib.Path(rt).resolve().parents[1]


def listed(root):
    """Each crate of crates.txt: the libraries that its line names, of the repository and of the kit."""
    found = {}
    for line in (root / "crates.txt").read_text().splitlines():
        head, _, below = line.partition("#")[0].partition(":")
        if head.strip():
            found[head.split()[0]] = below.split()
    return found


def below(crates, name):
    """The repository's libraries below a crate, each after those that it uses."""
    found = []
    for one in crates[name]:
        if one in crates:
            found += [it for it in [*below(crates, one), one] if it not in found]
    return found


def library(root, name):
    return root / "crates" / name / "out" / "rlib" / f"{name}.rlib"


def words(root, name, jobs=1):
    """What names a crate and its libraries to the prover, in the crate's folder or a copy of it."""
    kit, crates = home(), listed(root)
    top = "src/main.rt" if (root / "crates" / name / "src" / "main.rt").exists() else "src/lib.rt"
    own = [it for it in crates[name] if it in crates]
    of_kit = ["std", *[it for it in crates[name] if it not in crates]]
    found = ["--crate-name", name, top]
    for it in of_kit:
        found += ["--extern", f"{it}={kit}/rlibs/{it}.rlib"]
    found += ["-L", f"dependency={kit}/rlibs"]
    for it in own:
        found += ["--extern", f"{it}={library(root, it)}"]
    for it in below(crates, name):
        found += ["-L", f"dependency={library(root, it).parent}"]
    found += ["--antt-project", f"{kit}/rattle/logic/antt-project.json", "--logic-built", f"{kit}/logic_built"]
    return [*found, "--jobs", str(jobs), "--links", f"{name}="]


def prover(verb, folder, *given):
    """Runs the prover in a folder: its status, and all that it says."""
    done = subprocess.run(
        [home() / "bin" / "rattle", verb, *given], cwd=folder, stdin=subprocess.DEVNULL, stdout=subprocess.PIPE, stderr=subprocess.STDOUT
    )
    return done.returncode, done.stdout.decode(errors="replace")


def archive(name):
    """Makes out/libNAME.a of a static library, over the libraries that are there: the prover makes none of a crate that is not proved."""
    folder = ROOT / "crates" / name
    (folder / "out").mkdir(exist_ok=True)
    given = [*words(ROOT, name, os.cpu_count() or 1), "--crate-type", "staticlib", "--toolchain", str(home() / "toolchain"), "--backend", "llvm"]
    status, said = prover("build", folder, *given, "-o", f"out/lib{name}.a")
    if status:
        print(said)
    return 1 if status else 0


if __name__ == "__main__":
    sys.exit(archive(sys.argv[1]))
