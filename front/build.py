"""Building the line program: proved on first use, and again when a source is newer."""

import os
import re
import shutil
import subprocess
import sys

from .program import ROOT
from .ticker import Ticker

NAME = "endakuro"
FOLDER = ROOT / "crates" / NAME
BINARY = FOLDER / "out" / NAME
# When the sources were last found proved; rt leaves the program's own date as it is when nothing changed.
STAMP = FOLDER / "out" / "front-checked"
# What is no part of the program: what rt makes, and wrong programs.
APART = ("out", "must-fail")
BEGUN = re.compile(r"rt: chose --jobs \d+ for (\w+)$")
PROVED = "logic=proved "
RUNS = "rt: running "


class BuildFailed(Exception):
    """The program could not be built; the text says why."""


def crates():
    """The crates to prove, by crates.txt: the program's own and all that it stands on, each after those that it uses,
    as rt takes them."""
    needs = {}
    for line in (ROOT / "crates.txt").read_text().splitlines():
        if line and not line.startswith("#"):
            name, _, below = line.partition(":")
            needs[name.split()[0]] = below.split()
    found = []

    def add(name):
        if name in needs and name not in found:
            for below in needs[name]:
                add(below)
            found.append(name)

    add(NAME)
    return found


def is_current():
    """Whether the program is there and no source of it is newer."""
    if not BINARY.is_file():
        return False
    known = max(place.stat().st_mtime for place in (BINARY, STAMP) if place.is_file())
    sources = (place for crate in crates() for place in within(ROOT / "crates" / crate))
    return all(place.stat().st_mtime <= known for place in (ROOT / "crates.txt", *sources))


def within(folder):
    """All files and folders of a crate that are part of the program. By scandir: they are looked at before every
    command."""
    if not os.path.isdir(folder):
        return
    with os.scandir(folder) as places:
        for place in places:
            if place.name not in APART:
                yield place
                if place.is_dir(follow_symlinks=False):
                    yield from within(place)


def ensure():
    """Build the program unless it is current, telling the progress."""
    if is_current():
        return
    if not shutil.which("rt"):
        raise BuildFailed("the Rattle kit is needed: no rt on the path")
    names, err = crates(), sys.stderr
    first = "first use: " if not BINARY.is_file() else ""
    print(f"{first}proving {NAME} and what it stands on, {len(names)} crates, some minutes", file=err, flush=True)
    # It proves what is not proved yet, makes the program, and runs it once, on no input.
    process = subprocess.Popen(
        ["rt", "run"],
        cwd=FOLDER,
        stdin=subprocess.DEVNULL,
        stdout=subprocess.PIPE,
        stderr=subprocess.STDOUT,
        text=True,
        errors="replace",
    )
    printed = watch(process, names, err)
    if process.wait() or not BINARY.is_file():
        raise BuildFailed("rt run failed in crates/endakuro:\n" + "\n".join(printed[-20:]))
    STAMP.touch()


def watch(process, names, err):
    """What rt printed; each crate proved is told as it comes. A crate of which rt says nothing was proved before."""
    printed, ticker, at = [], Ticker(len(names), "crates proved", err), None
    try:
        for line in process.stdout:
            printed.append(line.rstrip())
            begun = BEGUN.match(line)
            if begun and begun[1] in names:
                at = names.index(begun[1])
                ticker.done = at
            elif line.startswith(RUNS):
                ticker.done = len(names)
            elif at is not None and line.startswith(PROVED):
                ticker.done = at + 1
                if not ticker.shows:
                    print(f"  {ticker.done} of {len(names)}: {names[at]} proved", file=err, flush=True)
    finally:
        ticker.end()
    return printed
