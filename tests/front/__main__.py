"""The tests of the front end, a line each. Run: python3 tests/front [NAME .. | PART/PARTS]"""

import importlib
import os
import sys
import tempfile
import time
import traceback
from pathlib import Path

HERE = Path(__file__).resolve().parent
sys.path[:0] = [str(HERE), str(HERE.parent), str(HERE.parents[1])]
NAMES = (
    "examples", "badfiles", "faultlines", "spellings", "entryfiles", "damaged", "ranges", "equilibrium", "reports",
    "spreads", "readback", "outputs", "losses", "worksheets", "workbooks", "halves", "plots", "prints", "machines",
    "verifying", "pagefolders", "reworks", "obstacles", "sessions", "keeping", "newfiles", "building", "helping",
    "readme", "sums", "panels", "channels", "channelfaults", "trips", "agreements", "lookups", "lookupjobs",
    "moving", "interpolated",
)  # fmt: skip


def chosen(words):
    """The tests that are named; 1/2 and 2/2 are all of them in two parts, which may run side by side."""
    if len(words) == 1 and "/" in words[0]:
        part, parts = map(int, words[0].split("/"))
        return NAMES[part - 1 :: parts]
    return words or NAMES


def compiled_once(folder):
    """Has the commands that are started read what Python made of their text, also where it is told to keep nothing."""
    os.environ.pop("PYTHONDONTWRITEBYTECODE", None)
    os.environ["PYTHONPYCACHEPREFIX"] = folder


def main():
    # Before any test: what it tells of its progress is no part of a command's output.
    importlib.import_module("front.build").ensure()
    with tempfile.TemporaryDirectory() as folder:
        compiled_once(folder)
        return tested(chosen(sys.argv[1:]))


def tested(names):
    failed = 0
    for name in names:
        began = time.monotonic()
        try:
            tally = importlib.import_module(name).test()
        except Exception:
            # The other tests still have something to say.
            traceback.print_exc()
            print(f"front {name}: stopped", flush=True)
            failed += 1
            continue
        seconds = int(time.monotonic() - began)
        print(f"front {tally.name}: {tally.checked} checked, {tally.wrong} wrong, {seconds} s", flush=True)
        failed += bool(tally.wrong or not tally.checked)
    return 1 if failed else 0


sys.exit(main())
