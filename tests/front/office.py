"""LibreOffice without a window: it opens worksheets and workbooks, works their formulas and saves what it finds."""

import csv
import subprocess
from pathlib import Path

import debian

# Comma, quotes, UTF-8, from the first line; saved with values in full rather than as shown.
OPEN = "Text - txt - csv (StarCalc):44,34,76,1,,0,false,true"
SAVE = "csv:Text - txt - csv (StarCalc):44,34,76,1,,0,false,false,false"
# The same of every sheet of a workbook, into a file each, as shown or in full.
SAVE_ALL = "csv:Text - txt - csv (StarCalc):44,34,76,1,,0,false,false,{shown},false,false,-1"
# More files in one call than this, and LibreOffice leaves the rest out without a word.
MOST_FILES = 200


def converted(paths, folder, done, words):
    debian.install("soffice")
    profile = f"-env:UserInstallation={(Path(folder) / 'profile').as_uri()}"
    for at in range(0, len(paths), MOST_FILES):
        part = ["soffice", "--headless", profile, *words, "--outdir", done, *paths[at : at + MOST_FILES]]
        subprocess.run(part, check=True, stdout=subprocess.DEVNULL, stderr=subprocess.DEVNULL, timeout=300)


def recalculated(paths, folder):
    """The rows of each file after LibreOffice has worked it, in the files' order."""
    done = Path(folder) / "recalculated"
    converted(paths, folder, done, [f"--infilter={OPEN}", "--convert-to", SAVE])
    return [rows_of(done / Path(path).name) for path in paths]


def sheets_of(paths, folder, shown):
    """The rows of each sheet of each workbook, by its name; as shown, or in full."""
    done = Path(folder) / f"sheets-{shown}"
    converted(paths, folder, done, ["--convert-to", SAVE_ALL.format(shown=str(shown).lower())])
    found = []
    for path in paths:
        names = {each.stem.removeprefix(f"{path.stem}-"): each for each in done.glob(f"{path.stem}-*.csv")}
        found.append({name: rows_of(each) for name, each in names.items()})
    return found


def rows_of(path):
    with open(path, newline="", encoding="utf-8-sig") as file:
        return list(csv.reader(file))
