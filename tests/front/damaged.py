"""Damaged job files by chance: each is answered, refused with words that say why, or told to be a bad file."""

import random
import re
import shutil
import tempfile
from pathlib import Path

from harness import ROOT, Tally

from front import results
from front.extras import Extras
from front.program import Program

FILES = 1200
NUMBERS = (
    "0", "1", "-1", "0.00001", "1e5", "5.5", "65535", "65536", "4294967295", "4294967296", "32767", "32768", "-32769",
    "255", "256", "100000000", "1e-8", "1e400", "nan", "-inf", "true", "{}", "[]", '"73.5 F"', '"7fc00000"', "9" * 30,
)  # fmt: skip
PIECES = ("[", "[[", "]]", "=", '"', "\n", "#", "run", "[live]\n", "record", "[every_run]\n", 'title = "x"\n', "\x00")


def damaged(text, rng):
    lines = text.split("\n")
    match rng.randrange(5):
        case 0 | 1:
            numbers = list(re.finditer(r"(?<= = )[-\d._e]+", text))
            if numbers:
                found = rng.choice(numbers)
                return text[: found.start()] + rng.choice(NUMBERS) + text[found.end() :]
        case 2:
            place = rng.randrange(len(text) + 1)
            return text[:place] + rng.choice(PIECES) + text[place:]
        case 3:
            del lines[rng.randrange(len(lines))]
        case 4:
            lines.insert(rng.randrange(len(lines)), rng.choice(lines))
    return "\n".join(lines)


def test():
    tally = Tally("damaged files")
    rng = random.Random(7)
    texts = [path.read_text() for path in sorted((ROOT / "examples").rglob("*.toml"))]
    outcomes = {}
    with tempfile.TemporaryDirectory() as folder, Program() as program:
        path = Path(folder) / "job.toml"
        for named in (ROOT / "examples").rglob("*.csv"):
            shutil.copy(named, folder)
        for number in range(FILES):
            text = rng.choice(texts)
            for _ in range(rng.randint(1, 3)):
                text = damaged(text, rng)
            path.write_text(text)
            try:
                row = results.worked(str(path), program, Extras())
            except Exception as fault:
                tally.check(False, f"file {number}: {type(fault).__name__}: {fault}\n{text}")
                break
            outcome, words = row["outcome"], row.get("words", "")
            outcomes[outcome] = outcomes.get(outcome, 0) + 1
            explained = bool(words) == (outcome != results.ACCEPTED)
            if outcome == results.REFUSED:
                explained = words.startswith(f"refused {row['refusal']}: ") and "; " in words
            tally.check(explained, f"file {number}: {outcome}, {words!r}")
    tally.same(set(outcomes), {results.ACCEPTED, results.REFUSED, results.BAD}, "outcomes met")
    return tally
