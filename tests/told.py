"""The comparison's lines with the reference's answers and what they reach, worked out before the
program is there and kept."""

import json
from hashlib import sha256
from pathlib import Path

ROOT = Path(__file__).parents[1]
# What lines, answers and reached kinds come from.
SOURCES = ("reference/*.py", "tests/*.py", "tests/cases/*.py")
REACHED = "reached"


def digest(seed, count):
    """Other lines, another reference and other kinds are kept apart."""
    made_by = sha256(f"{seed} {count}".encode())
    for path in sorted(path for pattern in SOURCES for path in ROOT.glob(pattern)):
        made_by.update(path.read_bytes())
    return made_by.hexdigest()


class Told:
    def __init__(self, folder, seed, count):
        self.folder = Path(folder) / digest(seed, count)

    @property
    def is_whole(self):
        """What was reached is written last."""
        return (self.folder / REACHED).exists()

    def place(self, turn, what):
        return self.folder / f"{turn}.{what}"

    def keep(self, turn, given, answers):
        self.folder.mkdir(parents=True, exist_ok=True)
        self.place(turn, "given").write_bytes(given)
        self.place(turn, "answers").write_bytes(b"\n".join(answers))

    def finish(self, summary, missing):
        begun = self.folder / "begun"
        begun.write_text(json.dumps([summary, missing]))
        begun.replace(self.folder / REACHED)

    def given(self):
        """Each batch, in order."""
        turn = 0
        while (place := self.place(turn, "given")).exists():
            yield place.read_bytes()
            turn += 1

    def answers(self, turn, _):
        return self.place(turn, "answers").read_bytes().split(b"\n")

    def reached(self):
        """The summary, and what was never reached."""
        return json.loads((self.folder / REACHED).read_text())
