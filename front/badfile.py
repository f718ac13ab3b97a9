"""What is wrong in a file, in words: the file, the line with its text, the key and what was expected."""

from dataclasses import dataclass

from .hints import echo, plain

MOST_SHOWN = 40


@dataclass(frozen=True)
class Fault:
    """What is wrong in a file, and where; a fault of the whole file has no line. `missing` is a key that it lacks."""

    name: str
    line: int
    text: str
    words: str
    missing: str = ""

    @property
    def told(self):
        return f"line {self.line}: {self.words}" if self.line else self.words

    @property
    def shown(self):
        return plain(f"{self.name}: {self.told}") + (f"\n   {echo(self.text.strip())}" if self.text.strip() else "")


class BadFile(Exception):
    """A file that cannot be used: which file, which key, what was expected; all its faults, `words` in one line."""

    def __init__(self, path, place, told, faults=()):
        self.faults = faults or (Fault(str(path), 0, "", f"{place}: {told}" if place else told),)
        self.words = plain("; ".join([each.told for each in self.faults[:MOST_SHOWN]] + self.rest))
        super().__init__("\n".join([each.shown for each in self.faults[:MOST_SHOWN]] + self.rest))

    @property
    def rest(self):
        more = len(self.faults) - MOST_SHOWN
        return [f"and {more} more faults"] if more > 0 else []
