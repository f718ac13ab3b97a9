"""Reading a job file: TOML, exact numbers, and words that help where it is wrong. All faults of a file are told at
once, first to last, each with its line and the text there."""

import contextlib
import sys
from functools import cached_property
from pathlib import Path

from . import toml_places, toml_text
from .badfile import BadFile, Fault
from .hints import plain

# How a file is called in words where its name is a sign.
NAMES = {"-": "standard input"}
LAST = sys.maxsize
# Some ten times what the most runs take that a line of the program holds.
MOST_OCTETS = 16_000_000


def standard_input():
    if not sys.stdin:
        raise BadFile(NAMES["-"], "", "is closed: expected a file there")
    return sys.stdin.buffer


def octets_to(path, most):
    """So many bytes of a file at most, read once; `-` is standard input."""
    try:
        with contextlib.nullcontext(standard_input()) if path == "-" else open(path, "rb") as file:
            return file.read(most)
    except (OSError, ValueError) as fault:
        raise BadFile(path, "", f"cannot be read: {getattr(fault, 'strerror', None) or fault}") from fault


def octets_of(path):
    """The file as it stands."""
    octets = octets_to(path, MOST_OCTETS + 1)
    if len(octets) > MOST_OCTETS:
        raise BadFile(NAMES.get(path, path), "", f"is larger than any job: expected at most {MOST_OCTETS:,} bytes")
    return octets


class File:
    """A file that is read, and what was found wrong in it and in the files that it names."""

    def __init__(self, path, octets, expected="a TOML job file"):
        self.path, self.octets = plain(str(NAMES.get(path, path))), octets
        self.faults, self.misplaced = [], set()
        # The bytes of the files that this one names, and where those are looked for.
        self.named, self.folder = {}, Path(path).parent if path not in NAMES else Path()
        try:
            # Some editors put a byte order mark before a text.
            self.text = octets.decode("utf-8-sig").replace("\r\n", "\n")
        except UnicodeDecodeError as fault:
            line = octets[: fault.start].count(b"\n") + 1
            raise BadFile(self.path, "", f"is not text in UTF-8 at line {line}: expected {expected}") from fault

    @cached_property
    def places(self):
        return toml_places.lines_of(self.read)

    @cached_property
    def lines(self):
        return self.text.split("\n")

    def fault(self, line, words, missing=""):
        self.faults.append(Fault(self.path, line, self.lines[line - 1] if line else "", words, missing))

    def values(self):
        """What the file holds as TOML. Lines that are none are noted; where nothing can be read on, that is the end."""
        self.read, values, broken = toml_text.parsed(self.text)
        paths = {} if values is None or not broken else {line: path for path, line in self.places.items()}
        for line, (key, words) in broken.items():
            place = toml_places.words(paths[line]) if line in paths else key
            self.fault(line, f"{place}: {words}" if place else words)
        if values is None:
            raise self.bad
        return values

    @property
    def bad(self):
        """All faults, first to last; a key that stands elsewhere is not missing too."""
        told = [each for each in self.faults if each.missing not in self.misplaced or not each.missing]
        order = list(dict.fromkeys([self.path, *(each.name for each in told)]))
        return BadFile("", "", "", sorted(told, key=lambda each: (order.index(each.name), each.line or LAST)))

    def finish(self):
        if self.faults:
            raise self.bad
