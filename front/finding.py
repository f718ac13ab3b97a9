"""Which job files are worked: those named, `-` among them, and those of the folders named. What of a folder is left
out is said."""

import os
import stat
from collections import Counter
from dataclasses import dataclass, field

from .badfile import BadFile
from .outputs import STANDARD

SUFFIX = ".toml"
FOLDERS = "folders inside (--recursive goes into them)"
LINKS = "links to folders"
OTHERS = f"files that are not *{SUFFIX}"


@dataclass
class Found:
    """Paths in order; `skipped` are those that cannot be worked, with the reason; `left_out` counts the rest."""

    paths: list = field(default_factory=list)
    skipped: dict = field(default_factory=dict)
    left_out: Counter = field(default_factory=Counter)

    def add(self, path, why=None):
        self.paths.append(path)
        if why:
            self.skipped[path] = why


def find(places, recursive):
    found = Found()
    for place in places:
        if place == STANDARD:
            found.add(place)
        elif os.path.isdir(place):
            of_folder(place, recursive, found)
        elif os.path.lexists(place):
            found.add(place, why_not(place))
        else:
            raise BadFile(place, "", "cannot be read: No such file or directory")
    if not found.paths:
        raise BadFile(places[0], "", f"holds no job file: expected *{SUFFIX}")
    once = {}
    for path in found.paths:
        # A file that is named, and is in a folder that is named too, is one.
        once.setdefault(path if path == STANDARD else os.path.abspath(path), path)
    found.paths = list(once.values())
    return found


def of_folder(folder, recursive, found):
    try:
        with os.scandir(folder) as listed:
            entries = sorted(listed, key=lambda entry: entry.name)
    except OSError as fault:
        return found.add(folder, f"the folder cannot be read: {fault.strerror}")
    for entry in entries:
        # Not the entry's own is_dir, which a link to itself makes fail.
        if os.path.isdir(entry.path):
            if recursive and not entry.is_symlink():
                of_folder(entry.path, recursive, found)
            else:
                found.left_out[LINKS if recursive else FOLDERS] += 1
        elif entry.name.casefold().endswith(SUFFIX):
            found.add(entry.path, why_not(entry.path))
        else:
            found.left_out[OTHERS] += 1
    return None


def why_not(path):
    """Why a path is not to be read: only a file ends by itself. None where it may be."""
    try:
        mode = os.stat(path).st_mode
    except OSError as fault:
        return f"cannot be read: {fault.strerror}"
    return None if stat.S_ISREG(mode) else "is a pipe, a socket or a device: expected a file"
