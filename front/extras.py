"""What rework makes of each job besides its row: its page and plot in a folder, and its JSON."""

import os
from dataclasses import dataclass

from . import as_json, outputs, pages, plot
from . import worked as works
from .badfile import BadFile
from .outputs import STANDARD, NotWritten

# What the page of a job from standard input is called.
UNNAMED = "standard-input"


@dataclass(frozen=True)
class Extras:
    """`base` is the folder that all jobs lie in: their pages lie in the folder of pages as they in it."""

    json: bool = False
    reports: str | None = None
    base: str = ""

    def place(self, path, ending):
        """Where a job's page or plot goes. Only .toml is left out, so that no two files have one name."""
        name = UNNAMED if path == STANDARD else os.path.relpath(path, self.base).removesuffix(".toml")
        return os.path.join(self.reports, name + ending)

    def places(self, paths):
        """All files that may be written, for the check that none of them costs anything."""
        return [self.place(path, ending) for path in paths for ending in (".html", ".svg")] if self.reports else []

    def make(self, path, job, program):
        """The parts of a job's row that are not of the CSV."""
        if not self.json and not self.reports:
            return {}
        worked = works.work(job, program)
        if self.reports:
            os.makedirs(os.path.dirname(self.place(path, "")), exist_ok=True)
            write(self.place(path, ".html"), pages.printed(worked), job)
            if worked.runs:
                write(self.place(path, ".svg"), plot.draw(worked), job)
        return {"json": as_json.job(worked)} if self.json else {}


def write(place, content, job):
    """A page or a plot; only now is it known which other files the job reads."""
    if outputs.identity(place) in map(outputs.identity, job.files):
        raise NotWritten(place, "it is read by that job")
    outputs.write(place, content)


def of(options, paths):
    """The extras that a command asks for; each output is held against the inputs before anything is written."""
    folders = [os.path.abspath(os.path.dirname(path) or ".") for path in paths if path != STANDARD]
    base = os.path.commonpath(folders) if folders else ""
    wanted = Extras(options.json, options.reports and os.path.abspath(options.reports), base)
    if wanted.reports and os.path.exists(wanted.reports) and not os.path.isdir(wanted.reports):
        raise BadFile(options.reports, "--reports", "is a file: expected a folder")
    there = [place for place in wanted.places(paths) if os.path.lexists(place)]
    if there and not options.force:
        raise BadFile(there[0], "--reports", "is there already: --force writes over it")
    inputs = {outputs.identity(path) for path in paths} if there else set()
    for place in there:
        if outputs.identity(place) in inputs:
            raise BadFile(place, "--reports", "is read by this command: expected another folder")
    return wanted
