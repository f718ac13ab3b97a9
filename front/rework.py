"""Many jobs worked again: a row of CSV each, a line for each refusal, a summary. One file stops none of the others."""

import csv
import io
import os
import signal
import sys

from . import as_json, extras, outputs, results
from .crew import IN_HAND, Crew
from .finding import find
from .hints import plain
from .jobfiles import NAMES
from .meters import Meters
from .program import ProgramFailed
from .results import ACCEPTED, BAD, COLUMNS, REFUSED, SKIPPED, cells
from .ticker import Ticker, say

FAILED, STOPPED = 3, 130


class Stop:
    """Ctrl-C asks for an end after the jobs in hand, so that no row is lost or half written; a second ends at once."""

    def __init__(self):
        self.asked = False

    def __enter__(self):
        self.before = {each: signal.signal(each, self.ask) for each in (signal.SIGINT, signal.SIGTERM)}
        return self

    def ask(self, *_):
        if self.asked:
            raise KeyboardInterrupt
        self.asked = True

    def __exit__(self, *_):
        for each, handler in self.before.items():
            signal.signal(each, handler)


def rework(options, program):
    """The exit status: 0 all accepted, 1 some refused, 2 some bad or skipped, 3 an unexpected error, 130 stopped."""
    found = find(options.jobs, options.recursive)
    outputs.check(found.paths, options.places, options.force)
    wanted = extras.of(options, found.paths)
    program.ready()
    # Standard input is this process's own, and may come from a keyboard: it is read before anything is begun.
    given = {path: results.worked(path, program, wanted) for path in found.paths if path == outputs.STANDARD}
    out = sys.stderr if options.json or options.csv == outputs.STANDARD else sys.stdout
    count = min(len(os.sched_getaffinity(0)), 1 + len(found.paths) // IN_HAND)
    with outputs.opened(options.csv) as octets, Stop() as stop, Crew(count, options.patience, wanted) as crew:
        # With a byte order mark, as worksheets have it.
        file = io.TextIOWrapper(octets, "utf-8-sig", newline="", write_through=True)
        ticker = Ticker(len(found.paths), "jobs", sys.stderr, out)
        book = Sheet(file, ticker, options.jobs, options.json)
        try:
            book.fill(found, given, crew, stop)
        finally:
            ticker.end()
        # Only now is it known which other files the jobs name.
        outputs.check(book.files, options.places, True)
        file.detach()
    say("\n".join(book.summary(found, stop.asked, options.csv)), out)
    if options.json:
        say(as_json.text(as_json.summary(book.counts, stop.asked, options.csv, options.reports)), sys.stdout)
    return STOPPED if stop.asked else book.status


class Sheet:
    """The rows, written in the files' order as soon as all before are known, and what they come to."""

    def __init__(self, file, ticker, places, tells):
        self.rows, self.ticker, self.tells = csv.writer(file), ticker, tells
        self.base = os.path.join(places[0], "") if len(places) == 1 and os.path.isdir(places[0]) else ""
        self.counts = {ACCEPTED: 0, REFUSED: 0, BAD: 0, SKIPPED: 0}
        self.requests, self.files, self.meters, self.unexpected = {}, set(), Meters(), False
        self.rows.writerow(COLUMNS)

    def fill(self, found, given, crew, stop):
        """`given` are rows that are there already."""
        known = given | {path: {"outcome": SKIPPED, "words": why} for path, why in found.skipped.items()}
        asked = [path for path in found.paths if path not in known]
        wanted = iter(found.paths)
        following = next(wanted, None)
        for path, row in crew.rows(asked, lambda: stop.asked):
            if "failed" in row:
                raise ProgramFailed(row["failed"])
            known[path] = row
            while following in known:
                self.write(following, known.pop(following))
                following = next(wanted, None)
        for path in found.paths:
            if path in known:
                self.write(path, known[path])

    def write(self, path, row):
        path = NAMES.get(path, path)
        name = path.removeprefix(self.base)
        request = row.get("request")
        if request in self.requests:
            row["remark"] = f"request {request} is that of {self.requests[request]} too"
        elif request:
            self.requests[request] = name
        self.rows.writerow(cells(name, row))
        self.ticker.done += 1
        self.counts[row["outcome"]] += 1
        self.files.update(row.get("files", ()))
        self.unexpected = self.unexpected or "unexpected" in row
        self.meters.add(row)
        if self.tells:
            say(as_json.text(row.get("json") or as_json.unread(path, row)), sys.stdout)
        for words in filter(None, (self.told(row), row.get("remark"))):
            self.ticker.say(plain(f"{path}: {words}"))

    def told(self, row):
        return f"skipped: {row['words']}" if row["outcome"] == SKIPPED else row.get("words")

    def summary(self, found, stopped, out):
        done = sum(self.counts.values())
        told = ", ".join(f"{count} {outcome}" for outcome, count in self.counts.items() if count or outcome != SKIPPED)
        jobs = f"stopped after {done} of {len(found.paths)} jobs" if stopped else f"{done} jobs"
        left = ", ".join(f"{count} {what}" for what, count in found.left_out.items())
        place = "standard output" if out == outputs.STANDARD else plain(out)
        return [
            *self.meters.lines(),
            *([f"left out: {left}"] if left else []),
            f"{jobs}: {told}; results in {place}",
        ]

    @property
    def status(self):
        if self.unexpected:
            return FAILED
        return 2 if self.counts[BAD] or self.counts[SKIPPED] else 1 if self.counts[REFUSED] else 0
