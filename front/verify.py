"""Whether a page, plot, worksheet, workbook, JSON, record or row of results is a job's: it carries the job file's
SHA-256, and all of it is what the job comes to when it is worked again. Only the file's name may have changed."""

import csv
import html
import io
import json
import re
import zipfile
import zlib
from dataclasses import replace

from . import as_json, fields, json_bodies, page, pages, plot, results, version, workbook, worksheets
from . import worked as works
from .badfile import BadFile
from .extras import Extras
from .hints import echo, plain
from .jobfiles import NAMES, octets_of
from .profiles import UNIDIRECTIONAL
from .records import LENGTH

SAME, OTHER, CHANGED = "same", "other job", "changed"
DIGEST = re.compile(r"\b[0-9a-f]{64}\b")
# The file's name as a page for print and a workbook have it: both are made again under that name.
NAMED = re.compile(r"<dt>Job file</dt><dd>(.*?)</dd>|<t[^>]*>[A-Z][a-z ]* worksheet: (.*?)</t>")
STRINGS, PROPERTIES = "xl/sharedStrings.xml", "docProps/core.xml"
WHEN = re.compile(r"<dcterms:.*?</dcterms:\w+>")
LARGEST_PART = 1 << 26
BROKEN = (
    KeyError, TypeError, ValueError, AttributeError, RuntimeError, EOFError, OSError, zipfile.BadZipFile, zlib.error,
)  # fmt: skip


def text_parts(octets):
    """A text page's lines without those of the file's name."""
    lines = octets.decode("utf-8", "replace").splitlines()
    start = next((at for at, line in enumerate(lines) if line.startswith("   Job file ")), len(lines))
    end = next((at for at, line in enumerate(lines) if at > start and line.startswith("   SHA-256 ")), start)
    return lines[:start] + lines[end:]


def lines_parts(octets):
    return octets.decode("utf-8", "replace").splitlines()


def csv_parts(octets):
    return list(csv.reader(io.StringIO(octets.decode("utf-8-sig", "replace"), newline="")))[1:]


def json_parts(octets):
    """Its keys without the file's name, and without those that an earlier version has not."""
    told = json.loads(octets)
    leave_out_later(told)
    told["job"] = {key: value for key, value in told["job"].items() if key != "file"}
    return [f"{key}: {json.dumps(value, ensure_ascii=False)}" for key, value in told.items()]


def leave_out_later(told):
    """Takes out what later versions say where an earlier one says nothing, as long as it is what was meant there: an
    equilibrium pressure of 0, a unidirectional profile, and then its first pass, which its group begins with."""
    for record in (*told.get("runs", ()), told.get("readings", {})):
        for key in fields.AT_MOST:
            if record.get(key) == json_bodies.figure(fields.DOES_NOT_BOIL, fields.PSI):
                del record[key]
    if told.get("command") == "draw" and told["settings"].get("profile", UNIDIRECTIONAL.name) == UNIDIRECTIONAL.name:
        told["settings"].pop("profile", None)
        if "result" in told and told["result"].get("first_pass") == told["group"]["first"]:
            del told["result"]["first_pass"]


def unpacked(octets):
    """The files of a workbook."""
    with zipfile.ZipFile(io.BytesIO(octets)) as parts:
        if any(part.file_size > LARGEST_PART for part in parts.infolist()):
            raise ValueError("larger than any workbook of ours")
        return {part.filename: parts.read(part).decode("utf-8", "replace") for part in parts.infolist()}


def workbook_parts(octets):
    """All of it but when it was made."""
    return [f"{name} {cell}" for name, text in unpacked(octets).items() for cell in WHEN.sub("", text).split("<c ")]


def named(octets):
    """The name of the job file as a page for print or a workbook has it."""
    text = unpacked(octets)[STRINGS] if octets.startswith(b"PK") else octets.decode("utf-8", "replace")
    found = NAMED.search(text)
    return html.unescape(found[1] or found[2]) if found else ""


def workbook_again(worked):
    return workbook.octets(worksheets.build(worked))


def worksheet_again(worked):
    return worksheets.build(worked).octets


# What only a job with figures has, and what is made again under the name that it has.
OF_FIGURES, UNDER_NAME = (workbook_again, worksheet_again), (workbook_again, pages.printed)
# By what a file begins with: its parts, and how it is made again.
KINDS = (
    (b"PK", workbook_parts, workbook_again),
    (b"<!DOCTYPE html>", lines_parts, pages.printed),
    (b"<svg", lines_parts, plot.draw),
    (b"{", json_parts, lambda worked: as_json.text(as_json.job(worked))),
    (b"\xef\xbb\xbf", csv_parts, worksheet_again),
    (b"", text_parts, lambda worked: "\n".join(page.text(pages.build(worked)))),
)


def digests(octets):
    """The digests that a file carries."""
    if octets.startswith(b"PK"):
        try:
            return DIGEST.findall(unpacked(octets)[PROPERTIES])
        except BROKEN:
            return []
    return DIGEST.findall(octets.decode("utf-8", "replace"))


def verify(report, job, program):
    """What a report is to a job: same, other job or changed, and the words for it."""
    octets, name = octets_of(report), NAMES.get(report, report)
    worked = works.work(job, program)
    if len(octets) == LENGTH:
        same = job.kind == "prove" and worked.answer and worked.answer.record == octets
        return (SAME, "is that job's record") if same else (OTHER, "is not that job's record")
    if octets.startswith(b"PK") and not workbook.library():
        raise BadFile(name, "", f"cannot be compared: {workbook.MISSING}")
    found = digests(octets)
    if not found:
        raise BadFile(name, "", "carries no SHA-256 of a job file: expected what endakuro has written")
    if job.digest not in found:
        return OTHER, f"is not that job's: it is of the job file with SHA-256 {found[0]}, that job's is {job.digest}"
    difference = compared(octets, worked, program)
    if difference and worked.panel:
        # An earlier version tells nothing of the panel.
        difference = compared(octets, replace(worked, panel=None), program) and difference
    if difference:
        return CHANGED, f"carries that job's SHA-256, but is not what {version.NAME} makes of it: {difference}"
    return SAME, f"is that job's, and all of it is what {version.NAME} makes of it"


def compared(octets, worked, program):
    """The first part that differs from what is made again, in words; none where all is the same."""
    if octets.startswith(b"\xef\xbb\xbf" + results.COLUMNS[0].encode() + b","):
        return row_compared(octets, worked.job, program)
    parts, make = next((parts, make) for start, parts, make in KINDS if octets.startswith(start))
    if make in OF_FIGURES and not worked.has_figures or make is plot.draw and not worked.runs:
        return "there is none of that kind"
    try:
        found, name = parts(octets), named(octets) if make in UNDER_NAME else ""
    except BROKEN:
        return "it cannot be read"
    made = make(replace(worked, job=replace(worked.job, path=name or worked.job.path)))
    expected = parts(made.encode() if isinstance(made, str) else made)
    for number, (own, other) in enumerate(zip(found, expected), 1):
        if own != other:
            return f"part {number} is {echo(str(own).strip())}"
    return "" if len(found) == len(expected) else "it is longer or shorter"


def row_compared(octets, job, program):
    """The same for the job's row among rework's results."""
    rows = list(csv.DictReader(io.StringIO(octets.decode("utf-8-sig", "replace"), newline="")))
    own = next(row for row in rows if row.get("SHA-256") == job.digest)
    told = results.cells(own["file"], results.of_job("", job, program, Extras()))
    for name, cell in zip(results.COLUMNS, told):
        if name not in ("file", "remark") and own.get(name) != cell:
            return f"{name} is {echo(str(own.get(name)))}"
    return ""


def line(report, words):
    return f"{plain(NAMES.get(report, report))}: {words}"
