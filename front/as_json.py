"""What a command found, for machines: docs/JSON.md has every key."""

import json
from hashlib import sha256

from . import version
from .fields import ASKED, FACTOR
from .json_bodies import BODIES, entry, figure, read_figures, table
from .refusals import WORDS, Detail

ACCEPTED, REFUSED, BAD = "accepted", "refused", "bad file"
OF_A_BOOK = ("last", "lines", "reserves", "ceilings", "commons", "commons_used")


def text(told):
    """One line."""
    return json.dumps(told, ensure_ascii=False)


def head(command, outcome):
    return {"endakuro": version.NUMBER, "command": command, "outcome": outcome}


def job(worked):
    """A worked job, accepted or refused."""
    own = worked.job
    told = head(own.kind, REFUSED if worked.refusal else ACCEPTED)
    told["job"] = {"file": own.path, "sha256": own.digest, "heading": own.heading}
    told |= BODIES[own.kind](worked)
    return told | ({"refusal": refusal(worked.refusal)} if worked.refusal else {})


def refusal(explained):
    return {
        "number": explained.number,
        "words": WORDS[explained.number],
        "record": explained.record,
        "details": [detail(each) for each in explained.details],
    }


def detail(told):
    """A detail: its words, and field, value and range where it is about one."""
    if not isinstance(told, Detail):
        return {"words": told}
    made = {"words": str(told), "field": told.field}
    if told.value is not None:
        made["value"] = figure(told.value, told.unit)
    if told.low is not None:
        made["range"] = {"low": told.low, "high": told.high, "unit": told.unit.name, "decimals": told.unit.places}
    return made | {key: place for key, place in (("line", told.line), ("run", told.run)) if place}


def record(name, octets, told=None, explained=None):
    """A report record read back, or refused."""
    made = head("read", REFUSED if explained else ACCEPTED) | {"record": {"file": name, "bytes": octets.hex()}}
    if explained:
        return made | {"refusal": refusal(explained)}
    five = [figure(each, FACTOR) for each in told["five"]]
    factor = figure(told["factor"], FACTOR)
    return made | {"result": {**told, "factor": factor, "five": five}}


def look_up(own, asked, found=None, explained=None):
    """An entry of a table, or a look-up that is refused."""
    made = head("look-up", REFUSED if explained else ACCEPTED) | {"table": table(own)}
    made["asked"] = read_figures(asked, ASKED)
    return made | ({"refusal": refusal(explained)} if explained else {"result": entry(found)})


def move(way, old, new, explained=None):
    """A file of run records moved to their other form, or refused."""
    made = head("move", REFUSED if explained else ACCEPTED) | {"direction": way.name}
    if explained:
        return made | {"from": {"file": old.name, "form": old.form.name}, "refusal": refusal(explained)}
    return made | {"from": run_file(old), "to": run_file(new)}


def run_file(own):
    told = {"file": own.name, "form": own.form.name, "records": own.parts[0], "length": len(own.octets)}
    return told | {"sha256": sha256(own.octets).hexdigest()}


def bad(command, fault):
    """A bad file or command: all its faults, each with its line where it has one."""
    listed = [{"file": each.name, "line": each.line or None, "words": each.words} for each in fault.faults]
    return head(command, BAD) | {"faults": listed}


def step(text, words, explained, own):
    """A step of a book session, and the book after it."""
    told = head("book", REFUSED if explained else ACCEPTED) | {"step": text, "words": words, "book": book(own)}
    return told | ({"refusal": refusal(explained)} if explained else {})


def book(own):
    """The book as it stands; all is null of one that is not sound, since the program tells nothing of it."""
    if own is None:
        return {"sound": False} | dict.fromkeys(OF_A_BOOK)
    held = (own.last, own.lines, own.figures.reserves, own.figures.ceilings, own.commons, own.used)
    return {"sound": True} | dict(zip(OF_A_BOOK, held))


def new(kind, content):
    return head("new", ACCEPTED) | {"kind": kind, "text": content}


def unread(path, row):
    """A job of rework that was not worked: a bad file, or one that was skipped."""
    told = head("rework", row["outcome"]) | {"job": {"file": path, "sha256": row.get("SHA-256") or None}}
    return told | {"words": row.get("words", "")}


def summary(counts, stopped, csv, reports):
    return head("rework", "stopped" if stopped else "done") | {"jobs": counts, "csv": csv, "reports": reports}


def failed(command, words):
    """What is neither a refusal nor a bad file."""
    return head(command, "failed") | {"words": words}


def verified(outcome, words, report, job):
    told = {"report": report, "job": {"file": job.path, "sha256": job.digest}, "words": words}
    return head("verify", outcome) | told
