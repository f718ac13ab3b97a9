"""Runs or fills from a CSV that the job file names, one line each, as a flow computer exports them."""

from . import csv_lines
from .csv_lines import folded


def tables(top, key, known):
    """A table a line of the file, after the line of headings. [runs] says which file, which of its columns are no part
    of the job, and the headings of those that are not called by their keys."""
    if isinstance(top.values[f"{key}s"], list):
        top.bad(f"{key}s", f"expected [[{key}]], one for each {key}, or [{key}s] with the name of a file")
        return []
    own = top.table(f"{key}s")
    own.only(["file", "ignore", *known])
    if key in top.values:
        top.bad(key, f"expected [[{key}]] or [{key}s], not both")
    file = csv_lines.named(own, "file", f"a CSV with a line a {key}")
    return list(csv_lines.tables(file, key, headings_of(own, known), ignored(own))) if file else []


def ignored(own):
    listed = own.values.get("ignore", [])
    if not isinstance(listed, list) or not all(isinstance(each, str) for each in listed):
        own.bad("ignore", "expected a list of headings in quotes")
        return []
    return listed


def headings_of(own, known):
    """The key of each heading: as it is spelled, in any case, with spaces for underscores; or as the job file says."""
    said = {own.text(key): key for key in known if key in own.values}
    return {folded(key): key for key in (*known, "record") if key not in said.values()} | {
        folded(heading): key for heading, key in said.items() if heading is not None
    }
