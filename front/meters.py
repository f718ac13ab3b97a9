"""A summary a meter of many jobs: how many, what they came to, and between which meter factors."""

from .hints import echo
from .results import ACCEPTED, REFUSED

UNNAMED = "no meter named"


class Meters:
    def __init__(self):
        self.known = {}

    def add(self, row):
        """A proving's row."""
        if row.get("job") != "prove":
            return
        own = self.known.setdefault(row.get("meter", ""), {"jobs": 0, ACCEPTED: 0, REFUSED: 0, "factors": []})
        own["jobs"] += 1
        own[row["outcome"]] += 1
        if "meter factor" in row:
            own["factors"].append(row["meter factor"])

    def lines(self):
        """A line a meter, where any is named."""
        return [self.line(name) for name in sorted(self.known)] if any(self.known) else []

    def line(self, name):
        own = self.known[name]
        counts = f"{own['jobs']} provings, {own[ACCEPTED]} accepted, {own[REFUSED]} refused"
        # Factors have the same decimals, and none is 10 or more: their texts are in the order of their numbers.
        factors = f"; meter factor {min(own['factors'])} to {max(own['factors'])}" if own["factors"] else ""
        return f"{'meter ' + echo(name) if name else UNNAMED}: {counts}{factors}"
