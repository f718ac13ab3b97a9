"""A job with short records and, on the next line, the same runs in the longer form: the same
answer, and of the accepted runs the same ones."""

from cases.move_shapes import lengthened
from outcomes import BAD, OK, outcome
from shown import few

SHORT = {"prove_long": "prove", "runs_long": "runs", "run_long": "run"}


def read(line):
    """What is asked but for the records, and the records."""
    _, *others, records = line.removesuffix(b"\r").split(b" ")
    return others, b"" if records == b"-" else bytes.fromhex(records.decode("ascii"))


def part_in_longer_form(answer):
    word, part = answer.split(b" ")
    return word + b" " + lengthened(bytes.fromhex(part.decode("ascii"))).hex().encode("ascii")


class BesideShort:
    def __init__(self):
        self.before = None  # the entry, the line and its answer
        self.told = set()
        self.unlike = []

    def take(self, entry, line, answer):
        if entry in SHORT and self.before and self.before[0] == SHORT[entry]:
            self.compare(entry, line, answer)
        self.before = (entry, line, answer) if entry in SHORT.values() else None

    def compare(self, entry, line, answer):
        _, short_line, expected = self.before
        if BAD in (outcome(answer), outcome(expected)):
            return
        (short_others, short_records), (others, records) = read(short_line), read(line)
        if short_others != others or lengthened(short_records) != records:
            return
        if entry == "runs_long" and outcome(expected) == OK:
            expected = part_in_longer_form(expected)
        if answer != expected:
            self.unlike.append(line.decode("ascii"))
        self.told.add((entry, outcome(answer)))

    def missing(self, reaches):
        """Of all that an entry can answer."""
        for line in self.unlike[:3]:
            yield f"{line[:120]} answered as with short records"
        for entry in SHORT:
            never = [what for what in reaches[entry] if (entry, what) not in self.told]
            if never:
                yield f"{entry} beside {SHORT[entry]} {few(never)}"
