"""Files of run records moved to the other form: the program judges and moves them, a refusal is told in words."""

from dataclasses import dataclass

from .field_faults import of_count, of_fields, of_unnamed_bytes
from .fields import MOVED, NUMBER
from .hints import plain
from .jobfiles import NAMES, octets_to
from .program import Refusal, Refused, hexed
from .records import LONG, SHORT, Form
from .refusals import Detail, Explained

FEWEST, MOST = MOVED
NOT_WHOLE = 36


@dataclass(frozen=True)
class RunFile:
    """A file's bytes, taken for records of a form: nothing in them says which they are of."""

    name: str
    octets: bytes
    form: Form

    @property
    def length(self):
        return self.form.layout.length

    @property
    def parts(self):
        """How many whole records there are, and how many bytes are left over."""
        return divmod(len(self.octets), self.length)

    @property
    def records(self):
        return [self.octets[at : at + self.length] for at in range(0, len(self.octets), self.length)]

    @property
    def in_words(self):
        return f"{counted(self.parts[0], 'record')} of the {self.form.name} form, {self.length} bytes each"


def counted(count, noun):
    return f"{count:,} {noun}" + ("" if count == 1 else "s")


@dataclass(frozen=True)
class Way:
    """A way to move, by the name of the program's line; `asked` is how a command line asks for it."""

    name: str
    source: Form
    target: Form
    asked: str

    @property
    def other(self):
        return FORWARD if self is BACK else BACK


FORWARD = Way("forward", SHORT, LONG, "without --back")
BACK = Way("back", LONG, SHORT, "with --back")


def read(path, way):
    """The file to be moved; a record more than can be tells that there are too many."""
    return RunFile(plain(NAMES.get(path, path)), octets_to(path, (MOST + 1) * way.source.layout.length), way.source)


def moved(old, way, name, program):
    """The file in its other form, or its refusal raised. Bytes that are no whole records are refused before they are
    lent: not every number of them has a buffer of the length that the program asks for."""
    count, over = old.parts
    if over:
        raise Refused(Refusal(1, 0))
    buffer = bytes(count * way.target.layout.length)
    [told] = program.ask(way.name, hexed(buffer), hexed(old.octets))
    return RunFile(plain(name), bytes.fromhex(told), way.target)


def line(old, new, way):
    """What was done."""
    before, after = (f"{len(each.octets):,} bytes, {each.length} a record" for each in (old, new))
    done = f"{counted(old.parts[0], 'record')} moved {way.name} into {new.name}"
    return f"{old.name}: {done}: from {before}, to {after}"


def explain(old, way, refusal, program):
    layout, at = old.form.layout, f"record {refusal.record}: "
    own = old.records[refusal.record - 1] if refusal.record else b""
    match refusal.number:
        case 1:
            found = of_length(old)
        case 5:
            found = of_fields(layout.unpack(own), layout.fields, at)
        case 2:
            found = of_unnamed_bytes(own, layout, at)
        case _:
            found = of_pulses(layout.unpack(own)["pulses"], old.form.pulses, at)
    other = RunFile(old.name, old.octets, way.target)
    if refusal.number in (5, 2) and is_of(other, way.other, program) or refusal.number == 1 and fits_alone(other, old):
        found.append(Detail(f"as {other.in_words}, they are moved {way.other.asked}", "form"))
    return Explained(refusal.number, refusal.record, tuple(found))


def of_length(old):
    """Bytes that are no whole records, or too few or many of them."""
    count, over = old.parts
    if over:
        words = f"{counted(len(old.octets), 'byte')}: {old.in_words}, and {counted(over, 'byte')} over"
        return [Detail(f"{words}, range whole records", "bytes", len(old.octets), unit=NUMBER)]
    if count > MOST:
        words = f"records: more than {MOST}, range {FEWEST} to {MOST}"
        return [Detail(words, "records", count, FEWEST, MOST, NUMBER)]
    return of_count("records", count, MOVED)


def of_pulses(count, field, at):
    words = f"{at}{field.label} is {field.text(count)}, not whole: the {SHORT.name} form holds whole pulses alone"
    return [Detail(words, field.key, count, unit=field.unit)]


def fits_alone(other, old):
    """Whether a file is of whole records of the other form and not of its own."""
    return bool(old.parts[1]) and not other.parts[1]


def is_of(other, way, program):
    """Whether the program takes a file for one of the other form, as it is where it has been moved before."""
    try:
        moved(other, way, "", program)
    except Refused as refused:
        return refused.refusal.number == NOT_WHOLE
    return True
