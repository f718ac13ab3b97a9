"""The kinds of job: what each holds, and what of it the line program is given. `digest` is its file's SHA-256, by which
a page is known to be the job's; `files` are read with it because it names them, and then the digest is of all."""

from dataclasses import dataclass, replace

from . import fields
from .look_ups import LookUp
from .profiles import UNIDIRECTIONAL, Profile
from .records import SHORT, Form


@dataclass(frozen=True)
class Prover:
    metal: int | None
    coefficient: int | None
    pipe: dict
    base: int

    @property
    def metal_words(self):
        """METAL COEFFICIENT; a certificate of 0 is none to the line program, so no name may stand in for it."""
        if self.coefficient == 0 or self.metal is None:
            return (fields.NO_METAL, self.coefficient)
        return (self.metal, self.coefficient or 0)

    @property
    def words(self):
        return (*self.metal_words, *self.pipe.values(), self.base)

    @property
    def in_use(self):
        """The coefficient that the factors are worked with: 'A certificate wins over the name'."""
        return fields.METAL_COEFFICIENTS[self.metal] if self.coefficient is None else self.coefficient


@dataclass(frozen=True)
class Entry:
    """A run or a fill: its named counts and its record. A count that is yet to be looked up is None."""

    counts: dict
    record: bytes

    def with_counts(self, found, layout):
        """A run with what was found for it; one that looks nothing up keeps the record that it was given as."""
        counts = self.counts | found
        return Entry(counts, layout.pack(counts)) if found else self


@dataclass(frozen=True)
class Proving:
    path: str
    heading: dict
    request: int
    prover: Prover
    k_factor: int
    limit: int
    runs: list
    form: Form = SHORT
    look_up: LookUp | None = None
    digest: str = ""
    files: tuple = ()
    kind = "prove"

    @property
    def records(self):
        return b"".join(run.record for run in self.runs)

    def with_found(self, look_up):
        """The same with what was looked up in its runs."""
        layout = self.form.layout
        runs = [run.with_counts(look_up.counts(number), layout) for number, run in enumerate(self.runs, 1)]
        return replace(self, look_up=look_up, runs=runs)

    @property
    def shown(self):
        """The fields of a run that its page and worksheet have."""
        return fields.given(self.form.fields, [run.counts for run in self.runs])


@dataclass(frozen=True)
class Draw:
    path: str
    heading: dict
    prover: Prover
    fills: list
    profile: Profile = UNIDIRECTIONAL
    digest: str = ""
    files: tuple = ()
    kind = "draw"

    @property
    def records(self):
        return b"".join(fill.record for fill in self.fills)


@dataclass(frozen=True)
class Ticket:
    path: str
    heading: dict
    counts: dict
    look_up: LookUp | None = None
    digest: str = ""
    files: tuple = ()
    kind = "ticket"

    def with_found(self, look_up):
        return replace(self, look_up=look_up, counts=self.counts | look_up.counts(0))

    @property
    def shown(self):
        """The fields that its page and worksheet have."""
        return fields.given(fields.TICKET, [self.counts])


@dataclass(frozen=True)
class Live:
    path: str
    heading: dict
    # A `channels.Sent` for each place.
    sent: dict
    digest: str = ""
    files: tuple = ()
    kind = "live"


@dataclass(frozen=True)
class Panel:
    path: str
    heading: dict
    counts: dict
    digest: str = ""
    files: tuple = ()
    kind = "panel"
