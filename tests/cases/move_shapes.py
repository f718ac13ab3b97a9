"""A move of run records to the other form as a value that can be varied, and its line."""

from dataclasses import dataclass, replace
from itertools import cycle, islice

from .proving_days import valid_run
from .shapes import LongRun, Run, hexed, line

FORWARD, BACK = WAYS = ("forward", "back")
# By its way the form of what is lent and the form of what is written.
LENT = {FORWARD: Run, BACK: LongRun}
WRITTEN = {FORWARD: LongRun, BACK: Run}
OTHER_WAY = {FORWARD: BACK, BACK: FORWARD}
MOST = 4096  # records that can be moved


@dataclass(frozen=True)
class Move:
    way: str
    runs: tuple
    buffer: bytes
    tail: bytes = b""

    @property
    def lent(self):
        return b"".join(run.packed for run in self.runs) + self.tail

    @property
    def line(self):
        return line(self.way, hexed(self.buffer), hexed(self.lent))

    @property
    def moved(self):
        """The runs in the other form, where they have one."""
        return tuple(run.long if self.way == FORWARD else run.short for run in self.runs)

    def with_run(self, at, **fields):
        runs = list(self.runs)
        runs[at] = replace(runs[at], **fields)
        return replace(self, runs=tuple(runs))

    def with_tail(self, tail, rng):
        """With bytes more than whole records, and a buffer in proportion where there is one."""
        lent = len(self.runs) * LENT[self.way].LAYOUT.size + len(tail)
        return replace(self, tail=tail, buffer=rng.randbytes(fitting(self.way, lent)))


def lengthened(records):
    """Short records in the longer form, byte by byte; what is left of a record stays as it is."""
    whole = len(records) // 32 * 32
    longer = b"".join(
        (1000 * int.from_bytes(records[at : at + 4], "little")).to_bytes(8, "little")
        + records[at + 4 : at + 32]
        + bytes(12)
        for at in range(0, whole, 32)
    )
    return longer + records[whole:]


def fitting(way, lent):
    """The length of the buffer for what is lent, rounded down where it would not be whole."""
    return 3 * lent // 2 if way == FORWARD else 2 * lent // 3


def move(way, runs, rng):
    """Over a buffer that fits and has old bytes."""
    lent = len(runs) * LENT[way].LAYOUT.size
    return Move(way, tuple(runs), rng.randbytes(fitting(way, lent)))


def any_run(rng):
    """A run with no two fields alike as far as chance goes, of any whole count."""
    run = valid_run(rng)
    pulses = rng.choice((rng.randint(1, 255), rng.randint(1, 10**5), rng.randint(1, 10**8)))
    return replace(run, pulses=pulses)


def as_lent(way, run):
    return run.long if way == BACK else run


def any_runs(way, count, rng):
    """So many; of a long file the same few dozen again and again."""
    few = [as_lent(way, any_run(rng)) for _ in range(min(count, 47))]
    return tuple(islice(cycle(few), count))
