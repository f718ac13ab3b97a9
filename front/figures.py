"""The line program's figures of a job, by name. Each is asked; none is worked out here."""

from dataclasses import dataclass

from . import channels, fields
from .program import hexed
from .records import FILL_LAYOUT, LENGTH
from .singles import Single

OF_A_RUN = (
    "indicated", "cts", "cps", "prover_cpl", "prover_factor", "meter_cpl", "meter_product",
    "prover_volume", "meter_volume", "factor",
)  # fmt: skip
OF_A_FILL = ("adjusted", "measure_cts", "prover_cts", "ccts", "drawn")
OF_A_REPORT = ("request", "factor", "first", "runs")


@dataclass(frozen=True)
class Outcome:
    """What an accepted job answers."""

    factor: int
    first: int
    runs: int
    five: tuple
    record: bytes

    @property
    def accepted(self):
        """The accepted runs, by their numbers."""
        return range(self.first, self.first + fields.GROUP_OF_RUNS)


@dataclass(frozen=True)
class Group:
    """Runs, passes or round trips in a row. `spread` is in 0.001 % of the smallest; all figures are the program's."""

    first: int
    values: tuple
    smallest: int
    largest: int
    spread: int

    @property
    def numbers(self):
        return range(self.first, self.first + len(self.values))


def prove(job, program):
    """The job's outcome, or its refusal raised."""
    words = (job.request, *job.prover.words, job.k_factor, job.limit, hexed(bytes(LENGTH)), hexed(job.records))
    *numbers, record = program.ask(f"prove{job.form.ending}", *words)
    factor, first, runs, *five = (int(number) for number in numbers)
    return Outcome(factor, first, runs, tuple(five), bytes.fromhex(record))


def group_of(first, values, program):
    """These values in a row, from the number of the first, with their spread."""
    return Group(first, tuple(values), *program.numbers("spread", *values))


def best_of(values, size, program):
    """So many in a row that lie nearest together, the first of them where several do."""
    groups = [group_of(at + 1, values[at : at + size], program) for at in range(len(values) - size + 1)]
    return min(groups, key=lambda group: group.spread)


def of_runs(job, program):
    """Each run's figures, a dictionary a run."""
    line, settings = f"run{job.form.ending}", (*job.prover.words, job.k_factor)
    return [dict(zip(OF_A_RUN, program.numbers(line, *settings, hexed(run.record)))) for run in job.runs]


def of_fills(job, program):
    """Each fill's figures, a dictionary a fill."""
    metal = job.prover.metal_words
    return [dict(zip(OF_A_FILL, program.numbers("fill", *metal, hexed(fill.record)))) for fill in job.fills]


def volumes_of(line, job, records, program):
    """The volume of each pass or round trip of such fills, by the line that tells them."""
    _, *volumes = program.numbers(line, *job.prover.words, hexed(records))
    return volumes


def judged(job, program):
    """The volumes that must agree: those of the passes, or of the round trips."""
    return volumes_of(job.profile.volumes, job, job.records, program)


def of_passes(job, program):
    """Each pass: its fills' sum, its CPS and CPL, its volume."""
    pipe, volumes = job.prover.pipe.values(), volumes_of("passes", job, job.records, program)
    # At 0 psi both factors are 1, so that the passes are the sums of their fills.
    unpressed = b"".join(FILL_LAYOUT.pack({**fill.counts, "pressure": 0}) for fill in job.fills)
    sums = volumes_of("passes", job, unpressed, program)
    pressures = {fill.counts["pass"]: fill.counts["pressure"] for fill in job.fills}
    return [
        {
            "pass": number,
            "pressure": pressure,
            "sum": total,
            "cps": program.numbers("cps", pressure, *pipe, 6)[0],
            "cpl": program.numbers("cpl", pressure, fields.WATER, fields.DOES_NOT_BOIL, 6)[0],
            "volume": volume,
        }
        for (number, pressure), total, volume in zip(pressures.items(), sums, volumes)
    ]


def of_trips(job, passes, program):
    """Each round trip of a bidirectional draw: its out pass, its back pass, its volume."""
    pairs = zip(passes[::2], passes[1::2])
    return [
        {"trip": number, "out": out, "back": back, "volume": volume}
        for number, ((out, back), volume) in enumerate(zip(pairs, judged(job, program)), 1)
    ]


def draw(job, program):
    """Base volume in 0.01 cubic inch, in 0.0001 barrel, and the first pass used."""
    return tuple(program.numbers(job.profile.draw, *job.prover.words, hexed(job.records)))


def ticket(job, program):
    """The ticket's figures. Its indicated volume is the gross of the same readings with every factor 1."""
    counts = job.counts
    factor, gross, net = program.numbers("ticket", *counts.values())
    one = fields.FACTOR.count("1")
    indicated = program.numbers("ticket", counts["opening"], counts["closing"], one, one, 0, 0, 0, 0)[1]
    liquid = (counts[key] for key in ("pressure", "compressibility", "equilibrium_pressure"))
    cpl = program.numbers("cpl", *liquid, 4)[0]
    return {"indicated": indicated, "cpl": cpl, "factor": factor, "gross": gross, "net": net}


def live(job, program):
    return program.numbers(*channels.line(job.sent))


def on_panel(counts, program):
    """The single that the panel shows of each; the temperature is asked first, as it is judged first in a reading."""
    shown = {}
    for key, field in fields.PANEL.items():
        [bits] = program.ask(f"panel_{key}", counts[key])
        shown[key] = Single(bits, field.unit.name)
    return shown


def panel(job, program):
    return on_panel(job.counts, program)


def read(record, program):
    """A report record's fields."""
    *four, a, b, c, d, e = program.numbers("read", hexed(record))
    return dict(zip(OF_A_REPORT, four), five=(a, b, c, d, e))
