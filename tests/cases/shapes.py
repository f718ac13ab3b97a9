"""Inputs of the entries as values that can be varied, and the lines that carry them."""

import struct
from dataclasses import dataclass, field, replace

from .arithmetic import cpl, cps, cts, half_up, water_cpl

NAMED = (186, 288, 265, 180)
NO_BUFFER_YET = bytes(32)
RECORD_LENGTH = 32
FILL = struct.Struct("<IhhhHIBBH12s")


def line(*words):
    return " ".join(str(word) for word in words).encode("ascii")


def hexed(octets):
    return octets.hex() or "-"


@dataclass(frozen=True)
class Prover:
    metal: int = 0
    certificate: int = 0
    inside: int = 10020
    wall: int = 365
    modulus: int = 30_000_000
    base: int = 200_000

    @property
    def coefficient(self):
        return self.certificate or NAMED[self.metal]

    def pass_divisor(self, pressure):
        """CPS × CPL, by which a pass at this pressure is divided, in 10^-12."""
        return cps(pressure, self.inside, self.wall, self.modulus, 6) * water_cpl(pressure)

    @property
    def words(self):
        return (self.metal, self.certificate, self.inside, self.wall, self.modulus, self.base)


@dataclass(frozen=True)
class Run:
    """A run; unvaried, every factor of it is 1."""

    pulses: int = 200_000
    prover_temperature: int = 600
    meter_temperature: int = 600
    prover_pressure: int = 0
    meter_pressure: int = 0
    prover_ctl: int = 10000
    meter_ctl: int = 10000
    prover_compressibility: int = 0
    meter_compressibility: int = 0
    prover_equilibrium_pressure: int = 0
    meter_equilibrium_pressure: int = 0
    unnamed: bytes = bytes(8)

    # What its form has: the end of an entry's name, how many thousandths one of its pulses is, and
    # a record of the fields above.
    SUFFIX = ""
    THOUSANDTHS = 1000
    LAYOUT = struct.Struct("<IhhHHHHHHHH8s")

    @property
    def packed(self):
        return self.LAYOUT.pack(*vars(self).values())

    @property
    def long(self):
        """The same run in the longer form."""
        pulses, *conditions, unnamed = vars(self).values()
        return LongRun(pulses * self.THOUSANDTHS, *conditions, unnamed + bytes(12))

    def indicated(self, k_factor):
        return half_up(self.pulses * self.THOUSANDTHS * 10**4, k_factor)

    @property
    def prover_cpl(self):
        equilibrium = self.prover_equilibrium_pressure
        return cpl(self.prover_pressure, self.prover_compressibility, equilibrium, 4)

    @property
    def meter_cpl(self):
        equilibrium = self.meter_equilibrium_pressure
        return cpl(self.meter_pressure, self.meter_compressibility, equilibrium, 4)

    def prover_product(self, prover):
        """The exact product of the prover's four factors."""
        return (
            cts(self.prover_temperature, prover.coefficient, 4)
            * cps(self.prover_pressure, prover.inside, prover.wall, prover.modulus, 4)
            * self.prover_ctl
            * self.prover_cpl
        )

    def prover_factor(self, prover):
        return half_up(self.prover_product(prover), 10**12)

    @property
    def meter_product(self):
        return half_up(self.meter_ctl * self.meter_cpl, 10**4)

    def with_factor(self, factor, prover, k_factor):
        """The same run with the pulses that bring its factor nearest to `factor`."""
        prover_volume = half_up(prover.base * self.prover_factor(prover), 10**4)
        divisor = factor * self.meter_product * 10**4 * self.THOUSANDTHS
        pulses = half_up(prover_volume * 10**8 * k_factor, divisor)
        least, most = 1000 // self.THOUSANDTHS, 10**11 // self.THOUSANDTHS
        return replace(self, pulses=min(max(pulses, least), most))


@dataclass(frozen=True)
class LongRun(Run):
    """A run in the longer form: its pulses are thousandths of a pulse."""

    pulses: int = 200_000_000
    unnamed: bytes = bytes(20)

    SUFFIX = "_long"
    THOUSANDTHS = 1
    LAYOUT = struct.Struct("<QhhHHHHHHHH20s")

    @property
    def short(self):
        """The same run in the form of before, where its count is whole and its last bytes are 0."""
        pulses, *conditions, unnamed = vars(self).values()
        return Run(pulses // Run.THOUSANDTHS, *conditions, unnamed[:8])


@dataclass(frozen=True)
class Job:
    runs: tuple
    prover: Prover = Prover()
    k_factor: int = 10_000_000
    limit: int = 5
    request: int = 7
    buffer: bytes = NO_BUFFER_YET
    tail: bytes = b""
    form: type = Run  # of all runs

    @property
    def long(self):
        """The same job with its runs in the longer form."""
        return replace(self, runs=tuple(run.long for run in self.runs), form=LongRun)

    @property
    def records(self):
        return b"".join(run.packed for run in self.runs) + self.tail

    @property
    def prove(self):
        return line(
            "prove" + self.form.SUFFIX,
            self.request,
            *self.prover.words,
            self.k_factor,
            self.limit,
            hexed(self.buffer),
            hexed(self.records),
        )

    @property
    def accepted(self):
        name = "runs" + self.form.SUFFIX
        return line(name, *self.prover.words, self.k_factor, self.limit, hexed(self.records))

    def run(self, at=0):
        name, record = "run" + self.form.SUFFIX, self.runs[at].packed + self.tail
        return line(name, *self.prover.words, self.k_factor, hexed(record))

    @classmethod
    def read(cls, text):
        """The job that a line asks for; what its entry has not is in order."""
        name, *words, records = text.decode("ascii").split(" ")
        form = LongRun if name.endswith(LongRun.SUFFIX) else Run
        given = {}
        if name.startswith("prove"):
            request, *words, buffer = words
            given = {"request": int(request), "buffer": bytes.fromhex(buffer.removeprefix("-"))}
        *settings, k_factor = map(int, words[:7])
        if words[7:]:
            given["limit"] = int(words[7])
        lent = bytes.fromhex(records.removeprefix("-"))
        whole = len(lent) // form.LAYOUT.size * form.LAYOUT.size
        runs = tuple(form(*fields) for fields in form.LAYOUT.iter_unpack(lent[:whole]))
        return cls(runs, Prover(*settings), k_factor, tail=lent[whole:], form=form, **given)

    def with_run(self, at, **fields):
        runs = list(self.runs)
        runs[at] = replace(runs[at], **fields)
        return replace(self, runs=tuple(runs))


def both_forms(job, *entries, at=0):
    """A job with short records and then the same in the longer form, each on a line."""
    asks = {
        "prove": lambda of: of.prove,
        "runs": lambda of: of.accepted,
        "run": lambda of: of.run(at),
    }
    for entry in entries:
        yield from (asks[entry](job), asks[entry](job.long))


@dataclass(frozen=True)
class Fill:
    """A fill; unvaried, what is drawn is the certified volume."""

    certified: int = 1_155_000
    scale: int = 0
    prover_temperature: int = 600
    measure_temperature: int = 600
    coefficient: int = 186
    ctdw: int = 1_000_000
    pass_number: int = 1
    pressure: int = 0
    byte_17: int = 0
    unnamed: bytes = bytes(12)

    @property
    def packed(self):
        return FILL.pack(
            self.certified,
            self.scale,
            self.prover_temperature,
            self.measure_temperature,
            self.coefficient,
            self.ctdw,
            self.pass_number,
            self.byte_17,
            self.pressure,
            self.unnamed,
        )

    @classmethod
    def unpacked(cls, record):
        *fields, byte_17, pressure, unnamed = FILL.unpack(record)
        return cls(*fields, pressure, byte_17, unnamed)

    def drawn(self, prover):
        measure = cts(self.measure_temperature, self.coefficient, 6)
        ccts = half_up(measure * 10**6, cts(self.prover_temperature, prover.coefficient, 6))
        return half_up((self.certified + self.scale) * self.ctdw * ccts, 10**12)


@dataclass(frozen=True)
class Draw:
    fills: tuple
    prover: Prover = Prover()
    tail: bytes = b""

    @property
    def records(self):
        return b"".join(fill.packed for fill in self.fills) + self.tail

    def asked(self, entry):
        return line(entry, *self.prover.words, hexed(self.records))

    @property
    def draw(self):
        return self.asked("draw")

    @property
    def passes(self):
        return self.asked("passes")

    @property
    def bidirectional(self):
        return self.asked("bidirectional")

    @property
    def trips(self):
        return self.asked("trips")

    @classmethod
    def read(cls, text):
        """The draw that a line asks for."""
        _, *settings, records = text.decode("ascii").split(" ")
        lent = bytes.fromhex(records.removeprefix("-"))
        whole = len(lent) // RECORD_LENGTH * RECORD_LENGTH
        starts = range(0, whole, RECORD_LENGTH)
        fills = tuple(Fill.unpacked(lent[at : at + RECORD_LENGTH]) for at in starts)
        return cls(fills, Prover(*map(int, settings)), lent[whole:])

    def fill(self, at=0):
        record = self.fills[at].packed + self.tail
        return line("fill", self.prover.metal, self.prover.certificate, hexed(record))

    def with_fill(self, at, **fields):
        fills = list(self.fills)
        fills[at] = replace(fills[at], **fields)
        return replace(self, fills=tuple(fills))


@dataclass(frozen=True)
class Ticket:
    opening: int = 10_000_000
    closing: int = 10_050_000
    meter_factor: int = 10002
    ctl: int = 9908
    pressure: int = 40
    compressibility: int = 820
    equilibrium_pressure: int = 0
    sediment: int = 500

    @property
    def cpl(self):
        return cpl(self.pressure, self.compressibility, self.equilibrium_pressure, 4)

    @property
    def line(self):
        return line(
            "ticket",
            self.opening,
            self.closing,
            self.meter_factor,
            self.ctl,
            self.pressure,
            self.compressibility,
            self.equilibrium_pressure,
            self.sediment,
        )


@dataclass(frozen=True)
class Report:
    request: int = 7
    runs: int = 6
    first: int = 2
    factors: tuple = (10000, 10001, 10002, 10003, 10005)
    factor: int = None  # None for their mean
    rest: bytes = bytes(14)
    buffer: bytes = field(default=NO_BUFFER_YET)

    @property
    def packed(self):
        factor = half_up(sum(self.factors), 5) if self.factor is None else self.factor
        return struct.pack(
            "<IHBB5H14s", self.request, factor, self.first, self.runs, *self.factors, self.rest
        )

    @property
    def write(self):
        return line(
            "write", self.request, self.runs, self.first, *self.factors, hexed(self.buffer)
        )

    @property
    def read(self):
        return line("read", hexed(self.packed))
