"""The run record in its two forms (01, Records; 02, Liquids that boil; 02, Longer run records, and
the way back). A run counts thousandths of a pulse, whatever the form of its record."""

import struct
from collections import namedtuple
from typing import NamedTuple

import ranges
from refusals import RECORD_FIELD, UNNAMED_BYTE, Refused

# 01: "4 prover T (signed 2), 6 meter T (signed 2), 8 prover P, 10 meter P, 12 prover CTL,
# 14 meter CTL, 16 prover F, 18 meter F (2 each)"; 02, Liquids that boil: "Run records hold it [Pe]
# at bytes 20 (prover) and 22 (meter)".
CONDITIONS = "hhHHHHHHHH"


class Form(NamedTuple):
    layout: struct.Struct
    thousandths: int  # of a pulse, that one of its count is
    zeros: bytes  # the bytes that are not named

    @property
    def length(self):
        return self.layout.size


def form_of(count, thousandths, unnamed):
    return Form(struct.Struct(f"<{count}{CONDITIONS}{unnamed}s"), thousandths, bytes(unnamed))


# 01: "0 pulses (4)"; of 32 bytes 24 to 31 are unnamed.
SHORT = form_of("I", 1000, 8)
# 02: "The new run record is 48 bytes: pulses in thousandths (8 bytes, 1000 to 100,000,000,000),
# then the old bytes 4 to 31 at 8 to 35, then zeros": 28 to 47 are unnamed.
LONG = form_of("Q", 1, 20)

Run = namedtuple(
    "Run",
    "thousandths prover_temperature meter_temperature prover_pressure meter_pressure"
    " prover_ctl meter_ctl prover_compressibility meter_compressibility"
    " prover_equilibrium meter_equilibrium",
)


def prover_liquid(run):
    return run.prover_pressure, run.prover_compressibility, run.prover_equilibrium


def meter_liquid(run):
    return run.meter_pressure, run.meter_compressibility, run.meter_equilibrium


def judged_run(lent, record, form):
    """The run in a lent record of a form, refused 5, then 2."""
    count, *conditions, unnamed = form.layout.unpack(lent)
    run = Run(count * form.thousandths, *conditions)
    if not (
        run.thousandths in ranges.PULSE_THOUSANDTHS
        and run.prover_temperature in ranges.TEMPERATURE
        and run.meter_temperature in ranges.TEMPERATURE
        and ranges.liquid_stands(*prover_liquid(run))
        and ranges.liquid_stands(*meter_liquid(run))
        and run.prover_ctl in ranges.CTL
        and run.meter_ctl in ranges.CTL
    ):
        raise Refused(RECORD_FIELD, record)
    if unnamed != form.zeros:
        raise Refused(UNNAMED_BYTE, record)
    return run


def packed(run, form):
    """The record of a run whose count is whole in that form."""
    thousandths, *conditions = run
    return form.layout.pack(thousandths // form.thousandths, *conditions, form.zeros)
