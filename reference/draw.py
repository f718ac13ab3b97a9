"""The water draw: unidirectional (01) and bidirectional (02)."""

import struct
from collections import namedtuple
from fractions import Fraction

import group
import ranges
from factors import WATER_COMPRESSIBILITY, WATER_EQUILIBRIUM, cpl, cps, cts
from records import whole_records
from refusals import (
    NO_GROUP,
    PASS_RULE,
    RECORD_FIELD,
    RECORDS_NOT_WHOLE,
    UNNAMED_BYTE,
    Refused,
)
from rounding import rounded
from settings import coefficient_of, judge_settings

PLACES = 6
VOLUME_PLACES = 2  # 0.01 cubic inch
GROUP = 3
# 01: "Three consecutive passes qualify by the same test with limit 2"; 02, Bidirectional provers:
# "Three consecutive round trips must meet the water draw test"
LIMIT = 2
CUBIC_INCHES_PER_BARREL = 9702
BARREL_PLACES = 4

# 01, Records: "Fill: 0 certified volume (4), 4 scale reading (signed 2), 6 prover T, 8 measure T
# (signed 2), 10 measure coefficient (2), 12 CTDW (4), 16 pass (1), 18 pressure (2)"; 17 and 20 to
# 31 are unnamed.
LAYOUT = struct.Struct("<IhhhHIBBH12s")
ZEROS = bytes(12)

Fill = namedtuple(
    "Fill",
    "certified_volume scale_reading prover_temperature measure_temperature"
    " measure_coefficient ctdw pass_number pressure",
)

Figures = namedtuple("Figures", "adjusted measure_cts prover_cts ccts drawn")


def judged_fill(lent, record):
    """The fill in a lent record, refused 5, then 2."""
    *fields, byte_17, pressure, unnamed = LAYOUT.unpack(lent)
    fill = Fill(*fields, pressure)
    if not (
        fill.certified_volume in ranges.CERTIFIED_VOLUME
        and fill.scale_reading in ranges.SCALE_READING
        and fill.prover_temperature in ranges.DRAW_PROVER_TEMPERATURE
        and fill.measure_temperature in ranges.DRAW_MEASURE_TEMPERATURE
        and fill.measure_coefficient in ranges.COEFFICIENT
        and fill.ctdw in ranges.CTDW
        and fill.pressure in ranges.PRESSURE
    ):
        raise Refused(RECORD_FIELD, record)
    if byte_17 or unnamed != ZEROS:
        raise Refused(UNNAMED_BYTE, record)
    return fill


def judge_pass(before, fill, record):
    """01: "Passes start at 1 and never go back or skip (6) ...; all fills of a pass carry one
    pressure". `before` is the fill before, None at the first."""
    if before is None:
        stands = fill.pass_number == 1
    elif fill.pass_number == before.pass_number:
        stands = fill.pressure == before.pressure
    else:
        stands = fill.pass_number == before.pass_number + 1
    if not stands:
        raise Refused(PASS_RULE, record)


def figures(coefficient, fill):
    """01: "Per fill, at 6 places for factors and 0.01 cubic inch for volumes"."""
    # "adjusted measure = certified volume + scale reading"
    adjusted = fill.certified_volume + fill.scale_reading
    # "CCTS = rounded measure CTS ÷ rounded prover CTS"
    measure_cts = cts(fill.measure_temperature, fill.measure_coefficient, PLACES)
    prover_cts = cts(fill.prover_temperature, coefficient, PLACES)
    ccts = rounded(Fraction(measure_cts, prover_cts), PLACES)
    # "drawn = adjusted × CTDW × CCTS"
    cubic_inches = Fraction(adjusted, 10**VOLUME_PLACES)
    drawn = rounded(cubic_inches * Fraction(fill.ctdw * ccts, 10 ** (2 * PLACES)), VOLUME_PLACES)
    return Figures(adjusted, measure_cts, prover_cts, ccts, drawn)


def pass_volume(settings, pressure, drawn):
    """01: "A pass is the sum of its fills, divided by the unrounded product CPS × CPL, then
    rounded"; the two factors are each rounded to 6 places."""
    prover_cps = cps(pressure, settings.inside_diameter, settings.wall, settings.modulus, PLACES)
    water_cpl = cpl(pressure, WATER_COMPRESSIBILITY, WATER_EQUILIBRIUM, PLACES)
    product = Fraction(prover_cps * water_cpl, 10 ** (2 * PLACES))
    return rounded(Fraction(sum(drawn), 10**VOLUME_PLACES) / product, VOLUME_PLACES)


def one_fill(metal, certificate, lent):
    """One fill's figures: refused 1, 3, then 5, 2 with record 1."""
    (record,) = whole_records(lent, ranges.span(1, 1))
    coefficient = coefficient_of(metal, certificate)
    return figures(coefficient, judged_fill(record, 1))


def corrected_passes(settings, lent, counts):
    """Each pass's volume: refused 1, 3; "then records first to last, each with 5, 2, 6"; then 1
    where the count of passes is not one of those that the prover's type takes."""
    records = whole_records(lent, ranges.FILLS)
    judge_settings(settings)
    coefficient = coefficient_of(settings.metal, settings.certificate)
    by_pass = []
    before = None
    for number, record in enumerate(records, 1):
        fill = judged_fill(record, number)
        judge_pass(before, fill, number)
        if before is None or fill.pass_number != before.pass_number:
            by_pass.append([])
        by_pass[-1].append(fill)
        before = fill
    if len(by_pass) not in counts:
        raise Refused(RECORDS_NOT_WHOLE)
    volumes = []
    for fills in by_pass:
        drawn = [figures(coefficient, fill).drawn for fill in fills]
        volumes.append(pass_volume(settings, fills[0].pressure, drawn))
    return volumes


def passes(settings, lent):
    """01: "more or fewer passes than 3 to 20 is 1, found after the records"."""
    return corrected_passes(settings, lent, ranges.PASSES)


def trips(settings, lent):
    """02, Bidirectional provers: "an odd count of passes, or a count outside 6 to 20, is 1, found
    after the records"; "passes come in pairs, odd out and even back, and a round trip is the sum of
    the two corrected passes". Each of them is rounded already, and was worked at its own pressure:
    "The pair of a round trip may differ in pressure"."""
    volumes = corrected_passes(settings, lent, ranges.PAIRED_PASSES)
    return [out + back for out, back in zip(volumes[0::2], volumes[1::2], strict=True)]


def base_volume(volumes):
    """01: "The first three decide; the base volume is their mean, rounded. The answer is that, the
    same in barrels (÷ 9702, 4 places)", and where the three begin, from 0; 9 comes last. 02 has the
    same of round trips."""
    first = group.first_group(volumes, GROUP, LIMIT)
    if first is None:
        raise Refused(NO_GROUP)
    base = group.mean(volumes[first : first + GROUP])
    cubic_inches = Fraction(base, 10**VOLUME_PLACES)
    return base, rounded(cubic_inches / CUBIC_INCHES_PER_BARREL, BARREL_PLACES), first


def draw(settings, lent):
    """01: "The answer is that [the base], the same in barrels .. and the first pass used"."""
    base, barrels, first = base_volume(passes(settings, lent))
    return base, barrels, first + 1


def bidirectional(settings, lent):
    """02: "the base volume is the rounded mean of the first three [round trips] that do, and the
    first pass used is the out pass of the first of them"."""
    base, barrels, first = base_volume(trips(settings, lent))
    return base, barrels, 2 * first + 1
