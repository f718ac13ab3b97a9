"""Proving, by pipe prover (01). 02, Longer run records: "Jobs accept either form, never both in one
call, and the same runs get the same report; the caller says which"."""

from collections import namedtuple
from fractions import Fraction

import group
import ranges
import report
from factors import combined, cpl, cps, cts
from records import whole_records
from refusals import INDICATED_VOLUME, K_OR_LIMIT, NO_GROUP, RUN_FACTOR, Refused
from rounding import rounded
from run_record import judged_run, meter_liquid, prover_liquid
from settings import coefficient_of, judge_settings_and_base

PLACES = 4
GROUP = 5

Figures = namedtuple(
    "Figures",
    "indicated cts cps prover_cpl prover_factor meter_cpl meter_product"
    " prover_volume meter_volume factor",
)


def figures(settings, k_factor, run, record):
    """01: "Per run, all at 4 places", refused 7, then 8. Volumes are in 0.0001 barrel."""
    # "1. Indicated volume = pulses ÷ K", K in 0.001 pulse per barrel; 02, Longer run records:
    # "Indicated volume divides the thousandths by K and rounds once"
    indicated = rounded(Fraction(run.thousandths, k_factor), PLACES)
    if indicated not in ranges.VOLUME:
        raise Refused(INDICATED_VOLUME, record)
    # "2. Prover factor from CTS, CPS, CTL and CPL at the prover"
    coefficient = coefficient_of(settings.metal, settings.certificate)
    prover_cts = cts(run.prover_temperature, coefficient, PLACES)
    prover_cps = cps(
        run.prover_pressure, settings.inside_diameter, settings.wall, settings.modulus, PLACES
    )
    prover_cpl = cpl(*prover_liquid(run), PLACES)
    prover_factor = combined((prover_cts, prover_cps, run.prover_ctl, prover_cpl), PLACES)
    # "meter factor product from CTL and CPL at the meter"
    meter_cpl = cpl(*meter_liquid(run), PLACES)
    meter_product = combined((run.meter_ctl, meter_cpl), PLACES)
    # "3. Corrected prover volume = base volume × prover factor"
    prover_volume = combined((settings.base_volume, prover_factor), PLACES)
    # "Corrected meter volume = indicated volume × meter product"
    meter_volume = combined((indicated, meter_product), PLACES)
    # "4. Run factor = corrected prover volume ÷ corrected meter volume"
    factor = rounded(Fraction(prover_volume, meter_volume), PLACES)
    if factor not in ranges.RUN_FACTOR:
        raise Refused(RUN_FACTOR, record)
    return Figures(
        indicated,
        prover_cts,
        prover_cps,
        prover_cpl,
        prover_factor,
        meter_cpl,
        meter_product,
        prover_volume,
        meter_volume,
        factor,
    )


def one_run(form, settings, k_factor, lent):
    """One run's figures: refused 1, 3, 4 for K, then 5, 2, 7, 8 with record 1."""
    (record,) = whole_records(lent, ranges.span(1, 1), form.length)
    judge_settings_and_base(settings)
    if k_factor not in ranges.K_FACTOR:
        raise Refused(K_OR_LIMIT)
    return figures(settings, k_factor, judged_run(record, 1, form), 1)


def job(form, settings, k_factor, limit, lent):
    """01: "1, 3, 4; then records first to last, each with 5, 2[, 6]; then 7 and 8 run by run;
    then 9". Where the five begin, from 0, and every run's factor."""
    records = whole_records(lent, ranges.RUNS, form.length)
    judge_settings_and_base(settings)
    if not (k_factor in ranges.K_FACTOR and limit in ranges.LIMIT):
        raise Refused(K_OR_LIMIT)
    runs = [judged_run(record, number, form) for number, record in enumerate(records, 1)]
    # "A run that has no factor ends the job with that run's refusal"
    factors = [
        figures(settings, k_factor, run, number).factor for number, run in enumerate(runs, 1)
    ]
    first = group.first_group(factors, GROUP, limit)
    if first is None:
        raise Refused(NO_GROUP)
    return first, factors


def prove(form, request, settings, k_factor, limit, buffer, lent):
    """01: "For a job that writes a report: 14, request number zero (22)", then the job's.
    The report; the buffer is its packed form."""
    report.judge_buffer(buffer)
    report.judge_request(request)
    first, factors = job(form, settings, k_factor, limit, lent)
    five = factors[first : first + GROUP]
    return report.Report(request, group.mean(five), first + 1, len(factors), five)


def accepted_runs(form, settings, k_factor, limit, lent):
    """01: "the five accepted run records are handed back as a part of the lent records; a
    refused job hands back the empty part and no number"."""
    try:
        first, _ = job(form, settings, k_factor, limit, lent)
    except Refused:
        return b""
    return lent[first * form.length : (first + GROUP) * form.length]
