"""The report record (01, Records)."""

import struct
from collections import namedtuple

import ranges
from group import mean
from refusals import BUFFER_LENGTH, NOT_A_REPORT, NUMBER_ZERO, Refused

LENGTH = 32

# "Report: 0 request number (4), 4 job factor (2), 6 first run used (1), 7 runs in job (1),
# 8 the five factors (2 each)", and "bytes not named are zero": 14 at the end.
LAYOUT = struct.Struct("<IHBB5H14s")
ZEROS = bytes(14)

Report = namedtuple("Report", "request factor first runs factors")


def judge_buffer(buffer):
    if len(buffer) != LENGTH:
        raise Refused(BUFFER_LENGTH)


def judge_request(request):
    if request == 0:
        raise Refused(NUMBER_ZERO)


def fields_stand(runs, first, factors):
    # "runs are 5 to 20, the first run is 1 to runs - 4, the factors are in range"
    return (
        runs in ranges.RUNS
        and first in ranges.span(1, runs - 4)
        and all(factor in ranges.RUN_FACTOR for factor in factors)
    )


def packed(report):
    return LAYOUT.pack(
        report.request, report.factor, report.first, report.runs, *report.factors, ZEROS
    )


def write(request, runs, first, factors, buffer):
    """01: "The report writer alone, which takes number, runs, first run and five factors:
    14, 22, 15". The buffer as written."""
    judge_buffer(buffer)
    judge_request(request)
    if not fields_stand(runs, first, factors):
        raise Refused(NOT_A_REPORT)
    return packed(Report(request, mean(factors), first, runs, factors))


def read(buffer):
    """01: "A report read: 14, 15"."""
    judge_buffer(buffer)
    request, factor, first, runs, *factors, rest = LAYOUT.unpack(buffer)
    # "exactly when its number is not zero, [the fields stand], byte 4 holds their rounded
    # mean and the rest is zero"
    if not (
        request != 0
        and fields_stand(runs, first, factors)
        and factor == mean(factors)
        and rest == ZEROS
    ):
        raise Refused(NOT_A_REPORT)
    return Report(request, factor, first, runs, factors)
