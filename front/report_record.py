"""A report record as bytes: from a file or hex digits, and what is wrong with one that is no report."""

import struct

from .fields import NUMBER, REQUEST, RUN_FACTOR, RUNS
from .badfile import BadFile
from .jobfiles import octets_to
from .records import LENGTH
from .refusals import Detail, Explained

# 01, Records: number (4), job factor (2), first run used (1), runs in job (1), five factors (2 each), zeros.
LAYOUT = struct.Struct("<IHBB5H14s")


def from_file(path):
    """A report has 32 bytes: one more tells that a file has too many."""
    return octets_to(path, LENGTH + 1)


def from_hex(digits):
    try:
        return bytes.fromhex(digits)
    except ValueError as fault:
        raise BadFile("--hex", "", "expected hex digits, two a byte, spaces allowed") from fault


def explain(record, refusal):
    if refusal.number == 14:
        size = f"more than {LENGTH}" if len(record) > LENGTH else str(len(record))
        words = f"record has {size} bytes, range {LENGTH}"
        return Explained(14, 0, (Detail(words, "bytes", len(record), LENGTH, LENGTH, NUMBER),))
    return Explained(15, 0, tuple(faults(record)))


def faults(record):
    request, factor, first, runs, *five, rest = LAYOUT.unpack(record)
    few, many = RUNS
    found = []
    if not request:
        words = f"request number is 0, range {REQUEST.range}"
        found.append(Detail(words, "request", request, REQUEST.low, REQUEST.high, NUMBER))
    if not few <= runs <= many:
        found.append(Detail(f"runs in job are {runs}, range {few} to {many}", "runs", runs, few, many, NUMBER))
    elif not 1 <= first <= runs - 4:
        words = f"first run used is {first}, range 1 to the fifth from the last of {runs} runs"
        found.append(Detail(words, "first", first, 1, runs - 4, NUMBER))
    for place, each in enumerate(five, 1):
        if not RUN_FACTOR.within(each):
            words = f"factor {place} of the five is {RUN_FACTOR.text(each)}, range {RUN_FACTOR.range}"
            found.append(Detail(words, f"factor {place}", each, RUN_FACTOR.low, RUN_FACTOR.high, RUN_FACTOR.unit))
    if any(rest):
        found.append(Detail(f"bytes 18 to 31 are {rest.hex(' ')}, range 00", "bytes 18 to 31"))
    words = f"job factor is {RUN_FACTOR.text(factor)}, range the rounded mean of the five"
    return found or [Detail(words, "factor", factor, unit=RUN_FACTOR.unit)]
