"""The kinds of moves that must be reached: counts, fields and unnamed bytes at their ends and past
them, how many records, buffers of other lengths and with old bytes; and, of another module,
faults."""

from itertools import product

import move_precedence
from cases import ends
from cases.move_shapes import FORWARD, LENT, MOST, WAYS, WRITTEN
from cases.moves import OF_TWO_WORDS, PULSES, PULSES_PAST, RESTS, THOUSANDTHS_PAST, WHOLE
from cases.table_faults import BYTES
from move_faults import (
    FIELD,
    FIELDS,
    FRACTION,
    LENGTHS,
    NUMBERS,
    OF_RECORDS,
    UNNAMED,
    Asked,
    faults,
    run_of,
)
from outcomes import OK
from record_kinds import (
    first_unnamed,
    is_in,
    of_byte,
    of_fields,
    of_good_run,
    of_unnamed,
    of_value,
    wanted_fields,
)

ENTRIES = WAYS

OLD_BYTES, ZEROS = "a buffer with old bytes", "a buffer of zeros"
NO_BUFFER, SAME_LENGTH = "no buffer", "a buffer as long as what is lent"
ROUNDED_DOWN, ROUNDED_UP = "a buffer rounded down to bytes", "a buffer rounded up to bytes"


def of_count(count):
    return f"{count} records"


def of_rest(rest):
    return f"{rest} thousandths more than whole pulses"


def of_lengths(buffer, lent):
    return f"a buffer of {buffer} bytes for {lent}"


def off_by(octets):
    return f"a buffer {abs(octets)} bytes too {'long' if octets > 0 else 'short'}"


def out_of_proportion(asked):
    buffer = len(asked.buffer)
    own, other = (2, 3) if asked.way == FORWARD else (3, 2)
    right, rest = divmod(asked.lent * other, own)
    if not rest:
        yield off_by(buffer - right)
    elif buffer in (right, right + 1):
        yield ROUNDED_DOWN if buffer == right else ROUNDED_UP
    if not buffer:
        yield NO_BUFFER
    if buffer == asked.lent:
        yield SAME_LENGTH


def of_faulty_run(way, run, kind):
    if kind == FIELD:
        yield from of_fields(run, FIELDS[way])
    elif kind == UNNAMED:
        yield from of_unnamed(run)
    else:
        yield of_value("pulses", run.pulses)
        yield of_rest(run.pulses % 1000)


def reached(text):
    asked = Asked.read(text)
    found = [*faults(asked)]
    yield from move_precedence.reached(asked, found)
    if asked.buffer:
        yield OLD_BYTES if any(asked.buffer) else ZEROS
    if not found:
        yield of_count(len(asked.records))
        for record in {*asked.records}:
            yield from of_good_run(run_of(asked.way, record))
        return
    first = found[0]
    if first.kind == LENGTHS:
        yield from out_of_proportion(asked)
    elif first.record:
        run = run_of(asked.way, asked.records[first.record - 1])
        yield from of_faulty_run(asked.way, run, first.kind)
    else:
        yield of_lengths(len(asked.buffer), asked.lent)


def wanted(way):
    """What is answered, and to which kind of move."""
    yield from move_precedence.wanted(way)
    yield from ((OK, kind) for kind in (OLD_BYTES, ZEROS))
    for kind in (LENGTHS, *OF_RECORDS[way]):
        yield NUMBERS[kind], OLD_BYTES
    yield from ((OK, of_count(count)) for count in (1, 2, 3, 100, MOST))
    yield from wanted_lengths(way)
    yield from wanted_counts(way)
    for in_range, kind in wanted_fields(FIELDS[way]):
        yield OK if in_range else 5, kind
    unnamed = range(first_unnamed(LENT[way]), LENT[way].LAYOUT.size)
    yield from ((2, of_byte(byte, value)) for byte, value in product(unnamed, BYTES))


def wanted_lengths(way):
    own, other = LENT[way].LAYOUT.size, WRITTEN[way].LAYOUT.size
    # in proportion, and no whole records or too many
    for times in (*range(16), 16 * (MOST + 1)):
        yield 1, of_lengths(other // 16 * times, own // 16 * times)
    for octets in (1, other // 2, other, own):
        yield from ((14, off_by(octets)), (14, off_by(-octets)))
    yield from ((14, off_by(octets)) for octets in (2**15, 2**16))
    yield from ((14, kind) for kind in (NO_BUFFER, SAME_LENGTH, ROUNDED_DOWN, ROUNDED_UP))


def wanted_counts(way):
    if way == FORWARD:
        yield from ((OK, of_value("pulses", count)) for count in PULSES)
        yield from ((5, of_value("pulses", count)) for count in PULSES_PAST)
        return
    yield from ((OK, of_value("pulses", 1000 * count)) for count in PULSES)
    yield from ((5, of_value("pulses", count)) for count in THOUSANDTHS_PAST)
    for count in (*OF_TWO_WORDS, *(whole + by for whole in WHOLE for by in (-1, 0, 1))):
        in_range = is_in(count, ends.PULSE_THOUSANDTHS)
        what = 5 if not in_range else NUMBERS[FRACTION] if count % 1000 else OK
        yield what, of_value("pulses", count)
    yield from ((NUMBERS[FRACTION], of_rest(rest)) for rest in RESTS)
