"""The grammar of the line program: a line in, a line out. docs/LINES.md holds its readings."""

import re
from functools import partial

import book
import channels
import draw
import group
import live
import lookup
import moving
import proving
import ranges
import report
import settings
import ticket
from factors import cpl, cps, cts
from refusals import RECORD_FIELD, Refused
from run_record import LONG, SHORT

LONGEST = 1_048_576

WHOLE = re.compile(rb"0|-?[1-9][0-9]*")
BYTES = re.compile(rb"(?:[0-9a-f]{2})+")
SINGLE = re.compile(rb"[0-9a-f]{8}")
MOST_DIGITS = 20  # hold every operand type

NO_BYTES = b"-"
BAD_LINE = b"bad line"


class BadLine(Exception):
    """An operand is malformed or outside its own type."""


def whole(lowest, highest, word):
    if len(word) > MOST_DIGITS or not WHOLE.fullmatch(word):
        raise BadLine
    value = int(word)
    if not lowest <= value <= highest:
        raise BadLine
    return value


u8 = partial(whole, 0, 2**8 - 1)
u16 = partial(whole, 0, 2**16 - 1)
u32 = partial(whole, 0, 2**32 - 1)
u64 = partial(whole, 0, 2**64 - 1)
i16 = partial(whole, -(2**15), 2**15 - 1)


def places(word):
    if word not in (b"4", b"6"):
        raise BadLine
    return int(word)


def octets(word):
    if word == NO_BYTES:
        return b""
    if not BYTES.fullmatch(word):
        raise BadLine
    return bytes.fromhex(word.decode("ascii"))


def single(word):
    if not SINGLE.fullmatch(word):
        raise BadLine
    return int(word, 16)


def single_octets(bits):
    """A single as an answer tells it, which is how an operand is written."""
    return bits.to_bytes(4, "big")


# By its kind, what a channel carries.
CARRIED = {
    b"fahrenheit": (channels.FAHRENHEIT, single),
    b"celsius": (channels.CELSIUS, single),
    b"pressure": (channels.PRESSURE, single),
    b"fault": (channels.FAULT, u8),
}


def channel(kind_word, value_word):
    if kind_word not in CARRIED:
        raise BadLine
    kind, read = CARRIED[kind_word]
    return channels.Channel(kind, read(value_word))


def as_typed(word):
    return word


CHANNEL = (as_typed, as_typed)  # two words, read together

SETTINGS = (u8, u16, u32, u32, u32, u32)
PROVE = (u32, *SETTINGS, u32, u16, octets, octets)
RUNS = (*SETTINGS, u32, u16, octets)
RUN = (*SETTINGS, u32, octets)
WATER_DRAW = (*SETTINGS, octets)


class List:
    """From one operand to `most` of one type."""

    def __init__(self, read, most):
        self.read, self.most = read, most

    def types(self, count):
        return (self.read,) * min(max(count, 1), self.most)


def printed(value):
    if isinstance(value, bytes):
        return value.hex().encode("ascii") or NO_BYTES
    return b"%d" % value


def said(word, *values):
    return b" ".join([word, *map(printed, values)])


def ok(*values):
    return said(b"ok", *values)


def refused(refusal, *left):
    return said(b"refused", refusal.number, refusal.record, *left)


# The entries that keep no book: operands in the order of the line, the answer as bytes.


def answer_cts(temperature, metal, certificate, to_places):
    coefficient = settings.coefficient_of(metal, certificate)
    if temperature not in ranges.TEMPERATURE:
        raise Refused(RECORD_FIELD)
    return ok(cts(temperature, coefficient, to_places))


def answer_cps(pressure, inside_diameter, wall, modulus, to_places):
    settings.judge_pipe(inside_diameter, wall, modulus)
    if pressure not in ranges.PRESSURE:
        raise Refused(RECORD_FIELD)
    return ok(cps(pressure, inside_diameter, wall, modulus, to_places))


def answer_cpl(*operands):
    *liquid, to_places = operands
    if not ranges.liquid_stands(*liquid):
        raise Refused(RECORD_FIELD)
    return ok(cpl(*liquid, to_places))


def answer_prove(form, request, *operands):
    *prover, k_factor, limit, buffer, records = operands
    try:
        made = proving.prove(
            form, request, settings.Settings(*prover), k_factor, limit, buffer, records
        )
    except Refused as refusal:
        return refused(refusal, buffer)
    return ok(made.factor, made.first, made.runs, *made.factors, report.packed(made))


def answer_runs(form, *operands):
    *prover, k_factor, limit, records = operands
    return ok(proving.accepted_runs(form, settings.Settings(*prover), k_factor, limit, records))


def answer_run(form, *operands):
    *prover, k_factor, record = operands
    return ok(*proving.one_run(form, settings.Settings(*prover), k_factor, record))


def answer_moved(way, buffer, records):
    try:
        return ok(way(buffer, records))
    except Refused as refusal:
        return refused(refusal, buffer)


def answer_draw(rule, *operands):
    *prover, records = operands
    return ok(*rule(settings.Settings(*prover), records))


def answer_fill(metal, certificate, record):
    return ok(*draw.one_fill(metal, certificate, record))


def answer_volumes(rule, *operands):
    *prover, records = operands
    volumes = rule(settings.Settings(*prover), records)
    return ok(len(volumes), *volumes)


def answer_ticket(*operands):
    return ok(*ticket.ticket(*operands))


def answer_live(temperature, pressure):
    return ok(*live.live(temperature, pressure))


def answer_channels(*words):
    first, second = channel(*words[:2]), channel(*words[2:])
    return ok(*channels.channels(first, second))


def answer_panel_temperature(tenths):
    return ok(single_octets(live.panel_temperature(tenths)))


def answer_panel_pressure(psi):
    return ok(single_octets(live.panel_pressure(psi)))


def answer_look_up(temperature, gravity, table):
    return ok(*lookup.look_up(temperature, gravity, table))


def answer_spread(*values):
    return ok(*group.spread(values))


def answer_write(request, runs, first, *operands):
    *factors, buffer = operands
    try:
        return ok(report.write(request, runs, first, factors, buffer))
    except Refused as refusal:
        return refused(refusal, buffer)


def answer_read(buffer):
    made = report.read(buffer)
    return ok(made.request, made.factor, made.first, made.runs, *made.factors)


# The entries of the kept book: the book that comes back, then the answer.


def four_and_four(operands):
    """The figures as a line has them: four reserves, then four ceilings."""
    return book.Figures(operands[: book.SHIPPERS], operands[book.SHIPPERS :])


def answer_request(kept, shipper, number):
    return book.request(kept, shipper, number), ok()


def answer_withdraw(kept, shipper, number):
    return book.withdraw(kept, shipper, number), ok()


def answer_take(kept):
    shipper, number, left = book.take(kept)
    return left, ok(shipper, number)


def answer_book(kept):
    book.judge_book(kept)
    values = [kept.last]
    for shipper in range(book.SHIPPERS):
        numbers = book.waiting(kept, shipper)
        values += [len(numbers), *numbers]
    return kept, ok(*values)


def answer_set(kept, *figures):
    return book.set_figures(kept, four_and_four(figures)), ok()


def answer_figures(kept):
    book.judge_book(kept)
    reserves, ceilings = kept.figures
    return kept, ok(*reserves, *ceilings, book.commons(kept), book.commons_used(kept))


def answer_load(_, last, *operands):
    counts, figures, numbers = operands[:4], operands[4:12], operands[12:]
    lines = tuple(
        numbers[shipper * book.PLACES : (shipper + 1) * book.PLACES]
        for shipper in range(book.SHIPPERS)
    )
    return book.Book(last, counts, four_and_four(figures), lines), ok()


def answer_empty(_):
    return book.EMPTY, ok()


ENTRIES = {
    b"cts": ((i16, u8, u16, places), answer_cts),
    b"cps": ((u16, u32, u32, u32, places), answer_cps),
    b"cpl": ((u16, u16, u16, places), answer_cpl),
    b"prove": (PROVE, partial(answer_prove, SHORT)),
    b"runs": (RUNS, partial(answer_runs, SHORT)),
    b"run": (RUN, partial(answer_run, SHORT)),
    b"prove_long": (PROVE, partial(answer_prove, LONG)),
    b"runs_long": (RUNS, partial(answer_runs, LONG)),
    b"run_long": (RUN, partial(answer_run, LONG)),
    b"forward": ((octets, octets), partial(answer_moved, moving.forward)),
    b"back": ((octets, octets), partial(answer_moved, moving.back)),
    b"draw": (WATER_DRAW, partial(answer_draw, draw.draw)),
    b"fill": ((u8, u16, octets), answer_fill),
    b"passes": (WATER_DRAW, partial(answer_volumes, draw.passes)),
    b"bidirectional": (WATER_DRAW, partial(answer_draw, draw.bidirectional)),
    b"trips": (WATER_DRAW, partial(answer_volumes, draw.trips)),
    b"ticket": ((u32, u32, *(u16,) * 5, u32), answer_ticket),
    b"live": ((single, single), answer_live),
    b"channels": ((*CHANNEL, *CHANNEL), answer_channels),
    b"panel_temperature": ((i16,), answer_panel_temperature),
    b"panel_pressure": ((u16,), answer_panel_pressure),
    b"look_up": ((i16, u16, octets), answer_look_up),
    b"spread": (List(u64, 20), answer_spread),
    b"write": ((u32, u8, u8, *(u16,) * 5, octets), answer_write),
    b"read": ((octets,), answer_read),
}

BOOK_ENTRIES = {
    b"request": ((u8, u32), answer_request),
    b"withdraw": ((u8, u32), answer_withdraw),
    b"take": ((), answer_take),
    b"book": ((), answer_book),
    b"set": ((u8,) * 8, answer_set),
    b"figures": ((), answer_figures),
    b"load": ((u8, *(u8,) * 12, *(u32,) * 64), answer_load),
    b"empty": ((), answer_empty),
}


def operands_of(types, words):
    if isinstance(types, List):
        types = types.types(len(words))
    if len(types) != len(words):
        raise BadLine
    return [read(word) for read, word in zip(types, words)]


class Program:
    """The line program with its one kept book."""

    def __init__(self):
        self.kept = book.EMPTY

    def answer(self, line):
        """The answer to a line without its end; None where it has none."""
        if len(line) > LONGEST:
            return BAD_LINE
        line = line.removesuffix(b"\r")
        if not line or line.startswith(b"#"):
            return None
        name, *words = line.split(b" ")
        try:
            if name in ENTRIES:
                types, entry = ENTRIES[name]
                return entry(*operands_of(types, words))
            if name in BOOK_ENTRIES:
                types, entry = BOOK_ENTRIES[name]
                self.kept, answer = entry(self.kept, *operands_of(types, words))
                return answer
        except BadLine:
            return BAD_LINE
        except Refused as refusal:
            return refused(refusal)
        return BAD_LINE
