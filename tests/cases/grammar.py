"""Cases of the grammar: operands at the ends of their types, malformed, missing and left over;
damaged lines, wild bytes and long lines."""

from . import (
    channels,
    draws,
    factors,
    long_runs,
    lookups,
    moves,
    panels,
    provings,
    reports,
    singles,
    spreads,
    tickets,
    trips,
)
from .book_shapes import NEW, load
from .channel_shapes import Channels, celsius, fahrenheit, fault, psi
from .lookup_shapes import ROW, LookUp, Row
from .move_shapes import FORWARD, Move
from .plain import plain_trips
from .shapes import Draw, Fill, Job, Prover, Report, Run, Ticket, hexed, line

LONGEST = 1_048_576

NAMES = (
    "cts cps cpl prove runs run prove_long runs_long run_long forward back"
    " draw fill passes bidirectional trips ticket live"
    " channels panel_temperature panel_pressure look_up spread write read"
    " request withdraw take book set figures load empty"
).split()


def examples():
    """One good line of every entry."""
    job = Job((Run(),) * 5)
    draw = Draw(tuple(Fill(pass_number=number) for number in (1, 2, 3)))
    out_and_back = plain_trips([(1_155_000, 1_158_000)] * 3)
    table = (Row(-5, 195, 431), Row(995, 200, 447), Row(1000, 200, 448))
    report = Report()
    runs = (Run(200_000), Run(199_999))
    moved = b"".join(run.long.packed for run in runs)
    return [
        line("cts", 700, 4, 250, 4),
        line("cts", -5, 0, 0, 6),
        line("cps", 50, 10020, 365, 28_000_000, 6),
        line("cpl", 385, 2850, 115, 6),
        job.prove,
        job.accepted,
        job.run(),
        job.long.prove,
        job.long.accepted,
        job.long.run(),
        Move(FORWARD, runs, bytes(len(moved))).line,
        line("back", "5a" * 64, hexed(moved)),
        draw.draw,
        draw.fill(),
        draw.passes,
        out_and_back.bidirectional,
        out_and_back.trips,
        Ticket().line,
        line("live", "42928000", "42200000"),
        Channels(celsius(22.5), psi(40.0)).line,
        Channels(fahrenheit(73.25), fault(7)).line,
        line("panel_temperature", 733),
        line("panel_temperature", -5),
        line("panel_pressure", 40),
        LookUp(1000, 199, table).line,
        LookUp(-4, 195, table).line,
        line("spread", 9964, 9963, 9962),
        report.write,
        report.read,
        line("request", 1, 77),
        line("withdraw", 1, 77),
        line("take"),
        line("book"),
        NEW.set,
        line("figures"),
        load(2, [[5], [6, 7], [], [8]]),
        line("empty"),
    ]


MALFORMED = (
    b"",
    b"-",
    b"--",
    b"-0",
    b"+1",
    b"00",
    b"01",
    b"007",
    b"-01",
    b"1.0",
    b"1e3",
    b"0x1",
    b"1_0",
    b"1,000",
    b"1 ",
    b" 1",
    b"\t1",
    b"1\r",
    b"1\x00",
    b"\x00",
    b"\xd9\xa1",  # an Arabic-Indic 1
    b"\xb9",
    b"a",
    b"0a0",
    b"0A",
    b"AB",
    b"g0",
    b"0000000",
    b"000000000",
    b"4292800G",
    b"4292800A",
    b"-1",
    b"-32768",
    b"-32769",
    b"32767",
    b"32768",
    b"255",
    b"256",
    b"65535",
    b"65536",
    b"4294967295",
    b"4294967296",
    b"9" * 19,
    b"18446744073709551615",
    b"18446744073709551616",
    b"18446744073709551621",
    b"340282366920938463463374607431768211457",
    b"1" + b"0" * 300,
    b"0" * 300,
    b"5",
    b"6.",
    b"04",
    b"44",
)


def aimed(rng):
    for example in examples():
        yield from malformed(example)
        yield from reshaped(example)
    yield from loads_without_figures()
    yield from names()
    yield from silent()
    yield from long_lines(rng)
    yield line("empty")


def malformed(example):
    words = example.split(b" ")
    # of a long line, a `load`, both ends of each kind of operand
    tried = range(1, len(words)) if len(words) < 20 else (1, 2, 5, 6, 9, 10, 13, 14, 29, 30, 77)
    for at in tried:
        for word in MALFORMED:
            yield b" ".join(words[:at] + [word] + words[at + 1 :])
        word = words[at]
        yield b" ".join(words[:at] + [word[:-1]] + words[at + 1 :])
        yield b" ".join(words[:at] + [word + b"0"] + words[at + 1 :])
        yield b" ".join(words[:at] + [b"0" + word] + words[at + 1 :])
        yield b" ".join(words[:at] + [word.upper()] + words[at + 1 :])
        yield b" ".join(words[:at] + words[at + 1 :])
        yield b" ".join(words[:at] + [word] + words[at:])


def reshaped(example):
    yield example
    yield example + b"\r"
    yield example + b"\r\r"
    yield example + b" "
    yield example + b" \r"
    yield b" " + example
    yield b"\t" + example
    yield example + b"\t"
    yield example + b"\x00"
    yield b"\x00" + example
    yield b"\xef\xbb\xbf" + example
    yield example + b" 0"
    yield example + b" -"
    yield example.replace(b" ", b"  ", 1) if b" " in example else example + b"  "
    yield example.replace(b" ", b"\t")
    yield example.replace(b" ", b"\r")
    yield example.upper()
    yield example.split(b" ")[0]
    yield example.split(b" ")[0] + b" "
    yield b"#" + example
    yield example + b" # a remark"
    yield example + b"#"


def loads_without_figures():
    """A `load` that goes from the counts on to the places is a bad line; the kept book stays."""
    for last in range(4):
        words = load(last, [[5], [6, 7], [], [8]]).split(b" ")
        yield b" ".join(words[:6] + words[14:])
        yield line("book")


def names():
    for name in NAMES:
        word = name.encode("ascii")
        for spoiled in (word[:-1], word + b"s", word.capitalize(), word + b"\x00", b"-" + word):
            yield spoiled
            yield spoiled + b" 1 2"
    # a name of two words is one word of the line
    yield from (b"panel 733", b"panel_ 733", b"panel temperature 733", b"panel-temperature 733")
    yield from (b"panel_temperature_733", b"panel_temperature panel_temperature 733")
    yield from (b"channel celsius 0 fault 0", b"channels_celsius 41b40000 pressure 42200000")
    yield from (b"prove long", b"prove-long", b"long_prove", b"run_ long", b"_long", b"moved - -")
    yield from (b"look up 0 0 -", b"look_ up 0 0 -", b"look-up 0 0 -", b"lookup 0 0 -")
    yield from (b"help", b"quit", b"ok", b"bad line", b"refused 1 0", b"-", b"0", b"\xff", b"?")


def silent():
    """Lines without an answer, and those that only look so."""
    yield from (b"", b"\r", b"#", b"#\r", b"# take", b"##", b"#" + b"\x00" * 50, b"#\xff\xfe")
    yield from (b"\r\r", b" ", b" #", b"\t", b"\x00", b"\r#", b"\x0b", b"\x0c", b" \r")


def long_lines(rng):
    """Lines at the longest length and past it."""
    for length in (LONGEST, LONGEST + 1):
        yield b"#" * length
        yield b"#" + b"x" * (length - 2) + b"\r"
        yield filled(b"read ", b"00", length)
        yield b"take" + b" " * (length - 4)
        yield b"\x00" * length
    yield b"#" * (LONGEST + 1) + b"\r"
    yield b"#" * (3 * LONGEST)
    yield b"7" * (2 * LONGEST + 2)
    prover = line(*Prover().words)
    job = b" 10000000 5 "
    run = Run().packed.hex().encode()
    yield filled(b"runs " + prover + job, run, LONGEST // 2)
    yield filled(b"prove 7 " + prover + job + b"00" * 32 + b" ", run, LONGEST // 2)
    yield b"prove 7 " + prover + job + b"5a" * 200_000 + b" -"
    for name in (b"passes ", b"bidirectional "):
        yield filled(name + prover + b" ", Fill().packed.hex().encode(), LONGEST // 2)
    yield filled(b"look_up 1000 200 ", ROW.pack(*Row(1000, 200)).hex().encode(), LONGEST // 2)
    yield b"write 7 6 2 8000 8000 8000 8000 8000 " + rng.randbytes(250_000).hex().encode()
    yield filled(b"runs_long " + prover + job, Run().long.packed.hex().encode(), LONGEST)
    # in proportion, though not whole, and to the byte as long as a line can be; then by a CR longer
    at_the_end = b"back " + b"5a" * 209_714 + b" " + b"00" * 314_571
    yield at_the_end
    yield at_the_end + b"\r"


def filled(head, unit, length):
    """A line of this length, or one less where a pair of digits would not fit."""
    room = length - len(head)
    whole = unit * (room // len(unit))
    return head + whole + b"0" * (room - len(whole) - room % 2)


def good_line(rng):
    return rng.choice(
        (
            factors.by_chance,
            provings.by_chance,
            draws.by_chance,
            trips.by_chance,
            tickets.by_chance,
            singles.by_chance,
            panels.by_chance,
            reports.by_chance,
            spreads.by_chance,
            lookups.by_chance,
            channels.by_chance,
            long_runs.by_chance,
            moves.by_chance,
            lambda of: of.choice(examples()),
        )
    )(rng)


def damaged(rng):
    """A good line with some of its bytes changed, lost, doubled or put in."""
    octets = bytearray(good_line(rng))
    for _ in range(rng.choice((1, 1, 1, 2, 5))):
        at = rng.randrange(len(octets))
        chance = rng.randrange(5)
        if chance == 0:
            octets[at] = rng.randrange(256)
        elif chance == 1:
            del octets[at]
        elif chance == 2:
            octets.insert(at, octets[at])
        elif chance == 3:
            octets[at] = rng.choice(b"0123456789abcdef -")
        else:
            octets.insert(at, rng.choice(b" -0\r\x00#"))
        if not octets:
            break
    return bytes(octets).replace(b"\n", b"0")


def marred_record(rng):
    """A good line of records with one hex digit changed, so that the grammar still stands."""
    parts = (provings, draws, trips, reports, lookups, long_runs, moves)
    octets = bytearray(rng.choice(parts).by_chance(rng))
    start = octets.rindex(b" ") + 1
    octets[rng.randrange(start, len(octets))] = rng.choice(b"0123456789abcdef")
    return bytes(octets)


def wild(rng):
    return rng.randbytes(rng.choice((1, 3, 20, rng.randint(1, 400)))).replace(b"\n", b"\x00")


def by_chance(rng):
    chance = rng.random()
    if chance < 0.45:
        return damaged(rng)
    if chance < 0.75:
        return marred_record(rng)
    if chance < 0.85:
        return wild(rng)
    if chance < 0.9:
        return rng.choice((b"", b"\r", b"# a remark", b"#"))
    words = rng.choice(examples()).split(b" ")
    if len(words) > 1:
        words[rng.randrange(1, len(words))] = rng.choice(MALFORMED)
    return b" ".join(words)
