"""The figures to hold against (01), 000's propane, 003's bidirectional prover, the ends of what
shippers may agree on, of what can be looked up, of what transmitters send and of longer run records
(02): each through the line program.

Run: python3 tests/figures.py [--program CMD]
"""

import argparse
import sys
from dataclasses import replace
from itertools import islice, product

from cases.channel_shapes import (
    CELSIUS,
    FAHRENHEIT,
    PRESSURE,
    Channel,
    Channels,
    celsius,
    fahrenheit,
    fault,
    psi,
)
from cases.lookup_shapes import GRAVITIES, TEMPERATURES, LookUp, Row
from cases.plain import plain_job
from cases.shapes import Draw, Fill, Job, LongRun, Prover, Report, Run, line
from cases.singles import bits, reading
from programs import REFERENCE, Stopped, answers_of, command
from worked import WorkedDraws

OK = "ok"


def factor_figures():
    yield "CTS at T 70.0, Gc 250", line("cts", 700, 4, 250, 4), "ok 10003"
    yield "CTS at T 50.0, Gc 250", line("cts", 500, 4, 250, 4), "ok 9998"
    yield "mild steel at 73.5", line("cts", 735, 0, 0, 6), "ok 1000251"
    yield "CPS at 50 psi", line("cps", 50, 10020, 365, 28_000_000, 6), "ok 1000049"
    yield "water at 50 psi", line("cpl", 50, 320, 0, 6), "ok 1000160"
    for code, coefficient in enumerate((186, 288, 265, 180)):
        # at 160.0 °F the correction is a hundred coefficients
        expected = 10**6 + 10 * coefficient
        yield f"metal {code} at 160.0", line("cts", 1600, code, 0, 6), f"ok {expected}"
    yield "a certificate wins over the name", line("cts", 1600, 0, 250, 6), "ok 1002500"


THE_RUN = Run(200_000, 735, 735, 40, 40, 9907, 9908, 820, 820)
ITS_FIGURES = "ok 200000 10003 10000 10003 9913 10003 9911 198260 198220 10002"


def run_figure():
    yield "the run", Job((THE_RUN,), Prover(base=200_000)).run(), ITS_FIGURES


PROPANE = Run(28631, 770, 765, 385, 395, 9780, 9789, 2850, 2850, 115, 115)
PROPANE_FIGURES = "ok 21710 10003 10004 10078 9863 10080 9867 20450 21421 9547"


def proved_propane(run):
    return Job((run,), Prover(inside=12000, wall=375, base=20734), 13_188_000)


def propane_figures():
    """Figure 6 of 000; who forgets the equilibrium pressure of 115 psi finds 0.9545."""
    yield "propane", proved_propane(PROPANE).run(), PROPANE_FIGURES
    forgotten = replace(PROPANE, prover_equilibrium_pressure=0, meter_equilibrium_pressure=0)
    told = "ok 21710 10003 10004 10111 9895 10114 9901 20516 21495 9545"
    yield "Pe forgotten", proved_propane(forgotten).run(), told


def group_figures():
    def told(factors):
        return " ".join(str(factor) for factor in factors)

    five = (10000, 10005, 10003, 10001, 10002)
    report = Report(runs=5, first=1, factors=five).packed.hex()
    yield "five that agree", plain_job(five).prove, f"ok 10002 1 5 {told(five)} {report}"
    five = (9999, 10003, 10000, 10001, 10002)
    report = Report(runs=5, first=1, factors=five).packed.hex()
    yield "9999 and 10003 may stand", plain_job(five).prove, f"ok 10001 1 5 {told(five)} {report}"
    five = (9999, 10004, 10000, 10001, 10002)
    yield "9999 and 10004 may not", plain_job(five).prove, "refused 9 0 " + "00" * 32
    six = (10010, 10000, 10001, 10002, 10003, 10005)
    report = "070000001227020610271127122713271527" + "00" * 14
    used = told(six[1:])
    yield "the group begins at run 2", plain_job(six).prove, f"ok 10002 2 6 {used} {report}"
    yield "its records", plain_job(six).accepted, f"ok {plain_job(six[1:]).records.hex()}"
    yield "its report written", line("write", 7, 6, 2, *six[1:], "ff" * 32), f"ok {report}"
    yield "its report read", line("read", report), f"ok 7 10002 2 6 {used}"


def draw_figures():
    fill = Fill(1_155_000, 0, 700, 705, 265, 1_000_060)
    yield "the fill", Draw((fill,), Prover(2)).fill(), "ok 1155000 1000278 1000265 1000013 1155084"
    barrel = tuple(Fill(970_200, pass_number=number) for number in (1, 2, 3))
    yield "9702.00 cubic inches", Draw(barrel).draw, "ok 970200 10000 1"


def round_trip_figures():
    """Example 2 of 003, 18 fills; Figure 1 of 000 out and back, each trip twice its 40491.58."""
    worked = WorkedDraws()
    example = worked.draw("003 Ex 2", "123456")
    yield "Example 2's round trips", example.trips, "ok 3 4238695 4239076 4238985"
    yield "Example 2", example.bidirectional, "ok 4238919 43691 1"
    yield "its passes, which do not agree", example.draw, "refused 9 0"
    cut_short = worked.draw("003 Ex 2", "12345")
    yield "Example 2 without its last pass", cut_short.bidirectional, "refused 1 0"
    figure = worked.draw("000 Fig 1", "111111")
    yield "Figure 1's round trips", figure.trips, "ok 3 8098316 8098316 8098316"
    yield "Figure 1 out and back", figure.bidirectional, "ok 8098316 83471 1"


def ticket_figure():
    asked = line("ticket", 10_000_000, 10_050_000, 10002, 9908, 40, 820, 0, 500)
    yield "the ticket", asked, "ok 9913 49565 49317"


def live_figures():
    yield "73.25 °F", reading(bits(73.25), 0), "ok 733 0"
    yield "-0.25 °F", reading(bits(-0.25), 0), "ok -3 0"
    yield "-0.0 °F", reading(bits(-0.0), bits(-0.0)), "ok 0 0"
    yield "-0.4 psi", reading(0, bits(-0.4)), "ok 0 0"
    yield "-0.5 psi", reading(0, bits(-0.5)), "refused 13 0"


def book_figures():
    yield "a new book", line("empty"), OK
    for number in range(1, 9):
        yield f"shipper 0's request {number}", line("request", 0, number), OK
    yield "shipper 0's ninth", line("request", 0, 9), "refused 24 0"
    for number in range(1, 5):
        yield f"shipper 1's request {number}", line("request", 1, number), OK
    yield "shipper 1's fifth", line("request", 1, 5), "refused 25 0"
    yield "shipper 2's first", line("request", 2, 1), OK
    yield "the book", line("book"), "ok 3 8 1 2 3 4 5 6 7 8 4 1 2 3 4 1 1 0"
    for shipper, number in ((0, 1), (1, 1), (2, 1), (0, 2)):
        yield "a take", line("take"), f"ok {shipper} {number}"


def agreement_figures():
    """02's ends: "reserve 1 to 13, ceiling from that reserve to 16, reserves adding up to at most
    16, and commons the rest of 16"."""
    yield "a new book", line("empty"), OK
    yield "its figures", line("figures"), "ok 2 2 2 2 8 8 8 8 8 0"
    yield "a reserve of 13", line("set", 1, 13, 1, 1, 16, 16, 16, 16), OK
    yield "no commons beside it", line("figures"), "ok 1 13 1 1 16 16 16 16 0 0"
    yield "ceilings at the reserves", line("set", 1, 1, 1, 1, 1, 1, 1, 1), OK
    yield "12 commons", line("figures"), "ok 1 1 1 1 1 1 1 1 12 0"
    for name, figures in (
        ("a reserve of 0", (0, 1, 1, 1, 8, 8, 8, 8)),
        ("a reserve of 14", (14, 1, 1, 1, 16, 8, 8, 8)),
        ("a ceiling below its reserve", (3, 1, 1, 1, 2, 8, 8, 8)),
        ("a ceiling of 17", (1, 1, 1, 1, 8, 8, 8, 17)),
        ("reserves of 17", (5, 4, 4, 4, 8, 8, 8, 8)),
    ):
        yield name, line("set", *figures), "refused 31 0"
    yield "reserves of 16", line("set", 4, 4, 4, 4, 8, 4, 4, 4), OK
    for number in range(1, 5):
        yield f"request {number} of 4 reserved", line("request", 0, number), OK
    yield "its fifth, without commons", line("request", 0, 5), "refused 25 0"
    for number in range(1, 5):
        yield f"shipper 1's request {number}", line("request", 1, number), OK
    yield "its fifth, at its ceiling", line("request", 1, 5), "refused 24 0"
    yield "someone waits", line("set", 2, 2, 2, 2, 8, 8, 8, 8), "refused 30 0"
    yield "the figures are those of before", line("figures"), "ok 4 4 4 4 8 4 4 4 0 0"


# 002's example, 20.0 °API at 100 °F, with half degrees beside it.
COLDER, OWN, WARMER = Row(995, 200, 447), Row(1000, 200, 448), Row(1005, 200, 449)
NEXT_GRAVITY = Row(-200, 205, 300)


def looked_up(temperature, gravity, rows=(COLDER, OWN, WARMER, NEXT_GRAVITY), tail=b""):
    return LookUp(temperature, gravity, tuple(rows), tail).line


def found(row):
    return f"ok {row.temperature} {row.gravity} {row.compressibility}"


def look_up_figures():
    """"The asked temperature .. and gravity .. go to the nearest half degree first"; "refused
    exactly when the table has none"."""
    yield "19.9 °API at 100 °F", looked_up(1000, 199), "ok 1000 200 448"
    yield "two tenths go down", looked_up(1002, 202), found(OWN)
    yield "three go up", looked_up(1003, 198), found(WARMER)
    yield "two tenths below go up", looked_up(998, 200), found(OWN)
    yield "three go down", looked_up(997, 201), found(COLDER)
    yield "the next gravity", looked_up(-198, 203), found(NEXT_GRAVITY)
    below_zero = (Row(-5, 0, 1), Row(0, 0, 2))
    yield "-0.3 °F", looked_up(-3, 0, below_zero), "ok -5 0 1"
    yield "-0.2 °F", looked_up(-2, 2, below_zero), "ok 0 0 2"
    yield "100.8 °F is nearer to 101.0", looked_up(1008, 199), "refused 33 0"
    yield "no such temperature at that gravity", looked_up(1000, 205), "refused 33 0"


def look_up_ends():
    """-20.0 to 200.0, 0.0 to 90.0, F to 10000, "One to 4,096 records"."""
    corners = (Row(-200, 0, 0), Row(2000, 0, 1), Row(-200, 900, 9999), Row(2000, 900, 10000))
    for row in corners:
        yield "an end of the table", looked_up(*row[:2], corners), found(row)
    for temperature, gravity in ((-201, 0), (2001, 0), (-200, 901), (2000, 901), (-201, 901)):
        yield "past an end", looked_up(temperature, gravity, corners), "refused 13 0"
    yield "one record", looked_up(-200, 0, corners[:1]), found(corners[0])
    pairs = product(GRAVITIES, TEMPERATURES)
    many = [Row(temperature, gravity) for gravity, temperature in islice(pairs, 4097)]
    last = many[4095]
    yield "4,096 records", looked_up(*last[:2], many[:4096]), found(last)
    yield "4,097 records", looked_up(*last[:2], many), "refused 1 0"
    yield "no record", looked_up(-200, 0, ()), "refused 1 0"
    yield "no record, past an end", looked_up(-201, 0, ()), "refused 1 0"
    yield "seven bytes", looked_up(-200, 0, (), bytes(7)), "refused 1 0"
    yield "a record and a byte", looked_up(-200, 0, corners[:1], bytes(1)), "refused 1 0"


def look_up_faults():
    """"1 for length, 32 for a faulty or disordered record with its place, 13 for the asked numbers,
    33 for no such pair, in that order"; the first such record is told, of two the later one."""
    for name, row in (
        ("a temperature below -20.0", Row(-205, 205)),
        ("a temperature above 200.0", Row(2005, 205)),
        ("a gravity above 90.0", Row(1000, 905)),
        ("F above 10000", Row(1000, 205, 10001)),
        ("a temperature off the half degree", Row(1001, 205)),
        ("a gravity off the half degree", Row(1000, 206)),
        ("byte 6", Row(1000, 205, 448, 1, 0)),
        ("byte 7", Row(1000, 205, 448, 0, 1)),
        ("a gravity that falls", Row(1010, 195)),
        ("a temperature that falls", Row(1000, 200)),
        ("a pair twice", Row(1005, 200)),
    ):
        faulty = (COLDER, OWN, WARMER, row, Row(2000, 900, 10001))
        yield name, looked_up(1000, 200, faulty), "refused 32 4"
        yield f"{name}, before 13", looked_up(2001, 200, faulty), "refused 32 4"
        yield f"{name}, before 33", looked_up(0, 0, faulty), "refused 32 4"
        yield f"{name}, behind 1", looked_up(1000, 200, faulty, bytes(1)), "refused 1 0"
    yield "13 before 33", looked_up(2003, 199), "refused 13 0"


def sent(first, second):
    return Channels(first, second).line


def celsius_figures():
    """"-40 °C gives -400, which is 13"; the others by hand, 320 + 18c in tenths of °F, where a half
    goes away from zero in Fahrenheit."""
    yield "-40 °C", sent(celsius(-40.0), psi(0.0)), "refused 13 0"
    for degrees, tenths in (
        (0.0, 320),
        (-0.0, 320),
        (22.5, 725),
        (37.0, 986),
        (93.25, 1999),  # 1998.5
        (0.25, 325),  # 324.5
        (-0.25, 316),  # 315.5, and -4.5 and 320 would be 315
        (-17.5, 5),
        (-17.75, 1),  # 0.5
        (-18.0, -4),
        (-18.25, -9),  # -8.5
        (-28.75, -198),  # -197.5
    ):
        yield f"{degrees} °C", sent(celsius(degrees), psi(40.0)), f"ok {tenths} 40"
    # -20.05 °F and 200.05 °F lie between these
    for bits_in, tenths in ((0xC1E75555, -200), (0x42BAB8E3, 2000)):
        yield "at an end", sent(Channel(CELSIUS, bits_in), psi(1500.0)), f"ok {tenths} 1500"
        yield "past it", sent(Channel(CELSIUS, bits_in + 1), psi(1500.0)), "refused 13 0"
    yield "100 °C", sent(celsius(100.0), psi(0.0)), "refused 13 0"


NAN = 0x7FC00000


def channel_figures():
    """A Fahrenheit channel and a pressure as in 01; "the first channel's 34, 35, 12, 13, then the
    second's"."""
    yield "73.25 °F", sent(fahrenheit(73.25), psi(0.0)), "ok 733 0"
    yield "-0.25 °F", sent(fahrenheit(-0.25), psi(-0.0)), "ok -3 0"
    yield "-0.4 psi", sent(celsius(22.5), psi(-0.4)), "ok 725 0"
    first = (
        ("a fault code", fault(0), 34),
        ("a pressure first", Channel(PRESSURE, NAN), 35),
        ("no temperature", Channel(CELSIUS, NAN), 12),
        ("a temperature out of range", fahrenheit(200.1), 13),
    )
    second = (
        ("a fault code", fault(255), 34),
        ("a temperature second", Channel(FAHRENHEIT, NAN), 35),
        ("no pressure", Channel(PRESSURE, NAN), 12),
        ("-0.5 psi", psi(-0.5), 13),
    )
    for name, channel, number in first:
        yield name, sent(channel, psi(40.0)), f"refused {number} 0"
    for name, channel, number in second:
        yield name, sent(celsius(22.5), channel), f"refused {number} 0"
    for (name, one, number), (later, other, _) in product(first, second):
        yield f"{name}, before {later}", sent(one, other), f"refused {number} 0"


def longer_figures():
    """"The same runs get the same report", and "Indicated volume divides the thousandths by K and
    rounds once"; "1000 to 100,000,000,000"."""
    the_run = Job((THE_RUN,), Prover(base=200_000)).long
    yield "the run in the longer form", the_run.run(), ITS_FIGURES
    yield "propane in the longer form", proved_propane(PROPANE).long.run(), PROPANE_FIGURES
    six = plain_job((10010, 10000, 10001, 10002, 10003, 10005)).long
    report = "070000001227020610271127122713271527" + "00" * 14
    told = f"ok 10002 2 6 10000 10001 10002 10003 10005 {report}"
    yield "the group in the longer form", six.prove, told
    yield "its 240 bytes", six.accepted, f"ok {six.records[48:].hex()}"
    more = the_run.with_run(0, pulses=200_000_499)
    yield "less than half a pulse more", more.run(), ITS_FIGURES
    more = the_run.with_run(0, pulses=200_000_500)
    told = "ok 200001 10003 10000 10003 9913 10003 9911 198260 198221 10002"
    yield "half a pulse more", more.run(), told
    for count, k_factor, volume in ((1000, 1000, 10_000), (10**11, 10**9, 1_000_000)):
        job = Job((LongRun(count),), Prover(base=volume), k_factor, form=LongRun)
        ones = " ".join(["10000"] * 6)
        yield f"{count} thousandths", job.run(), f"ok {volume} {ones} {volume} {volume} 10000"
    for count in (0, 999, 10**11 + 1, 2**63, 2**64 - 1):
        yield f"{count} thousandths", the_run.with_run(0, pulses=count).run(), "refused 5 1"
    yield "32 bytes", line("run_long", *Prover().words, 10_000_000, "00" * 32), "refused 1 0"


# The run and propane in both forms, by hand.
SHORT = "400d0300df02df0228002800b326b42634033403" + "00" * 12
LONG = "00c2eb0b00000000df02df0228002800b326b42634033403" + "00" * 24
SHORT_PROPANE = "d76f00000203fd0281018b0134263d26220b220b73007300" + "00" * 8
LONG_PROPANE = "d8dfb401000000000203fd0281018b0134263d26220b220b73007300" + "00" * 20


def moving_figures():
    """"Forward then back gives the old bytes; back then forward, where allowed, the new ones"."""
    yield "the run forward", line("forward", "ff" * 48, SHORT), f"ok {LONG}"
    yield "the run back", line("back", "ff" * 32, LONG), f"ok {SHORT}"
    yield "propane forward", line("forward", "ff" * 48, SHORT_PROPANE), f"ok {LONG_PROPANE}"
    yield "propane back", line("back", "ff" * 32, LONG_PROPANE), f"ok {SHORT_PROPANE}"
    both = line("forward", "5a" * 96, SHORT_PROPANE + SHORT)
    yield "both forward", both, f"ok {LONG_PROPANE}{LONG}"
    both = line("back", "5a" * 64, LONG + LONG_PROPANE)
    yield "both back", both, f"ok {SHORT}{SHORT_PROPANE}"
    yield "4,096 forward", line("forward", "5a" * 196_608, SHORT * 4096), f"ok {LONG * 4096}"
    yield "4,096 back", line("back", "5a" * 131_072, LONG * 4096), f"ok {SHORT * 4096}"


def moving_lengths():
    """"14, first of all, unless twice the longer form's buffer length is three times the shorter
    form's"; then 1 for "1 to 4,096 records"."""
    for way, lent, lengths in (
        ("forward", SHORT, (0, 32, 47, 49, 72, 96)),
        ("back", LONG, (0, 31, 33, 48, 64)),
        ("forward", "", (1, 2, 48)),
        ("back", "", (1, 2, 32)),
        ("forward", SHORT[2:], (46, 47, 48)),
        ("back", LONG[2:], (30, 31, 32)),
    ):
        for length in lengths:
            left = "5a" * length or "-"
            yield f"{length} bytes", line(way, left, lent or "-"), f"refused 14 0 {left}"
    for way, buffer, lent in (
        *(("forward", 0, 0), ("forward", 3, 2), ("forward", 24, 16), ("forward", 51, 34)),
        *(("back", 0, 0), ("back", 2, 3), ("back", 16, 24), ("back", 34, 51)),
        *(("forward", 48 * 4097, 32 * 4097), ("back", 32 * 4097, 48 * 4097)),
    ):
        left = "5a" * buffer or "-"
        yield f"{lent} bytes", line(way, left, "00" * lent or "-"), f"refused 1 0 {left}"


def moving_faults():
    """"Moving checks fields and zeros as a job does (1, 5, 2); 36 with the record, after its 2,
    where the count isn't whole"."""
    run = LongRun(200_000_000)

    def records(*changes):
        return b"".join(replace(run, **change).packed for change in changes).hex()

    hot, marred = {"meter_temperature": 2001}, {"unnamed": bytes(19) + b"\x01"}
    part = {"pulses": 200_000_001}
    for name, told, changes in (
        ("a field", "5 1", (hot, part)),
        ("an unnamed byte", "2 2", ({}, marred)),
        ("a thousandth too many", "36 2", ({}, part)),
        ("5 before 2 and 36", "5 2", ({}, hot | marred | part)),
        ("2 before 36", "2 1", (marred | part, hot)),
        ("36 of an earlier record", "36 1", (part, hot, marred)),
        ("2 of an earlier record", "2 1", (marred, hot, part)),
        ("the least count, and less", "5 2", ({"pulses": 1000}, {"pulses": 999})),
        ("the largest count, and more", "5 2", ({"pulses": 10**11}, {"pulses": 10**11 + 1000})),
        ("not whole by its lower word alone", "36 2", ({}, {"pulses": 2**32 + 1000})),
    ):
        left = "5a" * 32 * len(changes)
        yield name, line("back", left, records(*changes)), f"refused {told} {left}"
    for name, number, change in (
        ("no pulses", 5, {"pulses": 0}),
        ("100,000,001 pulses", 5, {"pulses": 100_000_001}),
        ("byte 31", 2, {"unnamed": bytes(7) + b"\x01"}),
        ("P below Pe", 5, {"meter_equilibrium_pressure": 41}),
    ):
        lent, left = SHORT + replace(THE_RUN, **change).packed.hex() + "ff" * 32, "5a" * 144
        yield name, line("forward", left, lent), f"refused {number} 2 {left}"


PARTS = (
    factor_figures,
    run_figure,
    propane_figures,
    group_figures,
    draw_figures,
    round_trip_figures,
    ticket_figure,
    live_figures,
    book_figures,
    agreement_figures,
    look_up_figures,
    look_up_ends,
    look_up_faults,
    celsius_figures,
    channel_figures,
    longer_figures,
    moving_figures,
    moving_lengths,
    moving_faults,
)


def main():
    options = argparse.ArgumentParser(description="Run the figures of the paper.")
    options.add_argument("--program", type=command, help="the command of the program under test")
    chosen = options.parse_args()

    figures = [figure for part in PARTS for figure in part()]
    given = b"\n".join(asked for _, asked, _ in figures) + b"\n"
    wrong = 0
    for program in filter(None, (REFERENCE, chosen.program)):
        try:
            answers = answers_of(program, given)
        except Stopped as stop:
            print(f"figures: stopped, {stop}")
            return 1
        if len(answers) != len(figures):
            print(f"{program[-1]}: {len(answers)} answers to {len(figures)} lines")
            wrong += 1
        for (name, _, expected), answer in zip(figures, answers):
            if answer.decode("latin-1") != expected:
                wrong += 1
                print(f"{program[-1]}: {name}: {answer.decode('latin-1')}, not {expected}")
    through = "both programs" if chosen.program else "the reference"
    print(f"figures: {len(figures)} lines of the paper's figures through {through}, {wrong} wrong")
    return 1 if wrong else 0


if __name__ == "__main__":
    sys.exit(main())
