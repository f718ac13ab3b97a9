"""The published tables: every row of vectors/ through the line program.

Run: python3 tests/tables.py [--program CMD]

A printed value and ours agree when they are equal at the coarser of their places. Those that do
not stand in vectors/differences.csv, each with our value and the reason; a new one and a vanished
one fail. With --program the program under test must give the reference's answers.
"""

import argparse
import sys
from dataclasses import replace
from decimal import ROUND_HALF_UP, Decimal
from fractions import Fraction
from itertools import cycle, islice, product

from cases.arithmetic import half_up
from cases.channel_shapes import CELSIUS, Channel, Channels, psi
from cases.lookup_shapes import GRAVITIES, TEMPERATURES, LookUp, Row, beside
from cases.plain import fitted_job
from cases.shapes import Draw, Fill, Job, LongRun, Prover, Run, Ticket, line
from cases.singles import bits
from programs import REFERENCE, Stopped, answers_of, command
from worked import WorkedDraws, fill_of, nearest_units, plain_fill, rows, units

FILES = (
    "cts_tables cts_points cps_table cps_points cpl_points ccts_points ctdw_points"
    " fills passes trips draws barrels provings proving_runs tickets repeatability"
    " half_degrees compressibilities celsius interpolations"
).split()

# By a prover's type the entry that answers its base volume, and the one that answers what that is
# the mean of.
DRAW_ENTRIES = {"unidirectional": ("draw", "passes"), "bidirectional": ("bidirectional", "trips")}


def agrees(printed, ours):
    both = Decimal(printed), Decimal(ours)
    place = Decimal(1).scaleb(max(value.as_tuple().exponent for value in both))
    one, other = (value.quantize(place, ROUND_HALF_UP) for value in both)
    return one == other


class Tables:
    """Lines to ask, and for each printed value how ours comes out of their answers."""

    def __init__(self):
        self.lines = []
        self.values = []

    def ask(self, text):
        self.lines.append(text)
        return len(self.lines) - 1

    def value(self, place, quantity, printed, ours):
        """`ours` makes our value, as text, of all answers."""
        if printed:
            self.values.append((place, quantity, printed, ours))

    def answered(self, place, quantity, printed, text, at, places):
        """The value at a position after `ok`, which has so many places."""
        asked = self.ask(text)
        self.value(place, quantity, printed, lambda answers: picked(answers[asked], at, places))

    def differences(self, answers):
        for place, quantity, printed, ours in self.values:
            found = ours(answers)
            same = agrees(printed, found) if is_number(found) else printed == found
            if not same:
                yield place, quantity, printed, found


def is_number(text):
    return text.replace(".", "", 1).isdigit()


def picked(answer, at, places):
    word, *values = answer.decode("ascii").split(" ")
    if word != "ok":
        return answer.decode("ascii")
    return str(Decimal(values[at]).scaleb(-places))


# One function for each file.


def cts_tables(tables):
    for row in rows("cts_tables"):
        asked = line("cts", units(row["temperature"], 1), 4, row["coefficient"], 4)
        tables.answered(row["place"], "CTS", row["printed_cts"], asked, 0, 4)


def cts_points(tables):
    for row in rows("cts_points"):
        places = int(row["places"])
        asked = line("cts", units(row["temperature"], 1), 4, row["coefficient"], places)
        tables.answered(row["place"], "CTS", row["printed_cts"], asked, 0, places)


def cps(tables, row, places):
    pipe = units(row["inside"], 3), units(row["wall"], 3), row["modulus"]
    asked = line("cps", row["pressure"], *pipe, places)
    tables.answered(row["place"], "CPS", row["printed_cps"], asked, 0, places)


def cps_table(tables):
    for row in rows("cps_table"):
        cps(tables, row, 4)


def cps_points(tables):
    for row in rows("cps_points"):
        cps(tables, row, int(row["places"]))


def cpl_points(tables):
    for row in rows("cpl_points"):
        places = int(row["places"])
        liquid = row["pressure"], row["compressibility"], row["equilibrium"]
        asked = line("cpl", *liquid, places)
        tables.answered(row["place"], "CPL", row["printed_cpl"], asked, 0, places)


def ccts_points(tables):
    for row in rows("ccts_points"):
        fill = Fill(
            prover_temperature=units(row["prover_temperature"], 1),
            measure_temperature=units(row["measure_temperature"], 1),
            coefficient=int(row["measure_coefficient"]),
        )
        draw = Draw((fill,), Prover(4, int(row["prover_coefficient"])))
        tables.answered(row["place"], "CCTS", row["printed_ccts"], draw.fill(), 3, 6)


def ctdw_points(tables):
    for row in rows("ctdw_points"):
        draw = Draw((Fill(units(row["volume"], 3), ctdw=units(row["ctdw"], 6)),))
        tables.answered(row["place"], "volume × CTDW", row["printed_drawn"], draw.fill(), 4, 3)


def fills(tables):
    for row in rows("fills"):
        # 01 holds scale readings within 100 cubic inches: Example 4's are out of range
        scale = units(row["scale"], 2)
        if not -(2**15) <= scale < 2**15:
            continue
        draw = Draw((fill_of(row),), Prover(4, int(row["prover_coefficient"])))
        place = f"{row['example']} pass {row['pass']} fill {row['fill']}"
        tables.answered(place, "drawn", row["printed_drawn"], draw.fill(), 4, 2)


def passes(tables):
    worked = WorkedDraws()
    for (example, number), row in worked.passes.items():
        # a draw needs three passes: the one asked for, three times
        draw = worked.draw(example, [number] * 3)
        place = f"{example} pass {number}"
        tables.answered(place, "pass", row["printed_pass"], draw.passes, 1, 2)
        asked = [tables.ask(draw.fill(at)) for at in range(len(draw.fills) // 3)]
        tables.value(
            place, "sum", row["printed_sum"], lambda answers, asked=asked: sum_of(answers, asked)
        )


def sum_of(answers, asked):
    return str(sum(Decimal(picked(answers[at], 4, 2)) for at in asked))


def trips(tables):
    worked = WorkedDraws()
    for row in rows("trips"):
        # a draw needs three round trips: the one asked for, three times
        draw = worked.draw(row["example"], [row["out"], row["back"]] * 3)
        place = f"{row['example']} passes {row['out']} {row['back']}"
        tables.answered(place, "round trip", row["printed_trip"], draw.trips, 1, 2)
        asked = tables.ask(draw.trips)
        tables.value(
            place,
            "half of the round trip",
            row["printed_half"],
            lambda answers, asked=asked: half_of(answers[asked]),
        )


def half_of(answer):
    trip = picked(answer, 1, 2)
    return str(Decimal(trip) / 2) if is_number(trip) else trip


def draws(tables):
    worked = WorkedDraws()
    for row in rows("draws"):
        base, volumes = DRAW_ENTRIES[row["type"]]
        draw = worked.draw(row["example"], row["passes"].split())
        place = f"{row['example']} passes {row['passes']}"
        tables.answered(place, "base", row["printed_base"], draw.asked(base), 0, 2)
        tables.answered(place, "barrels", row["printed_barrels"], draw.asked(base), 1, 4)
        asked = tables.ask(draw.asked(volumes))
        tables.value(
            place,
            "range",
            row["printed_range"],
            lambda answers, asked=asked: range_of(answers[asked]),
        )


def range_of(answer):
    """The range of the volumes in percent of the smallest, at 3 places."""
    volumes = [int(word) for word in answer.split()[2:]]
    return str(Decimal(half_up((max(volumes) - min(volumes)) * 10**5, min(volumes))).scaleb(-3))


def barrels(tables):
    for row in rows("barrels"):
        volume = nearest_units(row["cubic_inches"], 2)
        draw = Draw(tuple(plain_fill(volume, Prover(), number) for number in (1, 2, 3)))
        tables.answered(row["place"], "barrels", row["printed_barrels"], draw.draw, 1, 4)


RUN_VALUES = (
    "indicated cts cps prover_cpl prover_factor meter_cpl meter_product"
    " prover_volume meter_volume factor"
).split()


def prover_of(row):
    return Prover(
        inside=units(row["inside"], 3), wall=units(row["wall"], 3), base=units(row["base"], 4)
    )


def run_of(row, of):
    """A run with the figure's CTL, F and Pe; `of` gives its pulses, temperatures and pressures. One
    with a part of a pulse has the longer form."""
    is_whole = "." not in of["pulses"]
    return (Run if is_whole else LongRun)(
        units(of["pulses"], 0 if is_whole else 3),
        units(of["prover_temperature"], 1),
        units(of["meter_temperature"], 1),
        int(of["prover_pressure"]),
        int(of["meter_pressure"]),
        units(row["prover_ctl"], 4),
        units(row["meter_ctl"], 4),
        int(row["prover_compressibility"]),
        int(row["meter_compressibility"]),
        int(row["prover_equilibrium"]),
        int(row["meter_equilibrium"]),
    )


def provings(tables):
    for row in rows("provings"):
        run_values(tables, row["place"], row, run_of(row, row))


def run_values(tables, place, row, run):
    """A run's figures beside those that the source prints for the averages of its runs."""
    job = Job((run,), prover_of(row), units(row["k"], 3), form=type(run))
    for at, name in enumerate(RUN_VALUES):
        tables.answered(place, name.replace("_", " "), row[f"printed_{name}"], job.run(), at, 4)


def proving_runs(tables):
    figures = {row["place"]: row for row in rows("provings")}
    runs = {}
    for of in rows("proving_runs"):
        row = figures[of["figure"]]
        run = run_of(row, of)
        runs.setdefault(of["figure"], []).append(run)
        run_values(tables, f"{of['figure']} run {of['run']}", row, run)
    for figure, own in runs.items():
        row = figures[figure]
        job = Job(tuple(own), prover_of(row), units(row["k"], 3))
        place = f"{figure} run by run"
        tables.answered(place, "job factor", row["printed_factor"], job.prove, 0, 4)


def tickets(tables):
    for row in rows("tickets"):
        ticket = Ticket(
            units(row["opening"], 2),
            units(row["closing"], 2),
            units(row["meter_factor"], 4),
            units(row["ctl"], 4),
            int(row["pressure"]),
            int(row["compressibility"]),
            int(row["equilibrium"]),
            units(row["sediment"], 3),
        )
        for at, (name, places) in enumerate((("factor", 4), ("gross", 2), ("net", 2))):
            tables.answered(row["place"], name, row[f"printed_{name}"], ticket.line, at, places)


def repeatability(tables):
    base = 20_000_000
    for row in rows("repeatability"):
        five = islice(cycle(units(factor, 4) for factor in row["factors"].split()), 5)
        runs = tuple(Run(half_up(base * 10**4, factor)) for factor in five)
        asked = tables.ask(Job(runs, Prover(base=base)).prove)
        tables.value(
            row["place"],
            "set",
            row["source_says"],
            lambda answers, asked=asked: "accept" if answers[asked].startswith(b"ok") else "reject",
        )


# In the order in which an answer to a look-up has them; any will do where the other is printed.
ANY_PAIR = {"temperature": 1000, "gravity": 200}
PAIR = (*ANY_PAIR,)


def entries_around(temperature, gravity, factor=0):
    """The entry and the half degrees beside it, which have other compressibilities."""
    own = temperature, gravity
    pairs = product(beside(gravity, GRAVITIES), beside(temperature, TEMPERATURES))
    return tuple(
        Row(*pair, factor if pair == own else factor + more)
        for more, pair in enumerate(((t, g) for g, t in pairs), 1)
    )


def half_degrees(tables):
    for row in rows("half_degrees"):
        quantity, printed = row["quantity"], row["printed_half_degree"]
        entry = ANY_PAIR | {quantity: units(printed, 1)}
        asked = ANY_PAIR | {quantity: units(row["asked"], 1)}
        text = LookUp(**asked, rows=entries_around(**entry)).line
        tables.answered(row["place"], quantity, printed, text, PAIR.index(quantity), 1)


def compressibilities(tables):
    for row in rows("compressibilities"):
        factor = units(row["printed_compressibility"], 3)
        entry = (units(row[f"entry_{name}"], 1) for name in PAIR)
        asked = (units(row[name], 1) for name in PAIR)
        text = LookUp(*asked, entries_around(*entry, factor)).line
        tables.answered(row["place"], "F", row["printed_compressibility"], text, 2, 3)


def celsius(tables):
    for row in rows("celsius"):
        channel = Channel(CELSIUS, bits(float(row["celsius"])))
        text = Channels(channel, psi(0.0)).line
        tables.answered(row["place"], "temperature", row["printed_fahrenheit"], text, 0, 1)


def interpolated(row):
    """The count in thousandths, with the corrections where they go into it."""
    count = Fraction(1000 * int(row["pulses"]))
    if row["t1"]:
        count *= Fraction(int(row["t2"]), int(row["t1"]))
    if row["corrects"] == "count":
        count *= Fraction(row["meter_correction"]) / Fraction(row["prover_correction"])
    return half_up(count.numerator, count.denominator)


def interpolations(tables):
    for row in rows("interpolations"):
        run = LongRun(interpolated(row))
        if row["corrects"] == "CTL":
            run = replace(
                run,
                prover_ctl=nearest_units(row["prover_correction"], 4),
                meter_ctl=nearest_units(row["meter_correction"], 4),
            )
        job = fitted_job(run, Prover(), units(row["divisor"], 3))
        if row["base"]:
            job = replace(job, prover=Prover(base=units(row["base"], 4)))
        place = row["place"]
        tables.answered(place, "quotient", row["printed_quotient"], job.run(), 0, 4)
        tables.answered(place, "factor", row["printed_factor"], job.run(), 9, 4)
        tables.answered(place, "job factor", row["printed_factor"], job.prove, 0, 4)


def main():
    options = argparse.ArgumentParser(description="Run the published tables.")
    options.add_argument("--program", type=command, help="the command of the program under test")
    chosen = options.parse_args()

    tables = Tables()
    for name in FILES:
        globals()[name](tables)
    given = b"\n".join(tables.lines) + b"\n"
    try:
        answers = answers_of(REFERENCE, given)
        tested = answers_of(chosen.program, given) if chosen.program else answers
    except Stopped as stop:
        print(f"tables: stopped, {stop}")
        return 1

    found = set(tables.differences(answers))
    stated = {
        (row["place"], row["quantity"], row["printed"], row["ours"]) for row in rows("differences")
    }
    for place, quantity, printed, ours in sorted(found - stated):
        print(f"new difference: {place}, {quantity}: printed {printed}, ours {ours}")
    for place, quantity, printed, ours in sorted(stated - found):
        print(f"vanished difference: {place}, {quantity}: printed {printed}, ours was {ours}")
    unlike = [at for at, answer in enumerate(answers) if tested[at : at + 1] != [answer]]
    unlike += range(len(answers), len(tested))
    for at in unlike[:5]:
        print(f"the programs differ: {tables.lines[at] if at < len(tables.lines) else '(no line)'}")

    both = f"; answers that differ between the programs {len(unlike)}" if chosen.program else ""
    print(
        f"tables: {len(tables.values)} printed values of {len(FILES)} files,"
        f" {len(tables.values) - len(found)} agree, {len(found & stated)} differ as stated,"
        f" {len(found - stated)} new, {len(stated - found)} vanished{both}"
    )
    return 1 if found != stated or unlike else 0


if __name__ == "__main__":
    sys.exit(main())
