"""The published values of vectors/ as whole numbers, and the worked water draws as records."""

import csv
from decimal import ROUND_HALF_UP, Decimal
from pathlib import Path

from cases.shapes import Draw, Fill, Prover

VECTORS = Path(__file__).parents[1] / "vectors"


def rows(name):
    with open(VECTORS / f"{name}.csv", encoding="utf-8", newline="") as file:
        yield from csv.DictReader(text for text in file if not text.startswith("#"))


def units(text, places):
    """A printed decimal as a whole number of 10^-places."""
    scaled = Decimal(text).scaleb(places)
    if scaled != int(scaled):
        raise ValueError(f"{text} has more than {places} places")
    return int(scaled)


def nearest_units(text, places):
    """The same where more places are printed than 01 takes."""
    return int(Decimal(text).scaleb(places).quantize(Decimal(1), ROUND_HALF_UP))


def fill_of(row, pass_number=1):
    return Fill(
        units(row["certified"], 2),
        units(row["scale"], 2),
        units(row["prover_temperature"], 1),
        units(row["measure_temperature"], 1),
        int(row["measure_coefficient"]),
        units(row["ctdw"], 6),
        pass_number,
        int(row["pressure"]),
    )


def plain_fill(volume, prover, pass_number, pressure=0):
    return Fill(volume, coefficient=prover.coefficient, pass_number=pass_number, pressure=pressure)


class WorkedDraws:
    """The worked examples as records; a pass whose fills are not usable is one fill of its sum."""

    def __init__(self):
        self.passes = {(row["example"], row["pass"]): row for row in rows("passes")}
        self.fills = {}
        for row in rows("fills"):
            self.fills.setdefault((row["example"], row["pass"]), []).append(row)

    def prover(self, example):
        """The example's pipe; its metal where its fills are usable, else any."""
        row = next(row for (of, _), row in self.passes.items() if of == example)
        pipe = units(row["inside"], 3), units(row["wall"], 3), int(row["modulus"])
        for (of, _), own in self.fills.items():
            if of == example:
                return Prover(4, int(own[0]["prover_coefficient"]), *pipe)
        return Prover(0, 0, *pipe)

    def pass_of(self, example, number, as_number):
        prover = self.prover(example)
        own = self.fills.get((example, number))
        if own and example != "003 Ex 4":
            return [fill_of(row, as_number) for row in own]
        row = self.passes.get((example, number))
        if row is None:
            # Example 1 pass 1: only its volume is in the text
            return [plain_fill(units("20869.82", 2), prover, as_number)]
        volume = nearest_units(row["printed_sum"], 2)
        return [plain_fill(volume, prover, as_number, int(row["pressure"]))]

    def draw(self, example, numbers):
        """Passes of an example, each as often as its number is given, one after the other."""
        taken = []
        for as_number, number in enumerate(numbers, 1):
            taken += self.pass_of(example, number, as_number)
        return Draw(tuple(taken), self.prover(example))
