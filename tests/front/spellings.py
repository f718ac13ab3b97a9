"""Numbers and units as people write them: what is taken, to which count, and what is said of the rest. Headings."""

import tempfile
from pathlib import Path

from harness import ROOT, Tally, called

from front import fields, jobs
from front.program import Program
from front.units import Inexact

# A unit, the ways in which its number is written, and the count that all of them are.
TAKEN = (
    (fields.DEGREE, "73.5 °F|73.5°F|73.5 F|73.5F|73.5 degF|73.5 deg F|73.5 degrees F|73.5 ℉|73.5 º F|73.5 ºF|"
     "73.5 ˚F|73.5 DEGF|73.5 Fahrenheit|73.50|73.5000 °F|+73.5|7.35e1|735e-1|0073.5|7_3.5", 735),
    (fields.DEGREE, "-5 °F|-5.0|−5.0 °F|-5.000", -50),
    (fields.PSI, "80|80 psi|80 PSI|80 psig|80 PSIG|80 Psi|80 psi gage|80.0|80.000 psi|8e1|8.0e1", 80),
    (fields.INCH, '13.376|13.376 in|13.376 inch|13.376 inches|13.376 IN|13.376 in.|13.376"|13.376″|13.3760', 13376),
    (fields.BARREL, "21.1234|21.1234000|21.1234 bbl|21.1234 bbls|21.1234 BBL|21.1234 barrel|21.1234 barrels", 211234),
    (fields.CUBIC_INCH, "21152|21152.0|21152.00000|21152 in³|21152 in3|21152 cu in|21152 cu. in.|21152 cubic inches",
     2_115_200),
    (fields.TEN_THOUSANDTH, "0.05|0.05 %|0.05%|0.05 percent|0.05 Percent|0.05 per cent|0.050000|5e-2", 5),
    (fields.PULSE, "17743|17743.0|17743 pulses|17743 pulse|17743.000 Pulses", 17743),
    (fields.INTERPOLATED_PULSE, "17743.125|17743.125 pulses|17743.1250 pulse|1.7743125e4|17_743.125", 17_743_125),
    (fields.INTERPOLATED_PULSE, "17743|17743.0|17743.000 Pulses", 17_743_000),
    (fields.PULSES_PER_BARREL, "1000|1000 pulses/bbl|1000 pulses per barrel|1000.000000", 1_000_000),
    (fields.PER_PSI, "8.23e-6|0.00000823|8.2300e-6|8.23e-6 per psi|8.23e-6 /psi|0.000008230000", 823),
    (fields.PER_DEGREE, "1.86e-5|0.0000186 per °F|0.0000186 per deg F|0.0000186 /°F", 186),
    (fields.NUMBER, "5|5.0|5e0|0.5e1", 5),
    (fields.NUMBER, "0|0.000|0e-99999|-0|0e99999", 0),
)  # fmt: skip
# A unit, a text that is no count of it, and what is said.
NOT_TAKEN = (
    (fields.DEGREE, "63.55", "63.55 has more digits than the unit, 0.1 °F: expected at most 1 decimal, in °F"),
    (fields.DEGREE, "63.5001", "63.5001 has more digits than the unit, 0.1 °F"),
    (fields.DEGREE, "17.5 °C", "17.5 °C is in °C, and only °F is taken"),
    (fields.DEGREE, "17.5 degC", "17.5 degC is in °C, and only °F is taken"),
    (fields.DEGREE, "17.5 ℃", "17.5 ℃ is in °C, and only °F is taken"),
    (fields.DEGREE, "290 K", "290 K is not in °F"),
    (fields.PSI, "80 psia", "80 psia is not in psi"),
    (fields.PSI, "80 °C", "80 °C is not in psi"),
    (fields.PSI, "5.5 bar", "5.5 bar is not in psi"),
    (fields.INCH, "33.9 cm", "33.9 cm is not in inches: expected at most 3 decimals, in inches"),
    (fields.PSI, "80.5", "80.5 has more digits than the unit, 1 psi: expected a whole number, in psi"),
    (fields.BARREL, "21.12341", "21.12341 has more digits than the unit, 0.0001 bbl"),
    (fields.DEGREE, "73,5", "73,5 has a comma: write 73.5, with a decimal point"),
    (fields.DEGREE, "73,5 °F", "73,5 has a comma: write 73.5, with a decimal point"),
    (fields.CUBIC_INCH, "21,152.00", "21,152.00 has a comma: write 21152.00, without commas"),
    (fields.CUBIC_INCH, "1,234,567", "1,234,567 has a comma: write 1234567, without commas"),
    (fields.CUBIC_INCH, "21.152,50", "21.152,50 has a comma: write 21152.50, with a decimal point alone"),
    (fields.PULSE, "17,743", "17,743 has a comma: write 17743, without commas, or 17.743 where the comma is a decimal"),
    (fields.INTERPOLATED_PULSE, "17743.1255",
     "17743.1255 has more digits than the unit, 0.001 pulse: expected at most 3 decimals, in pulses"),
    (fields.INTERPOLATED_PULSE, "17743,125", "17743,125 has a comma: write 17743.125, with a decimal point"),
    (fields.FACTOR, "0.9975 psi", "0.9975 psi is not a plain number: expected at most 4 decimals"),
    (fields.PSI, "80,", "80, is not a number: expected a whole number, in psi"),
    (fields.PSI, "٨٠", "٨٠ is not a number"),
    (fields.PSI, "1e-99999", "1e-99999 has more digits than the unit, 1 psi"),
    (fields.PSI, "1e99999", "1e99999 has too many digits"),
    (fields.PSI, "", " is not a number"),
)
HEADING = """\
[heading]
well = 12
"Tank no." = "T-4"
title = "A title"
date = 2026-11-15
density = 63.70
time = 2026-11-15 10:30:00
witness_by_phone = true
"""
SHOWN = """\
   Well                      12
   Tank no.                  T-4
   Title                     A title
   Date and time             2026-11-15
   Density                   63.70
   Time                      2026-11-15 10:30:00
   Witness by phone          true
"""


def counts(tally):
    for unit, texts, expected in TAKEN:
        for text in texts.split("|"):
            try:
                tally.same(unit.count(text), expected, text)
            except Inexact as told:
                tally.check(False, f"{text}: {told}")
    for unit, text, expected in NOT_TAKEN:
        try:
            tally.check(False, f"{text} is taken as {unit.count(text)}")
        except Inexact as told:
            tally.check(str(told).startswith(expected), f"{text}: expected {expected!r}, found {str(told)!r}")


def in_files(tally, folder, program):
    """An example with every number written in another way comes to the same record."""
    text, path = (ROOT / "examples" / "figure-5.toml").read_text(), Path(folder) / "job.toml"
    path.write_text(text)
    plain = jobs.read(str(path))
    for old, new in (
        ("= 5\n", "= 5.0\n"), ("= 0.05 #", '= "0.050 percent" #'), ("13.376", '"13.37600 inches"'),
        ("30_000_000", '"30000000 PSI"'), ("17.654", "17.65400000"), ("= 1000", "= 1000.0"), ("= 80", '= "80 PSIG"'),
        ("= 63.0", '= "63 degF"'), ("17743", "17743.0"), ("0.9975", "0.99750"), ("8.23e-6", "8.2300e-6"),
    ):  # fmt: skip
        assert old in text, old
        text = text.replace(old, new)
    path.write_text(text)
    other = jobs.read(str(path))
    tally.same((other.records, other.prover.words), (plain.records, plain.prover.words), "other spellings")
    tally.same((other.request, other.k_factor, other.limit), (plain.request, plain.k_factor, plain.limit), "settings")


def headings(tally, folder):
    path = Path(folder) / "job.toml"
    ticket = (ROOT / "examples" / "ticket.toml").read_text()
    path.write_text(HEADING + ticket[ticket.index("[ticket]") :])
    status, out, err = called("ticket", path)
    tally.same((status, err), (0, ""), "free headings")
    tally.holds(out, SHOWN, "free headings")


def test():
    tally = Tally("numbers and units as written")
    counts(tally)
    with tempfile.TemporaryDirectory() as folder, Program() as program:
        in_files(tally, folder, program)
        headings(tally, folder)
    return tally
