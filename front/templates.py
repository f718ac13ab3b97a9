"""A job file of each kind to begin with, and a table of compressibilities: each runs as it is, and says of every key
what it is and its range."""

from . import fields
from .profiles import BIDIRECTIONAL, UNIDIRECTIONAL

WIDTH = 34
HEAD = """\
# {what}. It runs as it is: ./endakuro {kind} FILE. Put your own figures in place of these.
# A number stands alone, 73.5, or in quotes with its unit, "73.5 °F"; it is taken exactly as it is written.
"""
HEADING = """
[heading] # what the head of the page shows, in this order; any key, and none is needed
title = "{title}"
meter = "FT-101"
liquid = "crude oil"
date = 2026-01-31
"""
# What differs from run to run and from fill to fill.
RUNS = (("17743", "63.0", "64.5"), ("17744", "63.0", "64.5"), ("17746", "63.5", "64.5"))
RUNS += (("17746", "64.0", "65.5"), ("17747", "64.0", "65.5"))
OF_A_RUN = ("pulses", "prover_temperature", "meter_temperature")
FILLS = (("1", "12.50"), ("2", "12.75"), ("3", "12.25"))
OF_A_FILL = ("pass", "scale_reading")
PAIRED_FILLS = (("1", "12.50", "45"), ("2", "27.25", "43"), ("3", "12.75", "45"), ("4", "27.50", "43"))
PAIRED_FILLS += (("5", "12.25", "45"), ("6", "27.00", "43"))
OF_A_PAIRED_FILL = ("pass", "scale_reading", "pressure")
# What a draw's file says behind its profile.
SAID = {
    UNIDIRECTIONAL: 'or "bidirectional", for passes out and back: ./endakuro new bidirectional',
    BIDIRECTIONAL: "passes come in pairs, odd out and even back; a pair may differ in pressure",
}
# In place of a value: the key stands there as a note, for those who need it.
LEFT_OUT = None
PROVER = {"inside_diameter": "13.376", "wall_thickness": "0.312", "modulus": "30_000_000"}


# What a file says in place of plain numbers.
TAGGED = """
# Of a transmitter that tags what it sends: fahrenheit, celsius or pressure with its number, or fault with {codes}
# temperature = {{ celsius = 22.5 }}
# pressure = {{ pressure = 40 }}
"""
TABLE = "table"
# 002 prints one entry of its table, in its example.
PRINTED = """\
# Compressibility F, API MPMS 11.2.1 (August 1984): the entry that its text prints
# It runs as it is: ./endakuro look-up FILE 100.0 19.9. Type the entries of the printed pages below it.
# An entry a line, rising by gravity and then by temperature, {few} to {many:,} of them. A remark begins with #.
# temperature {temperature} and gravity {gravity}, on half degrees.
# F as it is printed, {f}: 0.448 stands for 0.00000448 per psi.
temperature,gravity,F
100.0,20.0,0.448
"""


def row(field, value, before=""):
    told = f" # {field.label}, {field.range}" + (f"; {field.note}" if field.note else "")
    if value is LEFT_OUT:
        return f"# {field.key} = {field.default}".ljust(WIDTH) + f"{told}: for a liquid that boils\n"
    return f"{before}{field.key} = {value}".ljust(WIDTH) + f"{told}\n"


def rows(known, values):
    return "".join(row(known[key], value) for key, value in values.items())


def prover(base, profile=None):
    metals = ", ".join(f'"{name}"' for name in fields.METALS)
    text = "\n[prover]\n" + (f'profile = "{profile.name}" # {SAID[profile]}\n' if profile else "")
    text += f'metal = "mild carbon" # one of {metals}\n'
    text += f"# coefficient = 0.0000186 # {fields.COEFFICIENT.label}, {fields.COEFFICIENT.range}: wins over the metal\n"
    return text + rows(fields.PIPE, PROVER) + (row(fields.BASE_VOLUME, base) if base else "")


def entries(name, known, shared, keys, listed):
    """What all runs share, and the runs with what is their own; the first says what each key is."""
    text = f"\n[every_{name}] # what every {name} has; a {name}'s own key wins\n" + rows(known, shared)
    for number, own in enumerate(listed, 1):
        text += f"\n[[{name}]] # {number}\n"
        values = dict(zip(keys, own))
        text += rows(known, values) if number == 1 else "".join(f"{key} = {values[key]}\n" for key in keys)
    return text


def proving():
    text = HEAD.format(what="A proving job", kind="prove") + "\n" + row(fields.REQUEST, "1")
    text += row(fields.LIMIT, "0.05") + HEADING.format(title="A proving") + prover("17.654")
    text += "\n[meter]\n" + row(fields.K_FACTOR, "1000") + look_up((fields.GRAVITY, "63.7"))
    shared = {
        "prover_pressure": "80", "meter_pressure": "62", "prover_ctl": "0.9975", "meter_ctl": "0.9965",
        "prover_compressibility": "8.23e-6", "meter_compressibility": "8.29e-6",
        "prover_equilibrium_pressure": LEFT_OUT, "meter_equilibrium_pressure": LEFT_OUT,
    }  # fmt: skip
    return text + entries("run", fields.RUN, shared, OF_A_RUN, RUNS)


def draw(profile, keys, fills):
    named = "A bidirectional water draw" if profile is BIDIRECTIONAL else "A water draw"
    text = HEAD.format(what=named, kind="draw") + HEADING.format(title=named) + prover(None, profile)
    shared = {
        "certified_volume": "23100.00", "prover_temperature": "72.0", "measure_temperature": "72.5",
        "measure_coefficient": "0.0000265", "ctdw": "1.000070", "pressure": "45",
    }  # fmt: skip
    shared = {key: value for key, value in shared.items() if key not in keys}
    return text + entries("fill", fields.FILL, shared, keys, fills)


def ticket():
    values = {
        "opening": "12500.00", "closing": "13000.00", "meter_factor": "1.0002", "ctl": "0.9908", "pressure": "40",
        "compressibility": "6.5e-6", "equilibrium_pressure": LEFT_OUT, "sediment_and_water": "0.500",
    }  # fmt: skip
    text = HEAD.format(what="A measurement ticket", kind="ticket") + HEADING.format(title="A ticket")
    text += "\n[ticket]\n" + rows(fields.TICKET, values)
    return text + look_up((fields.TEMPERATURE, "64.5"), (fields.GRAVITY, "63.7"))


def look_up(*values):
    """What a job file says in place of F, as a note."""
    text = "\n# [compressibility] # in place of F, which is looked up where it is left out\n"
    text += "".join(row(field, value, "# ") for field, value in values)
    return text + '# table = "table.csv"'.ljust(WIDTH) + " # its name, beside this file: ./endakuro new table\n"


def table():
    known = {field.key.lower(): field.range for field in fields.ENTRY.values()}
    few, many = fields.ENTRIES
    return PRINTED.format(few=few, many=many, **known)


def live():
    text = HEAD.format(what="A live reading", kind="live") + HEADING.format(title="A reading")
    text += '\n[live] # numbers that a single holds exactly, or its eight hex digits in quotes: "42928000"\n'
    text += rows(fields.LIVE, {"temperature": "73.25", "pressure": "40"})
    return text + TAGGED.format(codes=fields.FAULT.range)


def panel():
    text = HEAD.format(what="Numbers for the panel", kind="panel") + HEADING.format(title="A panel")
    return text + "\n[panel]\n" + rows(fields.PANEL, {"temperature": "73.3", "pressure": "40"})


TEXTS = {
    "prove": proving(),
    "draw": draw(UNIDIRECTIONAL, OF_A_FILL, FILLS),
    "bidirectional": draw(BIDIRECTIONAL, OF_A_PAIRED_FILL, PAIRED_FILLS),
    "ticket": ticket(),
    "live": live(),
    "panel": panel(),
    TABLE: table(),
}
