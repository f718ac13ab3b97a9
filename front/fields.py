"""The paper's table of units and ranges, a line a field: its key in a job file, its name, what its place holds."""

from dataclasses import dataclass

from .units import Unit

# Spellings are as `units.normal` leaves them: F is °F, degF, deg F, ℉ and º F too.
DEGREE = Unit("°F", 1, ("f", "fahrenheit"))
PSI = Unit("psi", 0, ("psi", "psig", "psigage", "psigauge"))
PER_DEGREE = Unit("per °F", 7, ("perf", "/f", "1/f"))
INCH = Unit("in", 3, ("in", "inch", "inches", '"', "\u2032\u2032"), in_words="inches")
PER_PSI = Unit("per psi", 8, ("perpsi", "/psi", "1/psi"))
# F as the table of API MPMS 11.2.1 prints it: 0.448 stands for 0.00000448 per psi, so that both count the same.
PRINTED = Unit(
    "/ 100,000 per psi", 3, ("/100,000", "/100000", "/100,000perpsi", "/100000perpsi"),
    in_words="1 / 100,000 per psi", alone=False,
)  # fmt: skip
API = Unit("°API", 1, ("api",), alone=False)
FACTOR = Unit("", 4)
FINE_FACTOR = Unit("", 6)
BARRELS = ("bbl", "bbls", "barrel", "barrels")
BARREL = Unit("bbl", 4, BARRELS)
READING = Unit("bbl", 2, BARRELS)
CUBIC_INCH = Unit("in³", 2, ("in3", "in^3", "cuin", "cubicinch", "cubicinches"))
PULSES = ("pulse", "pulses")
PULSE = Unit("pulses", 0, PULSES, "pulse")
# 02: 'Pulse interpolation gives thousandths of a pulse'.
INTERPOLATED_PULSE = Unit("pulses", 3, PULSES, "pulse")
PULSES_PER_BARREL = Unit("pulses/bbl", 3, ("pulses/bbl", "pulses/barrel", "pulsesperbarrel", "pulsesperbbl", "p/bbl"))
PERCENT = ("%", "percent", "pct")
TEN_THOUSANDTH = Unit("%", 2, PERCENT)
SEDIMENT_PERCENT = Unit("%", 3, PERCENT)
NUMBER = Unit("", 0)

# What a place of a record or an operand of a line can hold, by the letters of Python's struct.
HOLDS = {"B": (0, 2**8 - 1), "H": (0, 2**16 - 1), "I": (0, 2**32 - 1), "Q": (0, 2**64 - 1), "h": (-(2**15), 2**15 - 1)}


@dataclass(frozen=True)
class Field:
    key: str
    label: str
    unit: Unit
    low: int
    high: int
    place: str
    # What it is where a file does not say it; None where a file must.
    default: int | None = None
    # What helps and new files say besides its range.
    note: str = ""

    def text(self, count):
        return self.unit.text(count)

    def within(self, count):
        return self.low <= count <= self.high

    def fits(self, count):
        least, most = HOLDS[self.place]
        return least <= count <= most

    @property
    def range(self):
        return f"{self.unit.text(self.low).removesuffix(self.unit.name).rstrip()} to {self.unit.text(self.high)}"


def named(*fields):
    return {field.key: field for field in fields}


def given(known, listed):
    """The fields that a page of such counts has: one that a file may leave out only where some of them has it."""
    return {
        key: field
        for key, field in known.items()
        if field.default is None or any(counts[key] != field.default for counts in listed)
    }


METALS = ("mild carbon", "304 stainless", "316 stainless", "17-4 PH")
# 01: 'mild carbon 186, 304 stainless 288, 316 stainless 265, 17-4 PH 180'.
METAL_COEFFICIENTS = (186, 288, 265, 180)
NO_METAL = 4

COEFFICIENT = Field("coefficient", "certified cubical coefficient", PER_DEGREE, 100, 400, "H")
BASE_VOLUME = Field("base_volume", "base volume", BARREL, 1, 100_000_000, "I")
PIPE = named(
    Field("inside_diameter", "inside diameter", INCH, 1000, 60000, "I"),
    Field("wall_thickness", "wall thickness", INCH, 100, 3000, "I"),
    Field("modulus", "modulus of elasticity E", PSI, 10_000_000, 40_000_000, "I"),
)

REQUEST = Field("request", "request number", NUMBER, 1, 2**32 - 1, "I")
# 02: 'reserve 1 to 13, ceiling from that reserve to 16'; 'The default is 2 and 8 for all'.
RESERVE = Field("reserve", "reserve", NUMBER, 1, 13, "B", 2)
CEILING = Field("ceiling", "ceiling", NUMBER, 1, 16, "B", 8)
K_FACTOR = Field("k_factor", "K factor", PULSES_PER_BARREL, 1, 1_000_000_000, "I")
LIMIT = Field("repeatability_limit", "repeatability limit", TEN_THOUSANDTH, 1, 100, "H")
# 01: 'House limit is 5'; a water draw's is always 2.
HOUSE_LIMIT = 5
DRAW_LIMIT = 2
# 01: 'For water F is 320'.
WATER = 320
# The equilibrium pressure of a liquid that does not boil at line conditions, water among them.
DOES_NOT_BOIL = 0

# What a run is read at.
SIDES = ("prover", "meter")
RUN = named(
    Field("pulses", "pulses", PULSE, 1, 100_000_000, "I", note="up to 3 decimals where interpolated"),
    Field("prover_temperature", "prover temperature", DEGREE, -200, 2000, "h"),
    Field("meter_temperature", "meter temperature", DEGREE, -200, 2000, "h"),
    Field("prover_pressure", "prover pressure", PSI, 0, 1500, "H"),
    Field("meter_pressure", "meter pressure", PSI, 0, 1500, "H"),
    Field("prover_ctl", "prover CTL", FACTOR, 5000, 15000, "H"),
    Field("meter_ctl", "meter CTL", FACTOR, 5000, 15000, "H"),
    Field("prover_compressibility", "prover compressibility F", PER_PSI, 0, 10000, "H"),
    Field("meter_compressibility", "meter compressibility F", PER_PSI, 0, 10000, "H"),
    Field("prover_equilibrium_pressure", "prover equilibrium pressure Pe", PSI, 0, 1500, "H", DOES_NOT_BOIL),
    Field("meter_equilibrium_pressure", "meter equilibrium pressure Pe", PSI, 0, 1500, "H", DOES_NOT_BOIL),
)
# The same of a run whose pulses are interpolated.
INTERPOLATED_RUN = RUN | named(Field("pulses", "pulses", INTERPOLATED_PULSE, 1000, 100_000_000_000, "Q"))
INDICATED = Field("", "indicated volume", BARREL, 1, 100_000_000, "I")
RUN_FACTOR = Field("", "run factor", FACTOR, 8000, 12000, "H")

FILL = named(
    Field("certified_volume", "certified volume", CUBIC_INCH, 20_000, 100_000_000, "I"),
    Field("scale_reading", "scale reading", CUBIC_INCH, -10000, 10000, "h"),
    Field("prover_temperature", "prover temperature", DEGREE, 350, 1050, "h"),
    Field("measure_temperature", "measure temperature", DEGREE, 321, 1050, "h"),
    Field("measure_coefficient", "measure's cubical coefficient", PER_DEGREE, 100, 400, "H"),
    Field("ctdw", "CTDW", FINE_FACTOR, 980_000, 1_020_000, "I"),
    # 01: 'the pass byte has no range of its own'.
    Field("pass", "pass number", NUMBER, 0, 255, "B"),
    Field("pressure", "pressure", PSI, 0, 1500, "H"),
)

TICKET = named(
    Field("opening", "opening reading", READING, 0, 99_999_999, "I"),
    Field("closing", "closing reading", READING, 0, 99_999_999, "I"),
    Field("meter_factor", "meter factor", FACTOR, 8000, 12000, "H"),
    Field("ctl", "CTL", FACTOR, 5000, 15000, "H"),
    Field("pressure", "pressure", PSI, 0, 1500, "H"),
    Field("compressibility", "compressibility F", PER_PSI, 0, 10000, "H"),
    Field("equilibrium_pressure", "equilibrium pressure Pe", PSI, 0, 1500, "H", DOES_NOT_BOIL),
    Field("sediment_and_water", "sediment and water", SEDIMENT_PERCENT, 0, 100_000, "I"),
)

# The pressure that an equilibrium pressure may not lie above, in a run and on a ticket.
AT_MOST = {f"{at}equilibrium_pressure": f"{at}pressure" for at in (*(f"{side}_" for side in SIDES), "")}
# How pages and worksheets write the CPL of a liquid that has one.
CPL_FROM_PE = "1 / (1 - F x (P - Pe))"

TEMPERATURE = Field("temperature", "temperature", DEGREE, -200, 2000, "h")
LIVE = named(TEMPERATURE, Field("pressure", "pressure", PSI, 0, 1500, "H"))
# 02, of a channel that is tagged: a single by its kind, or 'a fault code of one byte'.
FAULT = Field("fault", "fault code", NUMBER, 0, 255, "B")
# A temperature's range for those who read Celsius: what is judged are tenths of °F, whose ends are no tenths of °C.
ABOUT_IN_CELSIUS = "about -28.9 to 93.3 °C"
# The panel takes what a live reading comes to.
PANEL = LIVE

# What is asked of a table of compressibilities, and what an entry of it has.
GRAVITY = Field("gravity", "API gravity", API, 0, 900, "H")
ASKED = named(TEMPERATURE, GRAVITY)
ENTRY = ASKED | named(Field("F", "compressibility F", PRINTED, 0, 10000, "H"))

# How the page names what a job file often says in its [heading]; any other key is named by itself.
HEADING = {
    "title": "Title", "report": "Report no.", "company": "Company", "station": "Station", "meter": "Meter",
    "liquid": "Liquid", "batch": "Batch", "operator": "Operator", "date": "Date and time", "note": "Note",
}  # fmt: skip


def heading_label(key):
    """How the page names a key of [heading]."""
    words = key.replace("_", " ").strip()
    return HEADING.get(key) or words[:1].upper() + words[1:]


RUNS, FILLS, PASSES = (5, 20), (3, 60), (3, 20)
# 02: 'One to 4,096 records are lent at a time'; of a file to be moved, 'holds 1 to 4,096 records'.
ENTRIES, MOVED = (1, 4096), (1, 4096)
# 02, of a bidirectional draw: 'an odd count of passes, or a count outside 6 to 20, is 1'.
PAIRED_PASSES = (6, 20)
# A group of a draw is of passes or of round trips.
GROUP_OF_RUNS, GROUP_OF_PASSES = 5, 3
