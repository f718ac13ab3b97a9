"""Range ends: for each quantity of the paper's table its ends, one past, and its type's ends."""

TEMPERATURE = (-200, 2000)
PRESSURE = (0, 1500)
COEFFICIENT = (100, 400)
MODULUS = (10_000_000, 40_000_000)
INSIDE = (1000, 60000)
WALL = (100, 3000)
COMPRESSIBILITY = (0, 10000)
CTL = (5000, 15000)
RUN_FACTOR = (8000, 12000)
VOLUME = (1, 100_000_000)
PULSES = (1, 100_000_000)
PULSE_THOUSANDTHS = (1000, 100_000_000_000)
K_FACTOR = (1, 1_000_000_000)
LIMIT = (1, 100)
GRAVITY = (0, 900)

U16 = (0, 2**16 - 1)
U32 = (0, 2**32 - 1)
U64 = (0, 2**64 - 1)
I16 = (-(2**15), 2**15 - 1)

PROVER = {
    "inside": (INSIDE, U32),
    "wall": (WALL, U32),
    "modulus": (MODULUS, U32),
    "base": (VOLUME, U32),
    "certificate": (COEFFICIENT, U16),
}

RUN = {
    "pulses": (PULSES, U32),
    "prover_temperature": (TEMPERATURE, I16),
    "meter_temperature": (TEMPERATURE, I16),
    "prover_pressure": (PRESSURE, U16),
    "meter_pressure": (PRESSURE, U16),
    "prover_ctl": (CTL, U16),
    "meter_ctl": (CTL, U16),
    "prover_compressibility": (COMPRESSIBILITY, U16),
    "meter_compressibility": (COMPRESSIBILITY, U16),
    "prover_equilibrium_pressure": (PRESSURE, U16),
    "meter_equilibrium_pressure": (PRESSURE, U16),
}

LONG_RUN = {**RUN, "pulses": (PULSE_THOUSANDTHS, U64)}

FILL = {
    "certified": ((20_000, 100_000_000), U32),
    "scale": ((-10000, 10000), I16),
    "prover_temperature": ((350, 1050), I16),
    "measure_temperature": ((321, 1050), I16),
    "coefficient": (COEFFICIENT, U16),
    "ctdw": ((980_000, 1_020_000), U32),
    "pressure": (PRESSURE, U16),
}

TICKET = {
    "opening": ((0, 99_999_999), U32),
    "closing": ((0, 99_999_999), U32),
    "meter_factor": (RUN_FACTOR, U16),
    "ctl": (CTL, U16),
    "pressure": (PRESSURE, U16),
    "compressibility": (COMPRESSIBILITY, U16),
    "equilibrium_pressure": (PRESSURE, U16),
    "sediment": ((0, 100_000), U32),
}

ASKED = {
    "temperature": (TEMPERATURE, I16),
    "gravity": (GRAVITY, U16),
}

TABLE_ROW = {**ASKED, "compressibility": (COMPRESSIBILITY, U16)}


def around(ends):
    """Both ends of a range, their neighbours on either side, and the ends of the type."""
    (low, high), (least, most) = ends
    values = {low - 1, low, low + 1, high - 1, high, high + 1, least, most}
    return sorted(value for value in values if least <= value <= most)


def outside(ends, rng):
    """A value of the type outside the range."""
    (low, high), (least, most) = ends
    choices = []
    if low > least:
        choices += [low - 1, least, rng.randint(least, low - 1)]
    if high < most:
        choices += [high + 1, most, rng.randint(high + 1, most)]
    return rng.choice(choices)
