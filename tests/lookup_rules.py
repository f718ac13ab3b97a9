"""Other rules than the paper's, and where a look-up turns on them: how what is asked goes to a half
degree, and what a table rises by. And how a table goes on from one record to the next."""

from itertools import pairwise, product

from cases.ends import TEMPERATURE
from cases.lookup_shapes import HALF, nearest
from lookup_faults import MISSING, RECORD
from outcomes import OK

SHORT = 100  # records


def down(tenths):
    return tenths // HALF * HALF


def up(tenths):
    return -down(-tenths)


def toward_zero(tenths):
    return down(tenths) if tenths >= 0 else up(tenths)


def from_zero(tenths):
    return up(tenths) if tenths >= 0 else down(tenths)


def as_asked(tenths):
    return tenths


WAYS = {
    "down": down,
    "up": up,
    "toward zero": toward_zero,
    "from zero": from_zero,
    "not at all": as_asked,
}
# By each, the temperature and the gravity that are looked for.
ROUNDINGS = {
    **{f"the temperature rounded {way}": (rule, nearest) for way, rule in WAYS.items()},
    **{f"the gravity rounded {way}": (nearest, rule) for way, rule in WAYS.items()},
}

# By each, whether a record may follow the one before.
RISINGS = {
    "temperature and then gravity": lambda before, row: before[:2] < row[:2],
    "unsigned temperatures": lambda before, row: (
        (before.gravity, before.temperature % 2**16) < (row.gravity, row.temperature % 2**16)
    ),
    "the lower byte of gravity": lambda before, row: (
        (before.gravity % 2**8, before.temperature) < (row.gravity % 2**8, row.temperature)
    ),
    "gravity alone": lambda before, row: before.gravity < row.gravity,
    "gravity, which may stay": lambda before, row: before.gravity <= row.gravity,
    "temperature alone": lambda before, row: before.temperature < row.temperature,
    "gravity and temperature both": lambda before, row: (
        before.gravity <= row.gravity and before.temperature <= row.temperature
    ),
    "a pair that may stay": lambda before, row: before.rank <= row.rank,
}
# Of these rules the first refuse tables that rise, the others accept tables that do not.
STRICTER = ("gravity alone",)
LAXER = ("gravity, which may stay", "a pair that may stay")

WAYS_ON = ("falls", "stays", "rises")
_, STAYS, RISES = WAYS_ON
# Steps that a comparison of unsigned words, or of one number made of both, may take for others.
OVER_ZERO, OVER_ALL = "over zero", "over its whole range"


def way_on(before, after):
    return WAYS_ON[(after > before) - (after < before) + 1]


def step(gravity_way, temperature_way, *how):
    return " ".join((f"gravity {gravity_way} and temperature {temperature_way}", *how))


def steps(before, row):
    ways = way_on(before.gravity, row.gravity), way_on(before.temperature, row.temperature)
    yield step(*ways)
    if (before.temperature < 0) != (row.temperature < 0):
        yield step(*ways, OVER_ZERO)
    if {before.temperature, row.temperature} == {*TEMPERATURE}:
        yield step(*ways, OVER_ALL)


def found(look_up, temperature_rule=nearest, gravity_rule=nearest):
    pair = temperature_rule(look_up.temperature), gravity_rule(look_up.gravity)
    return next((row for row in look_up.rows if row[:2] == pair), None)


def disordered(rows, may_follow):
    """The first record that the rule refuses, counted from 1."""
    both = enumerate(pairwise(rows), 2)
    return next((record for record, two in both if not may_follow(*two)), None)


def otherwise(rule):
    return f"otherwise than by {rule}"


def reached(look_up):
    """Of a look-up that has no other fault than its table's order, or that its pair is not there. A
    long table takes its time, and short ones turn on the same rules."""
    if len(look_up.rows) > SHORT:
        return
    own = disordered(look_up.rows, lambda before, row: before.rank < row.rank)
    for rule, may_follow in RISINGS.items():
        if disordered(look_up.rows, may_follow) != own:
            yield otherwise(rule)
    judged = [*pairwise(look_up.rows)]
    for two in judged if own is None else judged[own - 2 : own - 1]:
        yield from steps(*two)
    if own is None:
        pair = found(look_up)
        for rule, both in ROUNDINGS.items():
            if found(look_up, *both) != pair:
                yield otherwise(rule)


def wanted():
    for rule, both in ROUNDINGS.items():
        yield OK, otherwise(rule)
        if as_asked not in both:  # which finds no more than the paper's rule does
            yield MISSING, otherwise(rule)
    for rule in RISINGS:
        if rule not in LAXER:
            yield OK, otherwise(rule)
        if rule not in STRICTER:
            yield RECORD, otherwise(rule)
    for ways in product(WAYS_ON, repeat=2):
        what = OK if ways[0] == RISES or ways == (STAYS, RISES) else RECORD
        yield what, step(*ways)
        if ways[1] != STAYS:
            yield from ((what, step(*ways, how)) for how in (OVER_ZERO, OVER_ALL))
