"""Where the equilibrium pressures of a line stand, each beside the pressure of its own side."""

import struct

from cases.ends import PRESSURE

# the pressures of prover and meter are at bytes 8 and 10 of a run record, in the longer form at 12
# and 14, the equilibrium pressures at 20 and 22, or 24 and 26
SHORT_RUN, LONG_RUN = struct.Struct("<8xHH8xHH8x"), struct.Struct("<12xHH8xHH20x")
RECORDS = {
    **dict.fromkeys(("prove", "runs", "run", "forward"), SHORT_RUN),
    **dict.fromkeys(("prove_long", "runs_long", "run_long", "back"), LONG_RUN),
}

ALONE, PROVER, METER = "liquid", "prover", "meter"
SIDES = {"cpl": (ALONE,), "ticket": (ALONE,), **dict.fromkeys(RECORDS, (PROVER, METER))}

NONE, BELOW, AT = "Pe 0", "Pe below P", "Pe at P"
ABOVE, BEYOND = "Pe above P", "Pe above 1500"
ACCEPTED = (NONE, BELOW, AT)
FAULTY = (ABOVE, BEYOND)


def standing(pressure, equilibrium):
    """None where the pressure is out of range, a fault of its own."""
    if pressure > PRESSURE[1]:
        return None
    if equilibrium == 0:
        return NONE
    if equilibrium <= pressure:
        return AT if equilibrium == pressure else BELOW
    return ABOVE if equilibrium <= PRESSURE[1] else BEYOND


def standings(entry, line, record):
    """Each side of an entry's line that is not a bad one, with where it stands: of all records, or
    of the one that an answer names."""
    if entry not in SIDES:
        return
    words = line.split()
    if entry == "cpl":
        yield ALONE, standing(int(words[1]), int(words[3]))
    elif entry == "ticket":
        yield ALONE, standing(int(words[5]), int(words[7]))
    elif words[-1] != b"-":
        lent, run = bytes.fromhex(words[-1].decode("ascii")), RECORDS[entry]
        whole = [*run.iter_unpack(lent[: len(lent) // run.size * run.size])]
        for pressures in whole[record - 1 : record] if record else whole:
            prover, meter, prover_equilibrium, meter_equilibrium = pressures
            yield PROVER, standing(prover, prover_equilibrium)
            yield METER, standing(meter, meter_equilibrium)
