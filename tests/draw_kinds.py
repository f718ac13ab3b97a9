"""What a bidirectional draw reaches, of all that must be reached: by its faults, and by what its
passes come to."""

import precedence
import trip_kinds
from cases.shapes import Draw
from faults import OF_COUNT, UNNAMED, faults
from round_trips import Trips

ENTRIES = ("bidirectional", "trips")


def reached(text):
    draw = Draw.read(text)
    found = [*faults(draw)]
    kinds = {fault.kind for fault in found}
    trips = Trips(draw) if kinds <= {UNNAMED, *OF_COUNT} else None
    yield from precedence.reached(draw, found, trips)
    if kinds <= {*OF_COUNT}:
        yield from trip_kinds.reached(trips)


def wanted(entry):
    """What an entry answers, and to which kind of draw."""
    yield from precedence.wanted(entry)
    yield from trip_kinds.wanted(entry)
