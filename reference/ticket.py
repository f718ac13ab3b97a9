"""The measurement ticket (01, Ticket)."""

from fractions import Fraction

import ranges
from factors import combined, cpl
from refusals import CLOSING_BELOW_OPENING, TICKET_FIELD, Refused
from rounding import rounded

PLACES = 4
VOLUME_PLACES = 2  # 0.01 barrel


def ticket(
    opening,
    closing,
    meter_factor,
    ctl,
    pressure,
    compressibility,
    equilibrium,
    sediment_and_water,
):
    """01: "A ticket: 10, 11". Factor, gross standard and net."""
    liquid = pressure, compressibility, equilibrium
    if not (
        opening in ranges.METER_READING
        and closing in ranges.METER_READING
        and meter_factor in ranges.RUN_FACTOR
        and ctl in ranges.CTL
        and ranges.liquid_stands(*liquid)
        and sediment_and_water in ranges.SEDIMENT_AND_WATER
    ):
        raise Refused(TICKET_FIELD)
    if closing < opening:
        raise Refused(CLOSING_BELOW_OPENING)
    # "Indicated = closing - opening"
    indicated = Fraction(closing - opening, 100)
    # "Factor = meter factor × CTL × CPL (from the ticket's P and F), 4 places"; 02, Liquids that
    # boil: "tickets get one [Pe] as well"
    factor = combined((meter_factor, ctl, cpl(*liquid, PLACES)), PLACES)
    # "Gross standard = indicated × factor, to 0.01"
    gross = rounded(indicated * Fraction(factor, 10**PLACES), VOLUME_PLACES)
    # "Net = gross × (100000 - S) ÷ 100000, ... to 0.01"
    net = rounded(Fraction(gross, 100) * (100000 - sediment_and_water) / 100000, VOLUME_PLACES)
    return factor, gross, net
