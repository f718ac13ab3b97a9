"""Units and ranges (01, Units and ranges; Ticket; Records), both ends inside; what a liquid's
pressure may be (02, Liquids that boil), how many passes (02, Bidirectional provers), and what a
table of compressibilities and a file of run records hold (02, Look up compressibility; Longer run
records, and the way back)."""


def span(first, last):
    return range(first, last + 1)


TEMPERATURE = span(-200, 2000)  # 0.1 °F, prover and meter; look-up
DRAW_PROVER_TEMPERATURE = span(350, 1050)  # 0.1 °F
DRAW_MEASURE_TEMPERATURE = span(321, 1050)  # 0.1 °F
PRESSURE = span(0, 1500)  # psi gage
COEFFICIENT = span(100, 400)  # 10^-7 per °F
MODULUS = span(10_000_000, 40_000_000)  # psi
INSIDE_DIAMETER = span(1000, 60000)  # 0.001 inch
WALL = span(100, 3000)  # 0.001 inch
COMPRESSIBILITY = span(0, 10000)  # 10^-8 per psi
CTL = span(5000, 15000)  # 0.0001
RUN_FACTOR = span(8000, 12000)  # 0.0001
CTDW = span(980000, 1020000)  # 0.000001
VOLUME = span(1, 100_000_000)  # 0.0001 barrel, base and indicated
PULSE_THOUSANDTHS = span(1000, 100_000_000_000)  # 1 to 100,000,000 pulses
K_FACTOR = span(1, 1_000_000_000)  # 0.001 pulse per barrel
LIMIT = span(1, 100)  # 1 in 10,000
RUNS = span(5, 20)
PASSES = span(3, 20)
PAIRED_PASSES = span(6, 20)[::2]  # out and back: 6, 8, .. 20
FILLS = span(3, 60)
CERTIFIED_VOLUME = span(20_000, 100_000_000)  # 0.01 cubic inch
SCALE_READING = span(-10000, 10000)  # 0.01 cubic inch
METER_READING = span(0, 99_999_999)  # 0.01 barrel
SEDIMENT_AND_WATER = span(0, 100_000)  # 0.001 %
GRAVITY = span(0, 900)  # 0.1 °API
TABLE_RECORDS = span(1, 4096)
MOVED_RECORDS = span(1, 4096)


def liquid_stands(pressure, compressibility, equilibrium):
    # 02, Liquids that boil: "P below Pe is 5 in a record and 10 on a ticket, in the place of a
    # range fault of that P"; Pe is "0 to 1500", as every Pe not above such a P is
    return (
        pressure in PRESSURE and pressure >= equilibrium and compressibility in COMPRESSIBILITY
    )
