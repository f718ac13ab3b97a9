"""Cases of `ticket`."""

from dataclasses import replace

from . import ends, equilibria
from .arithmetic import half_up, is_half
from .shapes import Ticket


def aimed(rng):
    plain = Ticket()
    for name, of in ends.TICKET.items():
        for value in ends.around(of):
            yield replace(plain, **{name: value}).line
            # with closing below opening as well: 10 comes before 11
            yield replace(plain, **{"opening": 10, "closing": 9, name: value}).line
    yield from equilibrium_ends(plain)
    most = 99_999_999
    for opening, closing in ((0, 0), (most, most), (0, most), (1, 0), (most, 0)):
        yield replace(plain, opening=opening, closing=closing).line
        yield replace(plain, opening=opening, closing=closing, sediment=100_001).line
    for sediment in (0, 1, 99_999, 100_000):
        for equilibrium in (0, 1, 1499, 1500):
            yield Ticket(0, most, 12000, 15000, 1500, 10000, equilibrium, sediment).line
    for _ in range(80):
        yield factor_half(rng).line
        yield gross_half(rng).line
        yield net_half(rng).line


def equilibrium_ends(plain):
    backwards = replace(plain, opening=10, closing=9)
    for pressure in ends.around((ends.PRESSURE, ends.U16)):
        for equilibrium in equilibria.around(pressure):
            liquid = {"pressure": pressure, "equilibrium_pressure": equilibrium}
            yield replace(plain, **liquid).line
            # with closing below opening as well: 10 comes before 11
            yield replace(backwards, **liquid).line


def factor(ticket):
    return half_up(ticket.meter_factor * ticket.ctl * ticket.cpl, 10**8)


def factor_half(rng):
    """Where CPL is 1, and at any CPL by a meter factor of many fives."""
    if rng.random() < 0.5:
        step, pressure = 1, rng.choice((0, rng.randint(1, 1500)))
        equilibrium = pressure
    else:
        step, pressure = 625, rng.randint(1, 1500)
        equilibrium = equilibria.allowed(pressure, rng)
    while True:
        ticket = replace(
            valid(rng),
            meter_factor=step * rng.randint(-(-8000 // step), 12000 // step),
            ctl=625 * rng.randint(8, 24),
            pressure=pressure,
            equilibrium_pressure=equilibrium,
        )
        if is_half(ticket.meter_factor * ticket.ctl * ticket.cpl, 10**8):
            return ticket


def gross_half(rng):
    while True:
        ticket = valid(rng)
        indicated = 625 * rng.randint(1, 40_000)
        if is_half(indicated * factor(ticket), 10**4):
            opening = rng.randint(0, 99_999_999 - indicated)
            return replace(ticket, opening=opening, closing=opening + indicated)


def net_half(rng):
    while True:
        ticket = valid(rng)
        gross = half_up((ticket.closing - ticket.opening) * factor(ticket), 10**4)
        sediment = 100_000 - 625 * rng.randint(0, 160)
        if is_half(gross * (100_000 - sediment), 10**5):
            return replace(ticket, sediment=sediment)


def valid(rng):
    opening, closing = sorted((rng.randint(0, 99_999_999), rng.randint(0, 99_999_999)))
    pressure = rng.randint(0, 1500)
    return Ticket(
        opening,
        closing,
        rng.randint(8000, 12000),
        rng.randint(5000, 15000),
        pressure,
        rng.randint(0, 10000),
        equilibria.allowed(pressure, rng),
        rng.choice((0, rng.randint(0, 2000), rng.randint(0, 100_000))),
    )


def by_chance(rng):
    ticket = valid(rng)
    chance = rng.random()
    if chance < 0.1:
        name = rng.choice(list(ends.TICKET))
        ticket = replace(ticket, **{name: rng.choice(ends.around(ends.TICKET[name]))})
    elif chance < 0.2:
        ticket = replace(ticket, opening=ticket.closing, closing=ticket.opening)
    if rng.random() < 0.1:
        equilibrium = equilibria.above(ticket.pressure, rng)
        ticket = replace(ticket, equilibrium_pressure=equilibrium)
    return ticket.line
