"""Exact halves of the roundings of a draw that can meet one."""

from dataclasses import replace

from .arithmetic import cps, cts, half_up, is_half, twos, water_cpl
from .draw_days import valid_fill
from .plain import everywhere, plain_draw
from .proving_days import valid_prover
from .shapes import Draw, Fill, Prover


def halves(rng):
    for _ in range(60):
        yield drawn_half(rng).fill()
    for _ in range(20):
        yield ccts_half(rng).fill()
        draw = pass_half(rng)
        yield draw.draw
        yield draw.passes


def drawn_half(rng):
    while True:
        prover = valid_prover(rng)
        fill = valid_fill(rng)
        if rng.random() < 0.5:
            alike = fill.prover_temperature
            fill = replace(fill, coefficient=prover.coefficient, measure_temperature=alike)
        ctdw = rng.choice((1_000_000, 984_375, 1_015_625, 1_000_000 + 2 * rng.randint(-9, 9)))
        certified = 5 ** rng.randint(5, 9) * 2 ** rng.randint(0, 9) * rng.randint(1, 99)
        if not 20_000 <= certified <= 100_000_000:
            continue
        fill = replace(fill, scale=0, ctdw=ctdw, certified=certified)
        measure = cts(fill.measure_temperature, fill.coefficient, 6)
        ccts = half_up(measure * 10**6, cts(fill.prover_temperature, prover.coefficient, 6))
        if is_half(certified * ctdw * ccts, 10**12):
            return Draw((fill,), prover)


def ccts_half(rng):
    """Measure CTS ÷ prover CTS on a half, which needs 2^7 × 5 in the prover CTS: then an odd number
    of its 640ths (3200ths, with 5 twice) lies between the two."""
    while True:
        certificate, temperature = rng.randint(100, 400), rng.randint(350, 1050)
        prover_cts = cts(temperature, certificate, 6)
        if prover_cts % 640:
            continue
        part = prover_cts // (640 if prover_cts % 3200 else 3200)
        for _ in range(40):
            measure_cts = prover_cts + part * rng.randrange(-7, 9, 2)
            measure_temperature = rng.choice((rng.randint(321, 590), rng.randint(610, 1050)))
            coefficient = half_up(abs(measure_cts - 10**6) * 100, abs(measure_temperature - 600))
            if (
                100 <= coefficient <= 400
                and cts(measure_temperature, coefficient, 6) == measure_cts
                and is_half(measure_cts * 10**6, prover_cts)
            ):
                certified = rng.randint(1_000_000, 100_000_000)
                fill = Fill(certified, 0, temperature, measure_temperature, coefficient)
                return Draw((fill,), Prover(4, certificate))


def pass_half(rng):
    """A pass on a half: 2 × sum × 10^12 is an odd multiple of CPS × CPL, which needs thirteen twos
    in that product and its odd part in the sum."""
    while True:
        pressure, modulus, wall = rng.randint(1, 1500), 30_000_000, rng.randint(100, 800)
        water = water_cpl(pressure)
        step = 2 ** max(13 - twos(water), 1)
        wanted = 10**6 + step - 10**6 % step + step * rng.randint(0, 3)
        inside = half_up((wanted - 10**6) * modulus * wall, pressure * 10**6)
        if not 1000 <= inside <= 60000 or cps(pressure, inside, wall, modulus, 6) != wanted:
            continue
        product = wanted * water
        part = product >> twos(product)
        while part % 5 == 0:
            part //= 5
        total = part << (twos(product) - 13)
        if not is_half(total * 10**12, product) or total > 1_800_000_000:
            continue
        total *= rng.randrange(1, max(1_800_000_000 // total, 1) + 1, 2)
        if total < 20 * 20_000 or total > 19 * 100_000_000:
            continue
        draw = plain_draw([total] * 3, 20, prover=Prover(0, 0, inside, wall, modulus))
        return everywhere(draw, pressure=pressure)
