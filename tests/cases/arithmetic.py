"""Whole-number sums for aiming cases: where a rounding or a limit is to be met exactly.

They only choose inputs. What the right answer is, the two programs say.
"""


def half_up(number, divisor):
    return (2 * number + divisor) // (2 * divisor)


def is_half(number, divisor):
    return 2 * number % divisor == 0 and 2 * number // divisor % 2 == 1


def cts(temperature, coefficient, places):
    return half_up((10**8 + (temperature - 600) * coefficient) * 10**places, 10**8)


def cps(pressure, inside, wall, modulus, places):
    return half_up((modulus * wall + pressure * inside) * 10**places, modulus * wall)


def cpl(pressure, compressibility, equilibrium, places):
    return half_up(10 ** (8 + places), 10**8 - compressibility * (pressure - equilibrium))


def water_cpl(pressure):
    return cpl(pressure, 320, 0, 6)


def twos(number):
    """How often 2 divides a number that is not zero."""
    return (number & -number).bit_length() - 1
