"""The factors (01, Factors). Each answers a whole number of 10^-places."""

from fractions import Fraction
from functools import lru_cache
from math import prod

from rounding import rounded

# 01, Factors: "For water F is 320 (003)".
WATER_COMPRESSIBILITY = 320
# 02, Liquids that boil: "Water draw uses Pe 0".
WATER_EQUILIBRIUM = 0


@lru_cache(maxsize=4096)
def cts(temperature, coefficient, places):
    # "CTS = 1 + (T - 60) × Gc": T in 0.1 °F, Gc in 10^-7 per °F
    return rounded(1 + (Fraction(temperature, 10) - 60) * Fraction(coefficient, 10**7), places)


@lru_cache(maxsize=4096)
def cps(pressure, inside_diameter, wall, modulus, places):
    # "CPS = 1 + P × ID / (E × WT)": ID and WT in 0.001 inch
    inside_diameter, wall = Fraction(inside_diameter, 1000), Fraction(wall, 1000)
    return rounded(1 + pressure * inside_diameter / (modulus * wall), places)


@lru_cache(maxsize=4096)
def cpl(pressure, compressibility, equilibrium, places):
    # 02, Liquids that boil: "1 / (1 - F × (P - Pe))": F in 10^-8 per psi
    above = pressure - equilibrium
    return rounded(1 / (1 - Fraction(compressibility, 10**8) * above), places)


def combined(factors, places):
    # "A combined factor is the exact product of the rounded factors, then one rounding"
    return rounded(Fraction(prod(factors), 10 ** (places * len(factors))), places)
