"""The prover's settings: its metal, pipe and base volume."""

from collections import namedtuple

import ranges
from refusals import PROVER_SETTING, Refused

# 01, Units and ranges: "Named (003, Table 5): mild carbon 186, 304 stainless 288,
# 316 stainless 265, 17-4 PH 180", by the line program's codes 0 to 3.
NAMED_METALS = (186, 288, 265, 180)
NONE_NAMED = 4

Settings = namedtuple("Settings", "metal certificate inside_diameter wall modulus base_volume")


def coefficient_of(metal, certificate):
    """The cubical coefficient. "A certificate wins over the name"; a certificate of 0 is none."""
    if metal > NONE_NAMED:
        raise Refused(PROVER_SETTING)
    if certificate == 0:
        if metal == NONE_NAMED:
            raise Refused(PROVER_SETTING)
        return NAMED_METALS[metal]
    if certificate not in ranges.COEFFICIENT:
        raise Refused(PROVER_SETTING)
    return certificate


def judge_pipe(inside_diameter, wall, modulus):
    if not (
        inside_diameter in ranges.INSIDE_DIAMETER
        and wall in ranges.WALL
        and modulus in ranges.MODULUS
    ):
        raise Refused(PROVER_SETTING)


def judge_settings(settings):
    """Refusal 3 as a water draw has it, which drops "the base volume in 3"."""
    coefficient_of(settings.metal, settings.certificate)
    judge_pipe(settings.inside_diameter, settings.wall, settings.modulus)


def judge_settings_and_base(settings):
    """Refusal 3 as a proving has it."""
    judge_settings(settings)
    if settings.base_volume not in ranges.VOLUME:
        raise Refused(PROVER_SETTING)
