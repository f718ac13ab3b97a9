"""Jobs and draws whose figures are known: the factors of a plain run and fill are all 1."""

from dataclasses import replace

from .arithmetic import half_up
from .shapes import Draw, Fill, Job, Prover, Run

STEADY_BASE = 20_000_000
# The fill that draws the most, by a prover whose coefficient is 400.
LARGEST = Fill(100_000_000, 10000, 350, 1050, 400, 1_020_000)


def plain_job(factors, **others):
    """A job with these run factors: the corrected volumes are the base volume and, at K 1000
    pulses per barrel to 0.0001, the pulses."""
    prover = Prover(base=STEADY_BASE)
    runs = tuple(Run(half_up(STEADY_BASE * 10**4, factor)) for factor in factors)
    return Job(runs, prover, **others)


def fitted_job(run, prover, k_factor, count=5):
    """The run, repeated, with the base volume that makes its factor nearest to 1."""
    indicated = run.indicated(k_factor)
    base = half_up(indicated * run.meter_product, run.prover_factor(prover))
    prover = replace(prover, base=min(max(base, 1), 100_000_000))
    return Job((run,) * count, prover, k_factor, form=type(run))


def plain_draw(volumes, fills_each=1, **others):
    """A draw with these pass volumes: at no pressure and 60 °F what is drawn is the certified
    volume."""
    fills = []
    for number, volume in enumerate(volumes, 1):
        share = volume // fills_each
        shares = [share] * (fills_each - 1) + [volume - share * (fills_each - 1)]
        fills += [Fill(certified, pass_number=number) for certified in shares]
    return Draw(tuple(fills), **others)


def everywhere(draw, **fields):
    return replace(draw, fills=tuple(replace(fill, **fields) for fill in draw.fills))


def plain_trips(pairs, fills_each=1, **others):
    """A draw whose passes, out and back, have these volumes."""
    return plain_draw([volume for pair in pairs for volume in pair], fills_each, **others)


def at_pressures(draw, pressures):
    """The same fills, each pass at a pressure of its own."""
    fills = (replace(fill, pressure=pressures[fill.pass_number - 1]) for fill in draw.fills)
    return replace(draw, fills=tuple(fills))


def fills_alike(fill, shape):
    """The fill again and again, so many times in each pass."""
    return tuple(
        replace(fill, pass_number=number)
        for number, count in enumerate(shape, 1)
        for _ in range(count)
    )
