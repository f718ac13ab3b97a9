"""What the runs of a job come to, by whole-number sums: they only choose inputs, and tell what was
chosen."""

from .arithmetic import half_up

GROUP = 5


def factor(prover_volume, indicated, meter_product):
    """The run factor; None where there is no meter volume to divide by."""
    meter_volume = half_up(indicated * meter_product, 10**4)
    return half_up(prover_volume * 10**4, meter_volume) if meter_volume else None


def first_five(factors, limit):
    """Where the first five that agree begin, from 0; None without."""
    for at in range(len(factors) - GROUP + 1):
        five = factors[at : at + GROUP]
        if (max(five) - min(five)) * 10_000 <= limit * min(five):
            return at
    return None


class JobFigures:
    """Of a job whose prover and liquids can be worked with."""

    def __init__(self, job):
        self.limit = job.limit
        # what does not turn on the counts
        self.volumes = [
            (half_up(job.prover.base * run.prover_factor(job.prover), 10**4), run.meter_product)
            for run in job.runs
        ]

    def factors(self, indicated):
        """By the runs' indicated volumes."""
        return [
            factor(prover_volume, volume, meter_product)
            for volume, (prover_volume, meter_product) in zip(indicated, self.volumes)
        ]

    def accepted(self, indicated):
        """The first five factors that agree, and where they begin; None without."""
        factors = self.factors(indicated)
        if None in factors:
            return None
        first = first_five(factors, self.limit)
        return None if first is None else (first, *factors[first : first + GROUP])
