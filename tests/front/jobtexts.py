"""Jobs by chance, and the text of a job file that says one."""

import itertools
import random
import re
from dataclasses import asdict, replace

from cases import draw_halves as half_cases
from cases import proving_halves
from cases import tickets as ticket_cases
from cases.draw_days import steered, valid_draw, valid_fill, volume_of
from cases.plain import fitted_job
from cases.proving_days import valid_job, valid_prover
from cases.shapes import Draw, Fill, Job, Prover, Run
from front import fields
from front.records import SHORT
from front.units import shown


def written(key, count, known):
    """A line of a job file; none where leaving it out says the same."""
    if count == known[key].default:
        return ""
    return f"{key} = {shown(count, known[key].unit.places, group=False)}\n"


def prover_text(prover, base):
    text = "[prover]\n"
    if prover.metal != fields.NO_METAL:
        text += f'metal = "{fields.METALS[prover.metal]}"\n'
    known = fields.PIPE | fields.named(fields.COEFFICIENT, fields.BASE_VOLUME)
    if prover.certificate:
        text += written("coefficient", prover.certificate, known)
    for key, count in zip(fields.PIPE, (prover.inside, prover.wall, prover.modulus)):
        text += written(key, count, known)
    return text + (written("base_volume", prover.base, known) if base else "")


def proving_text(job):
    """A job of tests/cases as a file; the names of a run's fields are the same in both."""
    limit = shown(job.limit, 2, group=False)
    text = f"request = {job.request}\nrepeatability_limit = {limit}\n" + prover_text(job.prover, True)
    text += "[meter]\n" + written("k_factor", job.k_factor, fields.named(fields.K_FACTOR))
    for run in job.runs:
        text += "[[run]]\n" + "".join(written(key, asdict(run)[key], fields.RUN) for key in fields.RUN)
    return text


def in_parts(text, rng):
    """A proving's file with three decimals in every count of pulses."""
    return re.sub(r"pulses = (\d+)", lambda found: f"pulses = {found[1]}.{rng.randrange(1000):03}", text)


def pulse_halves():
    """Provings in parts of a pulse whose indicated volumes are exact halves, or a thousandth of a pulse beside one."""
    for beside in (0, 1, -1):
        counts = [200_000_100 + 200 * at + beside for at in range(5)]
        job = fitted_job(Run(200_000), Prover(base=1_000_000), 2_000_000)
        runs = "".join(f"[[run]]\npulses = {shown(count, 3, group=False)}\n" for count in counts)
        head, first, *_ = re.split(r"\[\[run\]\]\npulses = \d+\n", proving_text(job))
        yield f"{head}[every_run]\n{first}{runs}"


def draw_text(draw):
    text = prover_text(draw.prover, False)
    names = {"certified_volume": "certified", "scale_reading": "scale"}
    names |= {"measure_coefficient": "coefficient", "pass": "pass_number"}
    for fill in draw.fills:
        own = asdict(fill)
        text += "[[fill]]\n" + "".join(written(key, own[names.get(key, key)], fields.FILL) for key in fields.FILL)
    return text


def paired_text(draw):
    """The same of a bidirectional prover."""
    return draw_text(draw).replace("[prover]\n", '[prover]\nprofile = "bidirectional"\n', 1)


def ticket_text(ticket):
    own = asdict(ticket)
    names = {"sediment_and_water": "sediment"}
    return "[ticket]\n" + "".join(written(key, own[names.get(key, key)], fields.TICKET) for key in fields.TICKET)


def days(count, seed):
    """Provings as a skid has them, most of them accepted or nearly so."""
    rng = random.Random(seed)
    return [valid_job(rng) for _ in range(count)]


def from_line(line):
    """The job of a `prove` line of tests/cases."""
    _, request, *settings, k_factor, limit, _, records = line.decode().split()
    octets, layout = bytes.fromhex(records), SHORT.layout
    runs = [Run(**layout.unpack(octets[at : at + layout.length])) for at in range(0, len(octets), layout.length)]
    return Job(tuple(runs), Prover(*map(int, settings)), int(k_factor), int(limit), int(request))


def halves(count, seed):
    """Jobs with an exact half in one of their roundings, of every kind that a run can meet."""
    rng = random.Random(seed)
    warm, cold = Run(prover_temperature=700), Run(prover_temperature=500)
    aimed = [fitted_job(run, Prover(4, 250), 10_000_000) for run in (warm, cold)]
    aimed.append(fitted_job(Run(prover_pressure=30), Prover(inside=25_000, wall=500), 10_000_000))
    lines = (line for line in proving_halves.halves(rng) if line.startswith(b"prove "))
    return aimed + [from_line(line) for line in itertools.islice(lines, count - len(aimed))]


def draws(count, seed):
    """Water draws as a skid has them."""
    rng = random.Random(seed)
    return [valid_draw(rng) for _ in range(count)]


def paired_draws(count, seed):
    """Draws of a bidirectional prover: the passes of a pair at pressures of their own, round trips that agree or nearly
    do, whether or not their passes do."""
    rng = random.Random(seed)
    return [paired_draw(rng) for _ in range(count)]


def paired_draw(rng):
    prover, trips = valid_prover(rng), rng.choice((3, 3, 4, 5, rng.randint(3, 10)))
    measures = [replace(valid_fill(rng), scale=rng.randint(-500, 500)) for _ in range(rng.randint(1, 30 // trips))]
    pressures, smallest, fills = (rng.randint(0, 200), rng.randint(0, 200)), None, []

    def of_pass(number, pressure):
        return [replace(each, pass_number=number, pressure=pressure) for each in measures]

    for trip in range(trips):
        out, back = (of_pass(2 * trip + at, pressure + rng.randint(0, 3)) for at, pressure in enumerate(pressures, 1))
        out[-1] = replace(out[-1], scale=out[-1].scale + rng.randint(-3000, 3000))
        if smallest is None:
            smallest = volume_of(out, prover) + volume_of(back, prover)
        # Within the limit, 2 in 10,000, or beyond it at times.
        wanted = smallest + rng.randint(0, smallest * rng.choice((2, 2, 9)) // 10_000)
        fills += out + steered(back, wanted - volume_of(out, prover), prover)
    return Draw(tuple(fills), prover)


def draw_halves(count, seed):
    """Draws of three like passes with an exact half in what is drawn, in CCTS or in a pass."""
    rng = random.Random(seed)
    made = []
    for at in range(count):
        draw = (half_cases.drawn_half, half_cases.ccts_half, half_cases.pass_half)[at % 3](rng)
        if len(draw.fills) == 1:
            draw = replace(draw, fills=tuple(replace(draw.fills[0], pass_number=number) for number in (1, 2, 3)))
        made.append(draw)
    return made


def widest_draws(passes=3):
    """Draws at the ends of the ranges: sixty of the largest fills in the thinnest pipe, and a smallest one a pass."""
    thin = Prover(4, 400, 60_000, 100, 10_000_000)
    large = [Fill(100_000_000, 10_000, 350, 1050, 400, 1_020_000, 1 + at * passes // 60, 1500) for at in range(60)]
    small = [Fill(20_000, -10_000, 1050, 321, 400, 980_000, 1 + at, 1500) for at in range(passes)]
    return [Draw(tuple(fills), thin) for fills in (large, small)]


def tickets(count, seed):
    """Tickets within the ranges, exact halves of each rounding among them."""
    rng = random.Random(seed)
    kinds = (ticket_cases.valid, ticket_cases.factor_half, ticket_cases.gross_half, ticket_cases.net_half)
    return [kinds[at % len(kinds)](rng) for at in range(count)]
