"""What each kind of job holds, for machines: what was read, what was worked out, the result. A figure is a whole count
with its unit and decimals, so that nothing is lost or rounded on the way."""

from . import fields, figures
from .fields import BARREL, CUBIC_INCH, FACTOR, FINE_FACTOR, READING
from .profiles import WAYS
from .spreads import SPREAD

RUN_UNITS = {key: BARREL if "volume" in key or key == "indicated" else FACTOR for key in figures.OF_A_RUN}
FILL_UNITS = {key: CUBIC_INCH if key in ("adjusted", "drawn") else FINE_FACTOR for key in figures.OF_A_FILL}
PASS_UNITS = {
    "pressure": fields.PSI, "sum": CUBIC_INCH, "cps": FINE_FACTOR, "cpl": FINE_FACTOR, "volume": CUBIC_INCH,
}  # fmt: skip
TRIP_UNITS = {"volume": CUBIC_INCH}
TICKET_UNITS = {"indicated": READING, "cpl": FACTOR, "factor": FACTOR, "gross": READING, "net": READING}


def figure(count, unit):
    return {"count": count, "unit": unit.name, "decimals": unit.places}


def read_figures(counts, known):
    """Figures by their keys; null for an F that was not found."""
    return {
        key: figure(counts[key], field.unit) if counts[key] is not None else None for key, field in known.items()
    }


def told_figures(counts, units):
    return {key: figure(counts[key], unit) for key, unit in units.items()}


def prover(own):
    metal = fields.METALS[own.metal] if own.metal is not None else None
    told = {"metal": metal, "coefficient": figure(own.in_use, fields.COEFFICIENT.unit)}
    return told | read_figures(own.pipe, fields.PIPE)


def group(own, unit, accepted):
    """Runs, passes or round trips in a row; `spread` is rounded."""
    return {
        "first": own.numbers[0],
        "last": own.numbers[-1],
        "accepted": accepted,
        "largest": figure(own.largest, unit),
        "smallest": figure(own.smallest, unit),
        "spread": figure(own.spread, SPREAD),
    }


def table(own):
    """A table of compressibilities."""
    return {"file": own.name, "sha256": own.digest, "remark": own.remark, "entries": len(own.entries)}


def entry(own):
    told = read_figures({"temperature": own.temperature, "gravity": own.gravity}, fields.ASKED)
    return told | {"compressibility": figure(own.compressibility, fields.PER_PSI), "line": own.line}


def looked_up(own):
    """What a job looks up; nothing where it looks nothing up."""
    if own is None:
        return {}
    found = [{"asked": figure(asked, fields.DEGREE), **entry(each)} for asked, each in sorted(own.found.items())]
    told = {"table": table(own.table), "gravity": figure(own.gravity, fields.API), "found": found}
    return {"look_up": told | {"sought": [{"run": each.run, "field": each.key} for each in own.sought]}}


def proving(worked):
    own, outcome = worked.job, worked.answer
    settings = prover(own.prover) | {"base_volume": figure(own.prover.base, BARREL)}
    settings["k_factor"] = figure(own.k_factor, fields.K_FACTOR.unit)
    settings["repeatability_limit"] = figure(own.limit, fields.LIMIT.unit)
    runs = [read_figures(run.counts, own.form.fields) for run in own.runs]
    for run, told in zip(runs, worked.runs or ()):
        run |= told_figures(told, RUN_UNITS)
    told = {"request": own.request, "settings": settings, "runs": runs, **looked_up(own.look_up)}
    if worked.group:
        told["group"] = group(worked.group, FACTOR, bool(outcome))
    if outcome:
        told["result"] = {"meter_factor": figure(outcome.factor, FACTOR), "record": outcome.record.hex()}
    return told


def draw(worked):
    own = worked.job
    settings = {"profile": own.profile.name} | prover(own.prover)
    settings["repeatability_limit"] = figure(fields.DRAW_LIMIT, fields.LIMIT.unit)
    fills = [read_figures(fill.counts, fields.FILL) for fill in own.fills]
    for fill, told in zip(fills, worked.fills or ()):
        fill |= told_figures(told, FILL_UNITS)
    told = {"settings": settings, "fills": fills}
    if worked.passes:
        told["passes"] = [{"pass": each["pass"], **told_figures(each, PASS_UNITS)} for each in worked.passes]
    if worked.trips:
        told["round_trips"] = [
            {"trip": each["trip"], **{way: each[way]["pass"] for way in WAYS}, **told_figures(each, TRIP_UNITS)}
            for each in worked.trips
        ]
    if worked.group:
        told["group"] = group(worked.group, CUBIC_INCH, bool(worked.answer))
    if worked.answer:
        base, barrels, first = worked.answer
        told["result"] = {"base_volume": figure(base, CUBIC_INCH), "in_barrels": figure(barrels, BARREL)}
        told["result"]["first_pass"] = first
    return told


def ticket(worked):
    told = {"readings": read_figures(worked.job.counts, fields.TICKET), **looked_up(worked.job.look_up)}
    return told | ({"result": told_figures(worked.answer, TICKET_UNITS)} if worked.answer else {})


def singles(told):
    return {key: single(own) for key, own in told.items()}


def single(own):
    return {"number": own.number, "bits": own.bits}


def sent(own):
    """What a transmitter sent; a channel that it tagged has its kind."""
    kind = {"kind": own.kind} if own.tagged else {}
    return kind | ({"code": own.code} if own.single is None else single(own.single))


def live(worked):
    told = {"readings": {key: sent(own) for key, own in worked.job.sent.items()}}
    if worked.answer:
        told["result"] = read_figures(dict(zip(fields.LIVE, worked.answer)), fields.LIVE)
    return told | ({"panel": singles(worked.panel)} if worked.panel else {})


def panel(worked):
    told = {"readings": read_figures(worked.job.counts, fields.PANEL)}
    return told | ({"result": singles(worked.answer)} if worked.answer else {})


BODIES = {"prove": proving, "draw": draw, "ticket": ticket, "live": live, "panel": panel}
