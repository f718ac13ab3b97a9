"""What each computed cell of a worksheet must show: the line program's figure, or the exact whole number where a cell
holds what no entry tells: a part of a product, a step of a long division, the test of a group."""

from front import fields, figures
from front.program import Refused, hexed
from front.records import FILL_LAYOUT
from front.units import shown

WIDEST = fields.LIMIT.high


def read(count, places):
    """A count with its point, as a spreadsheet writes it: without zeros at the end."""
    return shown(count, places, group=False).rstrip("0").rstrip(".") if count != "none" else count


def groups(values, size, limit, judged):
    """The cells of the groups; `judged` asks the program whether a group alone is accepted, and for its mean."""
    cells = {}
    for at in range(len(values) - size + 1):
        own = values[at : at + size]
        meets, mean = judged(at)
        cells |= {("largest", at): max(own), ("smallest", at): min(own), ("meets", at): meets}
        # As the entry `spread` has it: 0.001 % of the smallest, halves up.
        cells["percent", at] = (2 * (max(own) - min(own)) * 100_000 + min(own)) // (2 * min(own))
        cells |= {("spread", at): (max(own) - min(own)) * 10_000, ("allowed", at): limit * min(own)}
        # No entry tells the mean of a group that meets no limit.
        cells["mean", at] = (2 * sum(own) + size) // (2 * size) if mean is None else mean
    cells["any", 0] = sum(value for (key, _), value in cells.items() if key == "meets")
    return cells


def of_proving(job, runs, outcome, program):
    cells = {(key, at): own[key] for at, own in enumerate(runs) for key in figures.OF_A_RUN}
    cells |= {(f"read_{key}", at): read(count, 4) for (key, at), count in cells.items()}

    def judged(at):
        five = hexed(b"".join(run.record for run in job.runs[at : at + 5]))

        def mean(limit):
            words = (1, *job.prover.words, job.k_factor, limit, hexed(bytes(32)), five)
            return asked(program, f"prove{job.form.ending}", *words)

        own = mean(job.limit)
        # A five beyond the job's limit has its mean told at the widest, where it may be beyond that as well.
        return (1, own) if own is not None else (0, mean(WIDEST))

    cells |= groups([own["factor"] for own in runs], 5, job.limit, judged)
    factor, first = (outcome.factor, outcome.first) if outcome else ("none", "none")
    cells |= {("first", 0): first, ("meter_factor", 0): factor, ("agree", 0): "yes"}
    cells["read_meter_factor", 0] = read(factor, 4)
    return cells


def asked(program, *words):
    """The first value that the program answers; None for a refusal."""
    try:
        return int(program.ask(*words)[0])
    except Refused:
        return None


def of_draw(worked, program):
    job, fills, passes, answer = worked.job, worked.fills, worked.passes, worked.answer
    cells = {(key, at): own[key] for at, own in enumerate(fills) for key in figures.OF_A_FILL}
    for at, own in enumerate(passes):
        cells |= {(key, at): own[key] for key in ("sum", "cps", "cpl", "volume")}
        cells["at_pressure", at] = own["pressure"]
    # What is judged, by how many passes each is of and by the line for three of them.
    volumes, each, line = [own["volume"] for own in passes], 1, "draw"
    if worked.trips:
        for at, (out, back) in enumerate(zip(volumes[::2], volumes[1::2])):
            cells |= {("out", at): out, ("back", at): back, ("trip", at): out + back}
        volumes, each, line = [own["volume"] for own in worked.trips], 2, "bidirectional"
    read_as_volumes = ("adjusted", "drawn", "volume", "trip")
    factors = ("measure_cts", "prover_cts", "ccts", "cps", "cpl")
    pointed = {(f"read_{key}", at): read(count, 2) for (key, at), count in cells.items() if key in read_as_volumes}
    pointed |= {(f"read_{key}", at): read(count, 6) for (key, at), count in cells.items() if key in factors}
    for at, (fill, own) in enumerate(zip(job.fills, fills)):
        water = own["adjusted"] * fill.counts["ctdw"]
        cells |= {("water", at): water, ("upper", at): water // 10**6, ("product", at): water * own["ccts"] // 10**6}
    for at, own in enumerate(passes):
        cells |= divided(at, own["sum"], own["cps"] * own["cpl"])

    def judged(at):
        before = at * each
        three = [fill.counts for fill in job.fills if before < fill.counts["pass"] <= before + 3 * each]
        records = b"".join(FILL_LAYOUT.pack({**counts, "pass": counts["pass"] - before}) for counts in three)
        mean = asked(program, line, *job.prover.words, hexed(records))
        return (0, None) if mean is None else (1, mean)

    cells |= pointed | groups(volumes, 3, fields.DRAW_LIMIT, judged)
    base, barrels, first = answer or ("none",) * 3
    cells |= {("first", 0): first, ("base", 0): base, ("barrels", 0): barrels, ("agree", 0): "yes"}
    cells["first_trip", 0] = first // 2 + 1 if answer else first
    return cells | {("read_base", 0): read(base, 2), ("read_barrels", 0): read(barrels, 4)}


def divided(at, left, divisor):
    cells = {("divisor", at): divisor}
    for name in ("first", "second", "third", "fourth"):
        digits, left = divmod(left * 1000, divisor)
        cells |= {(f"{name}_digits", at): digits, (f"{name}_left", at): left}
    return cells


def of_ticket(told):
    cells = {(key, 0): count for key, count in told.items()} | {("agree", 0): "yes"}
    places = {"indicated": 2, "cpl": 4, "factor": 4, "gross": 2, "net": 2}
    return cells | {(f"read_{key}", 0): read(told[key], places[key]) for key in places}
