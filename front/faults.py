"""What of a job a refusal is about: the record, the field, its value and its range. Found by comparing with the
table of ranges, or by asking the line program; nothing is worked out here."""

from . import channels, fields, figures, look_up_faults
from .field_faults import of_count, of_fields, of_unnamed_bytes, out_of_range, unknown
from .look_ups import Missed
from .profiles import BIDIRECTIONAL
from .program import Refused
from .records import FILL_LAYOUT
from .refusals import Detail, Explained
from .units import shown


def explain(job, refusal, program):
    if isinstance(refusal, Missed):
        found = look_up_faults.of_job(refusal)
    else:
        found = FINDERS[job.kind](job, refusal, program)
    return Explained(refusal.number, refusal.record, tuple(found))


def of_prover(prover, base_judged):
    counts = {**prover.pipe, "base_volume": prover.base, "coefficient": prover.coefficient}
    known = dict(fields.PIPE)
    if prover.coefficient is not None:
        known = {"coefficient": fields.COEFFICIENT, **known}
    if base_judged:
        known["base_volume"] = fields.BASE_VOLUME
    return out_of_range(counts, known)


def of_proving(job, refusal, program):
    at = f"run {refusal.record}: "
    run = job.runs[refusal.record - 1] if refusal.record else None
    match refusal.number:
        case 22:
            return out_of_range({"request": job.request}, {"request": fields.REQUEST})
        case 1:
            return of_count("runs", len(job.runs), fields.RUNS)
        case 3:
            return of_prover(job.prover, True)
        case 4:
            counts = {"k_factor": job.k_factor, "repeatability_limit": job.limit}
            return out_of_range(counts, fields.named(fields.K_FACTOR, fields.LIMIT))
        case 5:
            return of_fields(run.counts, job.form.fields, at)
        case 2:
            return of_unnamed_bytes(run.record, job.form.layout, at)
        case 7:
            given = f"{job.form.pulses.text(run.counts['pulses'])} ÷ {fields.K_FACTOR.text(job.k_factor)}"
            return [unknown("indicated", fields.INDICATED, given, at)]
        case 8:
            given = (
                f"that of {job.form.pulses.text(run.counts['pulses'])}, {fields.K_FACTOR.text(job.k_factor)}"
                f" and a base volume of {fields.BASE_VOLUME.text(job.prover.base)}"
            )
            return [unknown("factor", fields.RUN_FACTOR, given, at)]
        case 9:
            told = " ".join(shown(own["factor"], 4) for own in figures.of_runs(job, program))
            limit = fields.LIMIT.text(job.limit)
            return [f"run factors {told}: no five in a row lie within {limit} of the smallest"]
    return []


def of_draw(job, refusal, program):
    at = f"fill {refusal.record}: "
    fill = job.fills[refusal.record - 1] if refusal.record else None
    match refusal.number:
        case 1:
            few, many = fields.FILLS
            if not few <= len(job.fills) <= many:
                return of_count("fills", len(job.fills), fields.FILLS)
            return of_passes(job.fills[-1].counts["pass"], job.profile)
        case 3:
            return of_prover(job.prover, False)
        case 5:
            return out_of_range(fill.counts, fields.FILL, at)
        case 2:
            return of_unnamed_bytes(fill.record, FILL_LAYOUT, at)
        case 6:
            words = at + broken_pass(job.fills[: refusal.record])
            return [Detail(words, "pass", fill.counts["pass"], unit=fields.NUMBER)]
        case 9:
            told = " ".join(shown(volume, 2) for volume in figures.judged(job, program))
            limit = fields.LIMIT.text(fields.DRAW_LIMIT)
            return [f"{job.profile.judged} {told} in³: no three in a row lie within {limit} of the smallest"]
    return []


def of_passes(count, profile):
    """A count of passes that the profile does not take; of a bidirectional draw one within the ends is odd."""
    if profile is not BIDIRECTIONAL:
        return of_count("passes", count, profile.passes)
    few, many = profile.passes
    own = "1 pass" if count == 1 else f"{count} passes"
    takes = f"a {profile.name} draw takes an even number, {few} to {many}"
    if few <= count <= many:
        return [Detail(f"{own}, an odd number: {takes}", "passes", count, unit=fields.NUMBER)]
    beyond = f"fewer than {few}" if count < few else f"more than {many}"
    return [Detail(f"{own}, {beyond}: {takes}", "passes", count, few, many, fields.NUMBER)]


def broken_pass(fills):
    """The last of these fills breaks the rule."""
    own = fills[-1].counts
    told = f"pass number is {own['pass']} at pressure {fields.PSI.text(own['pressure'])}"
    if len(fills) == 1:
        return f"{told}, range pass 1"
    before = fills[-2].counts
    earlier = f"pass {before['pass']} at {fields.PSI.text(before['pressure'])}"
    return f"{told}, range the same as the fill before it ({earlier}) or the next pass"


def of_ticket(job, refusal, program):
    if refusal.number == 10:
        return of_fields(job.counts, fields.TICKET)
    opening, closing = (fields.TICKET[key].text(job.counts[key]) for key in ("opening", "closing"))
    words = f"closing reading is {closing}, range {opening} (the opening reading) or more"
    known = fields.TICKET["closing"]
    return [Detail(words, "closing", job.counts["closing"], job.counts["opening"], known.high, known.unit)]


def of_live(job, refusal, program):
    """Temperature is judged first: it is at fault where it is refused beside a pressure of 0 too."""
    try:
        program.ask(*channels.line(channels.beside_zero(job.sent)))
        key = "pressure"
    except Refused:
        key = "temperature"
    field, sent = fields.LIVE[key], job.sent[key]
    match refusal.number:
        case 34:
            return [Detail(f"{field.label}: the transmitter sent {sent.text} in place of a reading", key)]
        case 35:
            return [Detail(f"{field.label}: the transmitter sent {of_another_kind(sent, key)}", key)]
    judged = f"range {field.range} to the nearest {field.unit.step}"
    if sent.kind == "celsius":
        judged += f", {fields.ABOUT_IN_CELSIUS}"
    return [Detail(f"{field.label} is {sent.text}, {judged}", key, None, field.low, field.high, field.unit)]


def of_another_kind(sent, key):
    """A channel that does not belong in its place, and what does."""
    [own] = channels.PLACES[sent.kind]
    units = " or ".join(unit for kind, unit in channels.UNITS.items() if key in channels.PLACES[kind])
    return f"a {own}, {sent.text}, where a {key} in {units} belongs"


def of_panel(job, refusal, program):
    return out_of_range(job.counts, fields.PANEL)


FINDERS = {"prove": of_proving, "draw": of_draw, "ticket": of_ticket, "live": of_live, "panel": of_panel}
