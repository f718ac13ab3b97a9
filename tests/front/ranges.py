"""The table of ranges that refusals are explained by, against the line program: at both ends of every field a job is
not refused for it, one beyond it is, and the words name that field, its value and its range alone."""

import tempfile
import tomllib
from pathlib import Path

from harness import ROOT, Tally

from front import faults, fields, figures, jobs
from front.program import Program, Refused
from front.units import shown

ASKED = {"prove": figures.prove, "draw": figures.draw, "ticket": figures.ticket, "panel": figures.panel}
# The kind, its example, the table that holds a field, the fields, the number, the record and how it is called.
PROVER = fields.named(fields.COEFFICIENT) | fields.PIPE
OF_A_FILL = {key: field for key, field in fields.FILL.items() if key != "pass"}
PLACES = (
    ("prove", "second-five.toml", "", fields.named(fields.REQUEST), 22, 0),
    ("prove", "second-five.toml", "prover", PROVER | fields.named(fields.BASE_VOLUME), 3, 0),
    ("prove", "second-five.toml", "meter", fields.named(fields.K_FACTOR), 4, 0),
    ("prove", "second-five.toml", "", fields.named(fields.LIMIT), 4, 0),
    ("prove", "second-five.toml", "run", fields.RUN, 5, 3),
    ("prove", "interpolated.toml", "run", fields.INTERPOLATED_RUN, 5, 3),
    ("draw", "water-draw.toml", "prover", PROVER, 3, 0),
    ("draw", "water-draw.toml", "fill", OF_A_FILL, 5, 3),
    ("draw", "bidirectional-draw.toml", "prover", PROVER, 3, 0),
    ("draw", "bidirectional-draw.toml", "fill", OF_A_FILL, 5, 3),
    ("ticket", "ticket.toml", "ticket", fields.TICKET, 10, 0),
    ("panel", "panel.toml", "panel", fields.PANEL, 13, 0),
)


def text_of(values):
    """A job file of tables, numbers and texts."""
    lines = [f"{key} = {each}" for key, each in values.items() if not isinstance(each, (dict, list))]
    for key, each in values.items():
        for table in [each] if isinstance(each, dict) else each if isinstance(each, list) else []:
            lines.append(f"[{key}]" if isinstance(each, dict) else f"[[{key}]]")
            lines += [f"{name} = {value}" for name, value in table.items()]
    return "\n".join(lines) + "\n"


def example(name):
    """An example's tables, with every value as it is written."""
    values = tomllib.loads((ROOT / "examples" / name).read_text(), parse_float=str)
    values.pop("heading", None)
    for key in {"metal", "profile"} & set(values.get("prover", {})):
        values["prover"][key] = f'"{values["prover"][key]}"'
    return values


def changed(name, table, record, key, count, places):
    values = example(name)
    holder = values[table][record - 1] if record else values[table] if table else values
    if key in fields.AT_MOST:
        # An equilibrium pressure may reach its own end only where the pressure does.
        holder[fields.AT_MOST[key]] = "1500"
    holder[key] = shown(count, places, group=False)
    return text_of(values)


def refusal_of(path, kind, program):
    """A job's refusal explained, None where it is accepted."""
    job = jobs.read(str(path), kind)
    try:
        ASKED[kind](job, program)
    except Refused as refused:
        return faults.explain(job, refused.refusal, program)
    return None


def test():
    tally = Tally("ranges")
    with tempfile.TemporaryDirectory() as folder, Program() as program:
        path = Path(folder) / "job.toml"
        for kind, name, table, known, number, record in PLACES:
            for key, field in known.items():
                for count in (field.low - 1, field.low, field.high, field.high + 1):
                    if not field.fits(count):
                        continue
                    path.write_text(changed(name, table, record, key, count, field.unit.places))
                    found = refusal_of(path, kind, program)
                    where = f"{kind} {key} {field.text(count)}"
                    if field.within(count):
                        tally.check(found is None or found.number != number, f"{where}: {found and found.line}")
                        continue
                    at = f"{table} {record}: " if record else ""
                    words = (f"{at}{field.label} is {field.text(count)}, range {field.range}",)
                    told = found and (found.number, found.record, found.details)
                    tally.same(told, (number, record, words), where)
    return tally
