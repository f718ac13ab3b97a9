"""Bidirectional provers: where a file says its profile, round trips as the program tells them, the first three that
agree and the first pass used, what is refused and in which words; and that a unidirectional draw is what it was."""

import csv
import json
import shutil
import tempfile
import tomllib
from pathlib import Path

import office
from harness import ROOT, Tally, called
from panels import Watched
from reports import tables_after, value

from front import as_json, draw_worksheet, jobs, page, pages
from front import worked as works
from front.program import Program
from front.units import shown

EXAMPLES = ROOT / "examples"
PAIRED, SINGLE = EXAMPLES / "bidirectional-draw.toml", EXAMPLES / "water-draw.toml"
HEAD = """\
[prover]
profile = "bidirectional"
metal = "316 stainless"
inside_diameter = 10.020
wall_thickness = 0.365
modulus = 28_000_000
[every_fill]
certified_volume = 11550.00
scale_reading = 0.00
prover_temperature = 70.0
measure_temperature = 70.5
measure_coefficient = 0.0000265
ctdw = 1.000060
pressure = 50
"""
TAKES = "a bidirectional draw takes an even number, 6 to 20"
# Scale readings of the out pass and of the back pass of each trip, and the first pass used. 0.02 % of a round trip is
# 4.62 in³: a trip of 4.00 in³ more agrees, one of 6.00 does not, and it is the trip that counts, not its passes.
DRAWS = (
    (((0, 0), (2, 2), (2, 2)), 1),
    (((40, -40), (-40, 42), (0, 4)), 1),
    (((0, 6), (0, 0), (4, 0), (0, 4)), 3),
    (((9, 9), (0, 6), (0, 0), (1, 1), (-1, -1)), 5),
    (((0, 0), (3, 3)) * 3 + ((9, 0), (0, 0), (1, 1), (2, 0)), 15),
    (((0, 0), (3, 3), (6, 6)), None),
    (((0, 0), (9, 0), (0, 0), (0, 9), (5, 5)), None),
)


def fills(numbers, said=lambda at: ""):
    return "".join(f"[[fill]]\npass = {number}\n{said(at)}" for at, number in enumerate(numbers))


def draw_text(trips):
    scales = [scale for trip in trips for scale in trip]
    return HEAD + fills(range(1, len(scales) + 1), lambda at: f"scale_reading = {scales[at]}.00\n")


def trips_of(told):
    return [own["volume"]["count"] for own in told["round_trips"]]


def asked(tally):
    """A bidirectional draw is never worked as the other, nor the other as it."""
    for path, wanted, others in (
        (PAIRED, {"bidirectional", "trips", "passes"}, {"draw"}),
        (SINGLE, {"draw", "passes"}, {"bidirectional", "trips"}),
    ):
        with Watched() as program:
            works.work(jobs.read(str(path)), program)
            found = set(program.asked)
        tally.same((found & others, wanted - found), (set(), set()), f"{path.name}: asked")


class Otherwise(Program):
    """Round trips that are no sums of their passes: what is shown must be what is told."""

    def answer(self, *words):
        told = super().answer(*words)
        return [*told[:2], *(str(int(volume) + 7) for volume in told[2:])] if words[0] == "trips" else told


def as_told(tally):
    with Otherwise() as program:
        worked = works.work(jobs.read(str(PAIRED)), program)
    expected = [4238695 + 7, 4239076 + 7, 4238985 + 7]
    lines = page.text(pages.build(worked))
    [table] = tables_after(lines, "D. ROUND TRIPS")
    tally.same([row[-1] for row in table["rows"]], [shown(each, 2) for each in expected], "a page of other round trips")
    tally.same(trips_of(as_json.job(worked)), expected, "a JSON of other round trips")
    sheet = draw_worksheet.build(worked)
    tally.same(sheet.rows[sheet.places["told_trips"]][3:], expected, "a worksheet of other round trips")


def counts(tally, path):
    """Counts of passes: odd ones are told as odd, those outside as outside, always of the whole draw."""
    for count in (1, 2, 4, 5, 6, 7, 8, 13, 19, 20, 21, 22, 60):
        path.write_text(HEAD + fills([*range(1, count + 1), *[count] * (3 - count)]))
        status, out, err = called("draw", path)
        name = f"{count} passes"
        if count % 2 == 0 and 6 <= count <= 20:
            tally.same((status, err), (0, ""), name)
            continue
        own, beyond = "1 pass" if count == 1 else name, "fewer than 6" if count < 6 else "more than 20"
        words = f"{own}, {beyond if not 6 <= count <= 20 else 'an odd number'}: {TAKES}"
        head = "refused 1: records not whole, or too few or many"
        tally.same((status, out, err), (1, "", f"{path}: {head}\n   {words}\n"), name)
        refusal = json.loads(called("draw", path, "--json")[1])["refusal"]
        [detail] = refusal["details"]
        bounds = {"low": 6, "high": 20, "unit": "", "decimals": 0} if not 6 <= count <= 20 else None
        found = (refusal["record"], detail["field"], detail["value"]["count"], detail.get("range"))
        tally.same(found, (0, "passes", count, bounds), f"{name}: JSON")
    for count in (2, 61):
        path.write_text(HEAD + fills([min(6, 1 + at) for at in range(count)]))
        tally.holds(called("draw", path)[2], f"   fills: {count}, range 3 to 60\n", f"{count} fills")


def refused_page(tally, path):
    """A draw that is refused before it has figures still has its page, with its profile and no round trips."""
    out = path.with_suffix(".html")
    called("draw", EXAMPLES / "refusals" / "bidirectional-01-odd-passes.toml", "--html", out)
    for words in ("NOT ACCEPTED: refused 1: ", f"7 passes, an odd number: {TAKES}<", ">bidirectional pipe prover, "):
        tally.holds(out.read_text(), words, "a refused draw's page")
    tally.check("ROUND TRIPS" not in out.read_text(), "a refused draw's page has round trips")


def order(tally, path):
    """The count of passes is judged after every record and before any group."""
    unnamed = 'record = "50a01100 0000 bc02 c102 0901 7c420f00 07 07 3200 000000000000000000000000"\n'
    for said, expected in (
        (lambda at: "ctdw = 1.5\n" if at == 6 else "", "refused 5: record field out of range\n   fill 7: CTDW"),
        (lambda at: f"scale_reading = {3 * at}.00\n", "refused 1: "),
    ):
        path.write_text(HEAD + fills(range(1, 8), said))
        tally.holds(called("draw", path)[2], expected, "an odd count")
    path.write_text(HEAD + fills(range(1, 7)) + f"[[fill]]\n{unnamed}")
    tally.holds(called("draw", path)[2], "refused 2: an unnamed byte is not zero\n   fill 7: ", "an odd count")
    path.write_text(HEAD + fills([1, 2, 3, 4, 6]))
    tally.holds(called("draw", path)[2], "refused 6: ", "an odd count")


def first_three(tally, folder):
    """The first three round trips in a row that agree, wherever they begin; of none the three that lie nearest."""
    sheets = []
    with Program() as program:
        for number, (trips, first) in enumerate(DRAWS):
            path, name = folder / f"draw{number}.toml", f"draw {number}"
            path.write_text(draw_text(trips))
            worked = works.work(jobs.read(str(path)), program)
            told, lines = as_json.job(worked), page.text(pages.build(worked))
            volumes = trips_of(told)
            groups = [volumes[at : at + 3] for at in range(len(volumes) - 2)]
            spans = [max(group) - min(group) for group in groups]
            meets = [span * 10_000 <= 2 * min(group) for span, group in zip(spans, groups)]
            at = meets.index(True) if any(meets) else spans.index(min(spans))
            tally.same(2 * at + 1 if any(meets) else None, first, f"{name}: first pass used, by this test")
            tally.same(told.get("result", {}).get("first_pass"), first, f"{name}: first pass used")
            tally.same((told["group"]["first"], told["group"]["last"]), (at + 1, at + 3), f"{name}: group")
            marks = ["*" in row for row in tables_after(lines, "D. ROUND TRIPS")[0]["rows"]]
            used = [bool(first) and at <= place < at + 3 for place in range(len(volumes))]
            tally.same(marks, used, f"{name}: marks")
            if first:
                told_first = f"{at + 1} to {at + 3} of {len(volumes)}, first pass used {first}: "
                tally.check(value(lines, "Accepted round trips").startswith(told_first), f"{name}: {told_first}")
            else:
                best = f"round trips {at + 1} to {at + 3}"
                tally.check(value(lines, "Best three").startswith(f"{best} of {len(volumes)}: "), f"{name}: {best}")
                tally.check(any(line.startswith(f"   best three: {best}, ") for line in lines[:6]), f"{name}: head")
                words = f"round trips {' '.join(shown(own, 2) for own in volumes)} in³: no three in a row"
                tally.holds(" ".join(" ".join(lines[:6]).split()), words, f"{name}: head")
            sheet = draw_worksheet.build(worked)
            path.with_suffix(".csv").write_bytes(sheet.octets)
            sheets.append((path.with_suffix(".csv"), sheet, first, volumes))
    for (path, sheet, first, volumes), rows in zip(sheets, office.recalculated([own[0] for own in sheets], folder)):
        tally.same(sheet.found(rows, "first"), str(first or "none"), f"{path.name}: first pass used")
        found = [sheet.found(rows, "trip", at) for at in range(len(volumes))]
        tally.same((found, sheet.found(rows, "agree")), ([*map(str, volumes)], "yes"), f"{path.name}: round trips")


def pressures(tally, path):
    """The passes of a pair at two pressures: each has its own CPS and CPL."""
    path.write_text(HEAD + fills(range(1, 7), lambda at: f"pressure = {120 if at % 2 else 50}\n"))
    status, out, err = called("draw", path)
    tally.same((status, err), (0, ""), "two pressures")
    [table] = tables_after(out.splitlines(), "C. PASSES")
    found = [(row[1], row[2], row[4], row[5]) for row in table["rows"]]
    expected = [("out", "50", "1.000049", "1.000160"), ("back", "120", "1.000118", "1.000384")] * 3
    tally.same(found, expected, "two pressures: CPS and CPL")
    told = json.loads(called("draw", path, "--json")[1])
    passes = [own["volume"]["count"] for own in told["passes"]]
    tally.same(passes, [1154843, 1154504] * 3, "two pressures: passes")
    tally.same(trips_of(told), [1154843 + 1154504] * 3, "two pressures: round trips")


def same_said(tally, path):
    """A file that says unidirectional is answered as one that does not say it; only its SHA-256 is another."""
    text, forms = SINGLE.read_text(), []
    assert "[prover]\n" in text
    for own in (text, text.replace("[prover]\n", '[prover]\nprofile = "unidirectional"\n')):
        path.write_text(own)
        digest = jobs.read(str(path)).digest
        told = [called("draw", path, *words)[1] for words in ((), ("--json",), ("--html", "-"), ("--worksheet", "-"))]
        forms.append([form.replace(digest, "") for form in told])
    for unsaid, said in zip(*forms):
        tally.check(unsaid and said == unsaid, f"unidirectional, said: {said[:40]!r}")


def free_heading(tally, path):
    """Under [heading] a profile is free, as every key there, unless the draw would be worked as what it is not."""
    single, paired = SINGLE.read_text(), PAIRED.read_text()
    more = "bidirectional, out passes alone"
    for text, said in ((single, "unidirectional"), (single, "A"), (single, more), (paired, "bidirectional")):
        path.write_text(text.replace("[heading]\n", f'[heading]\nprofile = "{said}"\n'))
        status, out, err = called("draw", path)
        tally.same((status, err), (0, ""), f"profile {said} in a heading")
        tally.holds(out, f"   Profile                   {said}\n", f"profile {said} in a heading")


def from_csv(tally, path):
    """Fills from a CSV make the same draw."""
    values = tomllib.loads(PAIRED.read_text(), parse_float=str)
    listed = [values["every_fill"] | fill for fill in values["fill"]]
    rows = [",".join(listed[0]), *(",".join(map(str, fill.values())) for fill in listed)]
    path.with_name("fills.csv").write_text("\n".join(rows))
    head = PAIRED.read_text()
    path.write_text(head[: head.index("[every_fill]")] + '[fills]\nfile = "fills.csv"\n')
    own, other = (json.loads(called("draw", job, "--json")[1]) for job in (PAIRED, path))
    for key in ("settings", "round_trips", "group", "result"):
        tally.same(other[key], own[key], f"fills from a CSV: {key}")


def without(told, *keys):
    """A JSON without some keys of its settings, of its result or of itself."""
    made = {key: each for key, each in told.items() if key not in keys}
    for part in {"settings", "result"} & set(made):
        made[part] = {key: each for key, each in made[part].items() if key not in keys}
    return made


def earlier_json(tally, path):
    """A draw's JSON of before, without the profile and the first pass, is the job's still; a changed one is not. A
    bidirectional draw has no JSON of before."""
    new = ("profile", "first_pass")
    single, drift = (SINGLE, EXAMPLES / "refusals" / "draw-09-passes-drift.toml")
    for job, keys, expected in (
        (single, new, 0), (single, ("first_pass",), 0), (drift, new, 0), (single, (), 0), (PAIRED, (), 0),
        (single, ("in_barrels",), 1), (drift, ("group",), 1), (PAIRED, new, 1), (PAIRED, ("profile",), 1),
        (PAIRED, ("first_pass",), 1), (PAIRED, ("round_trips",), 1),
    ):  # fmt: skip
        told = json.loads(called("draw", job, "--json")[1])
        path.write_text(json.dumps(without(told, *keys)))
        tally.same(called("verify", path, job)[0], expected, f"{job.name} without {keys}")
    for job in (single, PAIRED):
        text = called("draw", job, "--json")[1]
        for old, changed in (
            ('"first_pass": 1', '"first_pass": 3'), ('directional"', 'directional "'), ('"first": 1', '"first": 2'),
            ('"trip": 2', '"trip": 3'), ('"out": 3', '"out": 5'), ('"count": 4239076', '"count": 4239077'),
        ):  # fmt: skip
            if old in text:
                path.write_text(text.replace(old, changed))
                tally.same(called("verify", path, job)[0], 1, f"{job.name}: {changed}")
        other = {single: '"profile": "bidirectional"', PAIRED: '"profile": "unidirectional"'}[job]
        path.write_text(text.replace(f'"profile": "{jobs.read(str(job)).profile.name}"', other))
        tally.same(called("verify", path, job)[0], 1, f"{job.name}: {other}")


def both_kinds(tally, folder):
    """The same fills by both profiles in one folder: two rows, each the job's own, and a line for the refusal."""
    text = PAIRED.read_text()
    said = 'profile = "bidirectional" # odd passes go out, even ones come back\n'
    assert said in text
    (folder / "out-and-back.toml").write_text(text)
    (folder / "one-way.toml").write_text(text.replace(said, ""))
    (folder / "later.toml").write_text(draw_text(DRAWS[3][0]))
    shutil.copy(SINGLE, folder)
    results = folder / "results.csv"
    status, out, _ = called("rework", folder, "--csv", results)
    with open(results, newline="", encoding="utf-8-sig") as file:
        rows = {row["file"]: row for row in csv.DictReader(file)}
    columns = ("job", "outcome", "base volume (in³)", "first used", "out of", "refusal")
    found = {name: tuple(row[column] for column in columns) for name, row in rows.items()}
    expected = {
        "out-and-back.toml": ("draw", "accepted", "42389.19", "1", "6", ""),
        "one-way.toml": ("draw", "refused", "", "", "", "9"),
        "later.toml": ("draw", "accepted", "23096.86", "5", "10", ""),
        "water-draw.toml": ("draw", "accepted", "21181.32", "1", "3", ""),
    }
    tally.same((status, found), (1, expected), "both profiles in one folder")
    tally.holds(out, f"{folder / 'one-way.toml'}: refused 9: no qualifying group; passes 21,179.67", "a line")
    for name in expected:
        tally.same(called("verify", results, folder / name)[0], 0, f"{name}: its row")
    results.write_text(results.read_text("utf-8-sig").replace("42389.19", "42389.20"), "utf-8-sig")
    tally.same(called("verify", results, folder / "out-and-back.toml")[0], 1, "a changed row")


def test():
    tally = Tally("round trips")
    asked(tally)
    as_told(tally)
    for part in (counts, refused_page, order, pressures, same_said, free_heading, from_csv, earlier_json):
        with tempfile.TemporaryDirectory() as folder:
            part(tally, Path(folder) / "job.toml")
    for part in (first_three, both_kinds):
        with tempfile.TemporaryDirectory() as folder:
            part(tally, Path(folder))
    return tally
