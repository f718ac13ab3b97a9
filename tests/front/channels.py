"""Channels that a transmitter tags: what a file may say of them, the program's figures on every page and in the JSON,
in rework and verify; readings that are not tagged as they were."""

import csv
import json
import random
import re
import struct
import tempfile
from fractions import Fraction
from hashlib import sha256
from pathlib import Path

from channeltexts import COLD, JOB, LOST, PLAIN_JSON, PLAIN_PAGE, SHOWN, WORDS
from harness import ROOT, Tally, called
from panels import ALONE, StandIn, Watched

from front import as_json, fields, jobs, page, pages
from front import channels as own_channels
from front import worked as works
from front.program import Program

EXAMPLES = ROOT / "examples"
BY_CHANCE = 300
UNITS = {"fahrenheit": "°F", "celsius": "°C", "pressure": "psi"}
# How a file may say the same.
SPELLED = (
    "[live]\ntemperature = { celsius = 22.5 }\npressure = { pressure = 40 }\n",
    '[live]\npressure = { pressure = 40.0 }\ntemperature = { celsius = "41B40000" }\n',
    '[live]\ntemperature = { celsius = "0x41b40000" }\npressure = 40\n',
    "[live]\npressure = 40\n\n[live.temperature]\ncelsius = 22.5\n",
    "[live.pressure]\npressure = 4e1\n[live.temperature]\ncelsius = 22.50\n",
    "[live]\ntemperature.celsius = 2_2.5\npressure.pressure = 40\n",
    "live = { temperature = { celsius = 22.5 }, pressure = { pressure = 40 } }\n",
)
# A word of a report that is changed, and what stands there instead.
CHANGES = (("celsius", "fahrenheit"), ("°C", "°F"), ("fault code 7", "fault code 8"), ('"code": 7', '"code": 8'))
CELSIUS_LINE = ["channels celsius 41b40000 pressure 42200000"]


class Lines(Watched):
    """The line program, and the whole lines that it was asked."""

    def answer(self, *words):
        told = super().answer(*words)
        self.asked[-1] = " ".join(map(str, words))
        return told


class Strange(StandIn):
    """A program that answers otherwise."""

    def answer(self, *words):
        return ["ok", "-17", "1234"] if words[0] == "channels" else super().answer(*words)


def bits_of(number):
    return struct.pack(">f", number).hex()


def number_in(bits):
    """The exact number in bits, None where there is none."""
    number = struct.unpack(">f", bytes.fromhex(bits))[0]
    return Fraction(number) if number == number and abs(number) != float("inf") else None


def nearest(number):
    """The nearest whole number, halves away from zero."""
    whole = int(abs(number) + Fraction(1, 2))
    return -whole if number < 0 else whole


def judged(kind, value, place):
    """What a channel comes to in its place, (number, count): the paper's rule, over exact numbers."""
    if kind == "fault":
        return 34, None
    factor = {("fahrenheit", "temperature"): (0, 10), ("celsius", "temperature"): (320, 18)}
    factor[("pressure", "pressure")] = (0, 1)
    if (kind, place) not in factor:
        return 35, None
    number = number_in(value)
    if number is None:
        return 12, None
    offset, times = factor[kind, place]
    count = nearest(offset + times * number)
    return (0, count) if fields.LIVE[place].within(count) else (13, None)


def answer_to(path):
    """A job's page, its page for print, its JSON and its complaints."""
    out = path.with_suffix(".html")
    status, text, err = called("live", path, "--html", out, "--force")
    other, told, _ = called("live", path, "--json")
    assert other == status
    return status, text, out.read_text(), json.loads(told), err.removeprefix(f"{path}: ")


def shown(tally, folder):
    """Readings with their rows on the page and in print, and what the JSON says of each."""
    path = folder / "job.toml"
    for temperature, pressure, rows, counts, readings in SHOWN:
        path.write_text(JOB.format(temperature, pressure))
        name = f"{temperature}, {pressure}"
        status, text, printed, told, err = answer_to(path)
        tally.same((status, err), (0, ""), name)
        for label, row in zip(("Temperature", "Pressure"), rows):
            tally.holds(text, f"\n   {label.ljust(26)}{row}\n", name)
            tally.holds(printed, f"<dt>{label}</dt><dd>{row}</dd>", name)
        tally.check(max(map(len, text.splitlines())) <= page.WIDTH, f"{name}: a line is too long")
        tally.same(len(ALONE.findall(printed)), 4, f"{name}: rows in print")
        tally.same(tuple(figure["count"] for figure in told["result"].values()), counts, name)
        tally.same(list(told["readings"].values()), list(map(dict, readings)), f"{name}: readings")
        tally.same([list(own) for own in told["readings"].values()], [list(dict(own)) for own in readings], name)


def spelled(tally, folder):
    """All ways of saying the same ask the same line, and come to the same page but for what the file is."""
    path, found = folder / "job.toml", set()
    for text in SPELLED:
        path.write_text(text)
        with Lines() as program:
            works.work(jobs.read(str(path)), program)
            tally.same(program.asked[:1], CELSIUS_LINE, text)
        status, out, err = called("live", path)
        tally.same((status, err), (0, ""), text)
        found.add(out.partition("\nREADING\n")[2])
    tally.same(len(found), 1, "ways of saying the same")
    tally.holds(min(found), "72.5 °F, from 22.5 °C (single 41b40000)", "ways of saying the same")


def plain_as_before(tally, folder):
    """A reading of two plain singles: its line, page and JSON, byte for byte; the same tagged differs in its kinds."""
    live = EXAMPLES / "live.toml"
    digest = sha256(live.read_bytes()).hexdigest()
    with Lines() as program:
        works.work(jobs.read(str(live)), program)
        expected = ["live 42928000 42200000", "panel_temperature 733", "panel_pressure 40"]
        tally.same(program.asked, expected, "plain: asked")
    where = {"file": live, "digest": digest}
    # The file's name is long, and broken where the line ends.
    text = re.sub(r"(Job file +)\S.*?(?=\n   SHA-256)", rf"\g<1>{live}", called("live", live)[1], flags=re.DOTALL)
    tally.same(text, PLAIN_PAGE.format(**where), "plain: page")
    tally.same(called("live", live, "--json")[1], PLAIN_JSON % where, "plain: JSON")
    path = folder / "job.toml"
    plain, forms = kinds_and_forms(path, "73.25", '"42200000"')
    tagged, others = kinds_and_forms(path, "{ fahrenheit = 73.25 }", '{ pressure = "42200000" }')
    tally.same((plain, tagged), ([None, None], ["fahrenheit", "pressure"]), "kinds, plain and tagged")
    tally.same([len(ALONE.findall(own[2])) for own in (forms, others)], [2, 4], "rows in print, plain and tagged")
    forms[2], others[2] = (own[2].replace("<div class=alone>", "<div>") for own in (forms, others))
    tally.same(forms, others, "the same, plain and tagged")


def kinds_and_forms(path, *sent):
    """The kinds that a reading's JSON has, and the rest of all that the reading comes to, but for the file's digest."""
    path.write_text(JOB.format(*sent))
    status, text, printed, told, err = answer_to(path)
    del told["job"]
    kinds = [own.pop("kind", None) for own in told["readings"].values()]
    return kinds, [status, *(re.sub("[0-9a-f]{64}", "", form) for form in (text, printed)), told, err]


def by_chance(tally, folder):
    """Kinds and bits by chance: what the front end tells is what the program answers, and what the rule says."""
    rng, path, met = random.Random(23), folder / "job.toml", set()
    with Program() as program:
        for number in range(BY_CHANCE):
            channels = [sent_by_chance(rng, place) for place in fields.LIVE]
            path.write_text(JOB.format(*(f'{{ {kind} = "{value}" }}' for kind, value in channels)))
            words = [word for own in channels for word in own]
            name, answer = f"by chance {number}: {' '.join(words)}", program.answer("channels", *words)
            verdicts = [judged(*own, place) for own, place in zip(channels, fields.LIVE)]
            refusal = next((own[0] for own in verdicts if own[0]), 0)
            expected = ["refused", str(refusal), "0"] if refusal else ["ok", *(str(own[1]) for own in verdicts)]
            tally.same(answer, expected, name)
            told = as_json.job(works.work(jobs.read(str(path)), program))
            if refusal:
                place = list(fields.LIVE)[0 if verdicts[0][0] else 1]
                found = (told["refusal"]["number"], told["refusal"]["details"][0]["field"])
                tally.same(found, (refusal, place), name)
            else:
                tally.same([str(own["count"]) for own in told["result"].values()], answer[1:], name)
            met.add((refusal, bool(verdicts[0][0])))
            values = [own["code"] if own["kind"] == "fault" else own["bits"] for own in told["readings"].values()]
            tally.same([str(value) for value in values], words[1::2], name)
    tally.check({(0, False), *((each, at) for each in (34, 35, 12, 13) for at in (True, False))} <= met, f"met: {met}")


def sent_by_chance(rng, place):
    usual = {"temperature": ("celsius",) * 6, "pressure": ("pressure",) * 8}[place]
    kind = rng.choice((*usual, *UNITS, "fault"))
    if kind == "fault":
        return kind, str(rng.randrange(256))
    near = {"celsius": (-30, 95), "fahrenheit": (-25, 205), "pressure": (-10, 1510)}[kind]
    quarters = bits_of(rng.randint(*(4 * end for end in near)) / 4)
    return kind, rng.choice((quarters, bits_of(rng.uniform(*near)), rng.choice(LOST + COLD), quarters))


def of_program(tally, folder):
    """The figures are the program's, whatever it answers: nothing is worked out from what was sent."""
    path = folder / "job.toml"
    path.write_text(SPELLED[0])
    worked = works.work(jobs.read(str(path)), Strange())
    text = "\n".join(page.text(pages.build(worked)))
    tally.holds(text, "Temperature               -1.7 °F, from 22.5 °C (single 41b40000)\n", "a stand-in's page")
    tally.holds(text, "Pressure                  1,234 psi, from 40 psi (single 42200000)\n", "a stand-in's page")
    told = as_json.job(worked)["result"]
    tally.same([own["count"] for own in told.values()], [-17, 1234], "a stand-in's JSON")


def ends_in_celsius(tally):
    """The range in °C that refusals and help tell is that of the table of ranges, to the nearest tenth."""
    field = fields.LIVE["temperature"]
    ends = [nearest(Fraction(end - 320, 18) * 10) for end in (field.low, field.high)]
    told = [f"{'-' * (end < 0)}{abs(end) // 10}.{abs(end) % 10}" for end in ends]
    tally.same(fields.ABOUT_IN_CELSIUS, "about {} to {} °C".format(*told), "the range in °C")
    tally.same(own_channels.UNITS, UNITS, "units")


def reworked(tally, folder):
    """A folder of tagged readings: rows, a line a refusal, pages; all known again by verify, and a changed one not."""
    month, results, reports = folder / "month", folder / "out.csv", folder / "pages"
    month.mkdir()
    own = {
        "a": ("{ celsius = 22.25 }", "{ pressure = 39.5 }"), "b": ("{ fault = 7 }", "40"),
        "c": ("{ celsius = 22.5 }", "{ fahrenheit = 70 }"), "d": ("{ celcius = 22.5 }", "40"), "e": ("73.25", "40"),
    }  # fmt: skip
    for name, sent in own.items():
        (month / f"{name}.toml").write_text(JOB.format(*sent))
    status, out, _ = called("rework", month, "--csv", results, "--reports", reports)
    tally.same(status, 2, "rework: status")
    rows = list(csv.DictReader(results.read_text("utf-8-sig").splitlines()))
    columns = ("outcome", "temperature (°F)", "pressure (psi)", "refusal", "words")
    found = [tuple(row[column] for column in columns) for row in rows]
    fault = f"refused 34: {WORDS[34]}; temperature: the transmitter sent fault code 7 in place of a reading"
    kind = "refused 35: channel of the wrong kind; pressure: the transmitter sent a temperature, 70 °F"
    kind += " (single 428c0000), where a pressure in psi belongs"
    bad = "line 2: [live], temperature, celcius: unknown key: did you mean celsius?"
    tally.same(found, [
        ("accepted", "72.1", "40", "", ""), ("refused", "", "", "34", fault), ("refused", "", "", "35", kind),
        ("bad file", "", "", "", bad), ("accepted", "73.3", "40", "", ""),
    ], "rework: rows")  # fmt: skip
    for name, words in (("b", fault), ("c", kind), ("d", bad)):
        tally.holds(out, f"{month / name}.toml: {words}\n", "rework: a line a refusal")
    tally.same(sorted(path.name for path in reports.iterdir()), ["a.html", "b.html", "c.html", "e.html"], "pages")
    for name in ("a", "b", "c", "e"):
        job, report = month / f"{name}.toml", folder / "report"
        text, told = called("live", job)[1], called("live", job, "--json")[1]
        for form in filter(None, (text, told, (reports / f"{name}.html").read_text())):
            report.write_text(form)
            tally.same(called("verify", report, job)[0], 0, f"verify {name}")
            for old, new in CHANGES:
                if old in form:
                    report.write_text(form.replace(old, new))
                    tally.same(called("verify", report, job)[0], 1, f"verify {name}, {old} changed")
        tally.same(called("verify", results, job)[0], 0, f"verify {name}: its row")


def begun(tally, folder):
    """The channels that a new file has as a note run in place of its plain numbers."""
    text = called("new", "live")[1]
    start = text.index("\n[live]")
    notes = [line.removeprefix("# ") for line in text[start:].splitlines() if line.startswith("# ") and " = {" in line]
    tally.same(notes, ["temperature = { celsius = 22.5 }", "pressure = { pressure = 40 }"], "new live: its notes")
    path = folder / "new.toml"
    path.write_text(text[:start] + "\n[live]\n" + "\n".join(notes) + "\n")
    status, out, err = called("live", path)
    tally.same((status, err), (0, ""), "new live, tagged")
    tally.holds(out, "72.5 °F, from 22.5 °C (single 41b40000)", "new live, tagged")
    for word in (*UNITS, "fault", fields.FAULT.range):
        tally.holds(text[start:], word, "new live")


def test():
    tally = Tally("channels")
    for part in (shown, spelled, plain_as_before, by_chance, of_program, reworked, begun):
        with tempfile.TemporaryDirectory() as folder:
            part(tally, Path(folder))
    ends_in_celsius(tally)
    return tally
