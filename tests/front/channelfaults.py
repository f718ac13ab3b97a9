"""What is wrong with a tagged channel: each fault of the first before each of the second, in words, on the page for
print and in the JSON; what a file gets wrong, by its line."""

import tempfile
from pathlib import Path

from channels import Lines, answer_to
from channeltexts import BAD, FIRST, JOB, SECOND, WORDS
from harness import Tally, called

from front import as_json, fields, jobs, pages
from front import worked as works


def refused(tally, folder):
    """Each fault of the first channel beside each of the second, and beside none: the first's is told, and alone."""
    path = folder / "job.toml"
    with Lines() as program:
        for first, (temperature, number, words) in FIRST.items():
            for second, (pressure, other, of_second) in SECOND.items():
                expected = ("temperature", number, words) if number else ("pressure", other, of_second)
                if number or other:
                    path.write_text(JOB.format(temperature, pressure))
                    program.asked = []
                    one_refused(tally, path, program, expected, f"{first} and {second}")


def one_refused(tally, path, program, expected, name):
    place, number, words = expected
    worked = works.work(jobs.read(str(path)), program)
    asked = [line.split() for line in program.asked]
    tally.check(len(asked) == 2 and asked[0][:3] == asked[1][:3], f"{name}: asked {asked}")
    tally.same(asked[1][3:], ["pressure", "00000000"], f"{name}: asked beside a pressure of 0")
    head = f"<b>NOT ACCEPTED: refused {number}: {WORDS[number]}</b>"
    tally.holds(pages.printed(worked), f"{head}<div>{words}</div>", name)
    told = as_json.job(worked)
    tally.same(("result" in told, "panel" in told), (False, False), f"{name}: a result")
    refusal = told["refusal"]
    tally.same((refusal["number"], refusal["words"], refusal["record"]), (number, WORDS[number], 0), name)
    field = fields.LIVE[place]
    detail = {"words": words, "field": place}
    if number in (12, 13):
        ends = {"low": field.low, "high": field.high, "unit": field.unit.name, "decimals": field.unit.places}
        detail["range"] = ends
    tally.same(refusal["details"], [detail], f"{name}: details")


def faults_on_pages(tally, folder):
    """What a refused reading's complaint, its page for print and its JSON say of what was sent."""
    path = folder / "job.toml"
    for code in (0, 7, 255):
        path.write_text(JOB.format(f"{{ fault = {code} }}", "{ celsius = -40 }"))
        status, text, printed, told, err = answer_to(path)
        words = f"temperature: the transmitter sent fault code {code} in place of a reading"
        expected = (1, "", f"refused 34: {WORDS[34]}\n   {words}\n")
        tally.same((status, text, err), expected, f"fault {code}")
        tally.holds(printed, f"<dt>Temperature</dt><dd>fault code {code}</dd>", f"fault {code}")
        tally.holds(printed, "<dt>Pressure</dt><dd>-40 °C (single c2200000)</dd>", f"fault {code}")
        readings = {
            "temperature": {"kind": "fault", "code": code},
            "pressure": {"kind": "celsius", "number": "-40", "bits": "c2200000"},
        }
        tally.same(told["readings"], readings, f"fault {code}")


def bad_files(tally, folder):
    """Every fault of a file with its line; a wrong kind is none."""
    path = folder / "bad.toml"
    for text, *expected in BAD:
        path.write_text(text)
        status, out, err = called("live", path)
        lines = [line.removeprefix(f"{path}: ") for line in err.splitlines() if line.startswith(f"{path}: ")]
        tally.same((status, out, lines), (2, "", expected), repr(text))


def test():
    tally = Tally("faults of channels")
    for part in (refused, faults_on_pages, bad_files):
        with tempfile.TemporaryDirectory() as folder:
            part(tally, Path(folder))
    return tally
