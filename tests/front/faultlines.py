"""Every fault of a file at once, first to last, each with its line and the text there; keys that stand elsewhere; a
text that is no TOML; what is echoed of it."""

import re
import tempfile
from pathlib import Path

from harness import ROOT, Tally, called

from front import toml_places

GOOD = (ROOT / "examples" / "figure-5.toml").read_text()
# A line of the example, what stands in its place, and what is said of it behind its number.
TABLE = "at the top of the file, above the first [table]"
CHANGES = (
    ("request = 5", "requests = 5", "requests: unknown key: did you mean request?"),
    ("repeatability_limit = 0.05 # % of the smallest of five", "repeatability_limit = 0,05",
     "repeatability_limit: 0,05 has a comma: write 0.05, with a decimal point"),
    ('metal = "mild carbon"', "metal = mild carbon", '[prover], metal: expected text in quotes: "mild carbon"'),
    ("inside_diameter = 13.376 # in", "inside_diameter = 13.376 in",
     '[prover], inside_diameter: 13.376 in has a unit: expected both in quotes, "13.376 in", or the number alone'),
    ("wall_thickness = 0.312 # in", "wall_thickness = .312",
     "[prover], wall_thickness: .312 is no number of TOML: expected digits on both sides of the point"),
    ("modulus = 30_000_000 # psi", 'modulus = "30,000,000 PSI"',
     "[prover], modulus: 30,000,000 has a comma: write 30000000, without commas"),
    ("base_volume = 17.654 # bbl", "base_volume =", "[prover], base_volume: has no value"),
    ("k_factor = 1000 # pulses/bbl", "K-factor = 1000", "[meter], K-factor: unknown key: did you mean k_factor?"),
    ("prover_pressure = 80 # psi gage", "prover_press = 80",
     "[every_run], prover_press: unknown key: did you mean prover_pressure?"),
    ("meter_pressure = 62", "meter_pressure = 062",
     "[every_run], meter_pressure: 062 begins with a zero: expected the number without it"),
    ("prover_ctl = 0.9975", "prover_ctl = 1.234,5",
     "[every_run], prover_ctl: 1.234,5 has a comma: write 1234.5, with a decimal point alone"),
    ("meter_ctl = 0.9965", 'meter_ctl = "0,996"',
     "[every_run], meter_ctl: 0,996 has a comma: write 0.996, with a decimal point"),
    ("pulses = 17743", "pulse = 17743", "run 1, pulse: unknown key: did you mean pulses?"),
    ("pulses = 17744", "pulses = 17,744",
     "run 2, pulses: 17,744 has a comma: write 17744, without commas, or 17.744 where the comma is a decimal point"),
    ("prover_temperature = 63.5", "prover_temp = 63.5",
     "run 3, prover_temp: unknown key: did you mean prover_temperature?"),
    ("pulses = 17747", "pulses = 17747\ntemp = 5",
     "run 5, temp: unknown key: did you mean prover_temperature or meter_temperature?"),
)  # fmt: skip
# Keys that stand elsewhere: a line, what is put before it, and what is said of that.
MOVED = (
    ("pulses = 17747", "request = 6", f"run 5, request: stands in run 5 and belongs {TABLE}"),
    ('title = "API MPMS 12.2, Figure 5"', "request = 6",
     f"[heading], request: stands in [heading] and belongs {TABLE}"),
    ('metal = "mild carbon"', "k_factor = 3", "[prover], k_factor: stands in [prover] and belongs in [meter]"),
    ("# The source", "metal = 3", "metal: stands at the top of the file and belongs in [prover]"),
    ("k_factor = 1000", "pulses = 3",
     "[meter], pulses: stands in [meter] and belongs in [[run]] or [every_run]"),
)  # fmt: skip


def told(text, folder, command="prove"):
    path = Path(folder) / "job.toml"
    path.write_text(text)
    status, out, err = called(command, path)
    return status, out, err.replace(str(path), "job")


def all_at_once(tally, folder):
    text, expected = GOOD, []
    for old, new, _ in CHANGES:
        assert re.search(rf"^{re.escape(old)}$", text, re.MULTILINE), old
        text = re.sub(rf"^{re.escape(old)}$", new.replace("\\", r"\\"), text, count=1, flags=re.MULTILINE)
    lines = text.splitlines()
    for _, new, words in CHANGES:
        new = new.splitlines()[-1]
        expected += [f"job: line {lines.index(new) + 1}: {words}", f"   {new}"]
    tally.same(told(text, folder), (2, "", "\n".join(expected) + "\n"), "all faults at once")


def moved(tally, folder):
    base = GOOD.replace("request = 5\n", "")
    for old, new, words in MOVED:
        text = (base if new.startswith("request") else GOOD).replace(old, f"{new}\n{old}")
        status, _, err = told(text, folder)
        line = text.splitlines().index(new) + 1
        tally.same((status, err), (2, f"job: line {line}: {words}\n   {new}\n"), f"{new} elsewhere")


def no_toml(tally, folder):
    """A file that cannot be read on: what was found so far, and no faults that are none."""
    for text, words in (
        (GOOD.replace("[meter]", "[meter"), "line 20: is not TOML: Expected ']' at the end of a table declaration"),
        (GOOD.replace('"mild carbon"', '"""mild'), "is not TOML: Unterminated string"),
        (GOOD.replace("request = 5", "request 5"), "line 5: is not TOML: Expected '=' after a key in a key/value pair"),
        (GOOD.replace("[meter]", "[prover]"), "line 20: is not TOML: Cannot declare ('prover',) twice"),
    ):
        status, _, err = told(text, folder)
        tally.same((status, err.splitlines()[0]), (2, f"job: {words}"), words)


def echoed(tally, folder):
    """What goes to a terminal of a wild file: a part of a value, no control character, some faults of many."""
    for old, new in (
        ("30_000_000", "9" * 5000), ("30_000_000", "1" + "_000" * 3000), ("8.23e-6", "8." + "3" * 5000),
        ('"mild carbon"', f'"{"x" * 5000}"'), ("request", "r" * 5000), ("= 63.5", f'= "{"7" * 5000} °F"'),
        ("= 63.5", f'= "63.5 {"F" * 5000}"'), ("= 63.5", "= " + "7" * 300), ("= 63.5", f'= "warm{"m" * 900}"'),
    ):  # fmt: skip
        status, _, err = told(GOOD.replace(old, new, 1), folder)
        tally.same(status, 2, f"{new[:20]}: status")
        tally.check(max(map(len, err.splitlines())) < 300, f"{new[:20]}: a line of {max(map(len, err.splitlines()))}")
    status, _, err = told(GOOD + "[[run]]\n" * 100, folder)
    tally.same(err.splitlines()[-1], "and 260 more faults", "many faults")
    tally.check(len(err.splitlines()) < 100, "many faults are told in part")
    path = Path(folder) / "a\x1b[2J\udcff.toml"
    path.write_text("request = 5\n[[run]]\n")
    status, _, err = called("prove", path)
    tally.check(status == 2 and "\x1b" not in err and f"{folder}/a?[2J?.toml: " in err, f"a wild name: {err!r}")
    path.write_text(GOOD)
    status, out, err = called("prove", path)
    tally.check(status == 0 and "\x1b" not in out and "a?[2J?.toml" in out, f"a wild name on a page: {out[:200]!r}")


def places(tally):
    """Where keys stand, in texts of every shape that TOML allows."""
    text = 'a = 1\n# [b]\nb.c = """\n[x]\n\\" y = 1\n"""\n"d e" = [ # [f]\n  {g = 1, h = "}"},\n  {g = 2}]\n'
    text += "[[i.j]]\nk = '#'\n[[i.j]]\n[i.j.l]\nm = 1979-05-27 07:32:00\n[n]\n'o.p' = [[1], [2,\n3]]\nq = 1 # \"\n"
    expected = {
        ("a",): 1, ("b",): 3, ("b", "c"): 3, ("d e",): 7, ("d e", 1): 8, ("d e", 1, "g"): 8, ("d e", 1, "h"): 8,
        ("d e", 2): 9, ("d e", 2, "g"): 9, ("i",): 10, ("i", "j"): 10, ("i", "j", 1): 10, ("i", "j", 1, "k"): 11,
        ("i", "j", 2): 12, ("i", "j", 2, "l"): 13, ("i", "j", 2, "l", "m"): 14, ("n",): 15, ("n", "o.p"): 16,
        ("n", "o.p", 1): 16, ("n", "o.p", 1, 1): 16, ("n", "o.p", 2): 16, ("n", "o.p", 2, 1): 16,
        ("n", "o.p", 2, 2): 17, ("n", "q"): 18,
    }  # fmt: skip
    tally.same(toml_places.lines_of(text), expected, "places")


def test():
    tally = Tally("faults with their lines")
    with tempfile.TemporaryDirectory() as folder:
        for part in (all_at_once, moved, no_toml, echoed):
            part(tally, folder)
    places(tally)
    return tally
