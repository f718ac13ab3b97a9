"""Bad files of every kind: file, key and what was expected, and exit status 2."""

import re
import tempfile
from pathlib import Path

from harness import ROOT, Tally, called, run

GOOD = (ROOT / "examples" / "figure-5.toml").read_text()
DRAW = (ROOT / "examples" / "water-draw.toml").read_text()
# The file and the line before what is said; a fault of the whole file has no line.
FAULT = re.compile(r"^\S+: (line \d+: )?")
LIVE = "[live]\ntemperature = {}\npressure = 40\n"
PANEL = "[panel]\ntemperature = {}\npressure = {}\n"


def changed(old, new, text=GOOD):
    assert old in text, old
    return text.replace(old, new, 1)


PROFILE = 'profile = "bidirectional"\n'


def profiled(value):
    return changed("[prover]\n", f"[prover]\nprofile = {value}\n", DRAW)


# A name, the command, the file's content, what must be said behind the file's name and the line; how many faults, or 1.
CASES = (
    ("not TOML", "prove", changed("request = 5", "request = = 5"), "request: is not TOML: Invalid value"),
    ("a key twice", "prove", changed("request = 5\n", "request = 5\nrequest = 6\n"),
     "request: stands there twice: expected once"),
    ("not text", "prove", b"\xff\xfe\x00request", "is not text in UTF-8 at line 1: expected a TOML job file"),
    ("another encoding", "prove", GOOD.encode().replace("°".encode(), b"\xb0"),
     "is not text in UTF-8 at line 10: expected a TOML job file"),
    ("no closing quote", "prove", changed('"mild carbon"', '"mild carbon'),
     '[prover], metal: "mild carbon has no closing quote'),
    ("deep", "prove", "a = " + "[" * 5000, "is not TOML: "),
    ("a key of many parts", "prove", ".".join("a" * 900) + " = 1\n" + GOOD, "a: unknown key: "),
    ("immense", "prove", b"#" * 16_000_001, "is larger than any job: expected at most 16,000,000 bytes"),
    ("empty", "prove", "", "the table [meter] is missing", 4),
    ("another kind", "draw", GOOD, "is a job of the kind prove: try ./endakuro prove"),
    ("no request", "prove", changed("request = 5\n", ""),
     "request: missing: expected the request number, 1 to 4,294,967,295"),
    ("missing table", "prove", changed("[meter]\nk_factor = 1000 # pulses/bbl\n", ""), "the table [meter] is missing"),
    ("no runs", "prove", GOOD[: GOOD.index("[[run]]")], "[[run]] is missing: expected one for each run"),
    ("runs no list", "prove", GOOD[: GOOD.index("[[run]]")] + "[run]\n",
     "run: expected [[run]], one table for each run, found a table"),
    ("run no table", "prove", "run = [1]\n" + GOOD[: GOOD.index("[[run]]")],
     "run 1: expected a table, found a whole number"),
    ("table no table", "prove", "prover = 3\n" + changed(GOOD[GOOD.index("[prover]") : GOOD.index("[meter]")], ""),
     "[prover]: expected a table, found a whole number"),
    ("a table slipped", "prove", changed("[meter]", "[metre]"), "metre: unknown key: did you mean meter?"),
    ("a table in capitals", "prove", changed("[prover]", "[PROVER]"), "PROVER: unknown key: did you mean prover?"),
    ("runs slipped", "prove", GOOD.replace("[[run]]", "[[Run]]"), "Run: unknown key: did you mean run or runs?"),
    ("runs for run", "prove", GOOD.replace("[[run]]", "[[runs]]"),
     "runs: expected [[run]], one for each run, or [runs] with the name of a file"),
    ("missing key", "prove", changed("wall_thickness = 0.312 # in\n", ""),
     "[prover], wall_thickness: missing: expected the wall thickness, 0.100 to 3.000 in"),
    ("missing in a run", "prove", changed("pulses = 17746\n", ""),
     "run 3, pulses: missing: expected the pulses, 1 to 100,000,000 pulses"),
    ("key slipped", "prove", changed("prover_ctl", "prover_clt"),
     "[every_run], prover_clt: unknown key: did you mean prover_ctl?"),
    ("key slipped at the top", "prove", changed("request", "requests"), "requests: unknown key: did you mean request?"),
    ("key cut short in the wrong table", "prove", "prover_temp = 73.5\n" + GOOD,
     "prover_temp: unknown key: did you mean prover_temperature? It belongs in [[run]] or [every_run]"),
    ("key unheard of", "prove", changed("[meter]", "[meter]\nxyz = 1"),
     "[meter], xyz: unknown key: expected one of k_factor"),
    ("key slipped in a run", "prove", changed("meter_temperature = 64.5", "meter_temprature = 64.5"),
     "run 1, meter_temprature: unknown key: did you mean meter_temperature?"),
    ("too many digits", "prove", changed("= 63.5", "= 63.55"),
     "run 3, prover_temperature: 63.55 has more digits than the unit, 0.1 °F: expected at most 1 decimal, in °F"),
    ("a ten-thousandth of a pulse", "prove", changed("17743", "17743.5001"),
     "run 1, pulses: 17743.5001 has more digits than the unit, 0.001 pulse: expected at most 3 decimals, in pulses"),
    ("too many by exponent", "prove", changed("8.23e-6", "8.235e-6"),
     "[every_run], prover_compressibility: 8.235e-6 has more digits than the unit, 0.00000001 per psi"),
    ("an immense exponent", "prove", changed("30_000_000", "3e9999"), "[prover], modulus: 3e9999 has too many digits"),
    ("a more immense one", "prove", changed("30_000_000", "3e99999999"),
     "[prover], modulus: 3e99999999 has too many digits"),
    ("a key with a control character", "prove", changed("[meter]", '[meter]\n"a\\u001b[2J" = 1'),
     "[meter], a?[2J: unknown key: expected one of k_factor"),
    ("an immense number", "prove", changed("30_000_000", "9" * 60), "[prover], modulus: has too many digits"),
    ("beyond Python", "prove", changed("30_000_000", "9" * 6000),
     f"[prover], modulus: {'9' * 80} .. has too many digits"),
    ("beyond its place", "prove", changed("= 63.5", "= 4000.0"),
     "run 3, prover_temperature: 4,000.0 °F does not fit its place: expected -20.0 to 200.0 °F"),
    ("below its place", "prove", changed("= 80", "= -1"),
     "[every_run], prover_pressure: -1 psi does not fit its place: expected 0 to 1,500 psi"),
    ("not finite", "prove", changed("= 63.5", "= nan"),
     "run 3, prover_temperature: nan is not a number: expected at most 1 decimal, in °F"),
    ("another unit", "prove", changed("= 63.5", '= "17.5 °C"'),
     "run 3, prover_temperature: 17.5 °C is in °C, and only °F is taken: expected at most 1 decimal, in °F"),
    ("a unit on a plain number", "prove", changed("0.9975", '"0.9975 psi"'),
     "[every_run], prover_ctl: 0.9975 psi is not a plain number: expected at most 4 decimals"),
    ("text for a number", "prove", changed("= 63.5", '= "warm"'),
     "run 3, prover_temperature: warm is not a number: expected at most 1 decimal, in °F"),
    ("true for a number", "prove", changed("= 63.5", "= true"),
     "run 3, prover_temperature: expected a number (at most 1 decimal, in °F), found true or false"),
    ("a list for a number", "prove", changed("= 63.5", "= [63.5]"),
     "run 3, prover_temperature: expected a number (at most 1 decimal, in °F), found a list"),
    ("a date for a number", "prove", changed("= 63.5", "= 2026-01-01"),
     "run 3, prover_temperature: expected a number (at most 1 decimal, in °F), found a date or time"),
    ("metal unknown", "prove", changed("mild carbon", "bronze"),
     "[prover], metal: bronze is not known: expected one of mild carbon, 304 stainless, 316 stainless, 17-4 PH"),
    ("metal a number", "prove", changed('"mild carbon"', "304"),
     "[prover], metal: expected text in quotes, found a whole number"),
    ("no metal", "prove", changed('metal = "mild carbon"\n', ""),
     "[prover], metal: missing: expected one of mild carbon"),
    ("record too short", "prove", GOOD + '[[run]]\nrecord = "00ff"\n',
     "run 6, record: expected 32 or 48 bytes in hex, found 2"),
    ("record not hex", "prove", GOOD + '[[run]]\nrecord = "xyz"\n', "run 6, record: expected hex digits, two a byte"),
    ("record not alone", "prove", GOOD + f'[[run]]\npulses = 1\nrecord = "{"00" * 32}"\n',
     "run 6, record: expected alone: a record holds every field"),
    ("heading a list", "prove", changed('"API MPMS 12.2, Figure 5"', "[5.5]"),
     "[heading], title: expected text in quotes, a number or a date, found a list"),
    ("heading with a control character", "prove", changed('2, Figure 5"', '\\u001b[2J"'),
     "[heading], title: expected one line of text without control characters"),
    ("pass beyond a byte", "draw", changed("pass = 1", "pass = 256", DRAW),
     "fill 1, pass: 256 does not fit its place: expected 0 to 255"),
    ("a fill's key slipped", "draw", changed("ctdw", "ctwd", DRAW), "fill 1, ctwd: unknown key: did you mean ctdw?"),
    ("profile misspelt", "draw", profiled('"bi-directional"'),
     "[prover], profile: bi-directional is not known: did you mean bidirectional? Expected one of unidirectional,"),
    ("profile with a capital", "draw", profiled('"Unidirectional"'),
     "[prover], profile: Unidirectional is not known: did you mean unidirectional? Expected one of unidirectional,"),
    ("profile unheard of", "draw", profiled('"two way"'),
     "[prover], profile: two way is not known: expected one of unidirectional, bidirectional"),
    ("profile no text", "draw", profiled("2"), "[prover], profile: expected text in quotes, found a whole number"),
    ("profile without a value", "draw", profiled(""), "[prover], profile: has no value"),
    ("profile's key slipped", "draw", profiled('"bidirectional"').replace("profile", "profil"),
     "[prover], profil: unknown key: did you mean profile?"),
    ("profile above the tables", "draw", f"{PROFILE}{DRAW}",
     "profile: stands at the top of the file and belongs in [prover]"),
    ("profile in a fill", "draw", changed("pass = 1\n", f"pass = 1\n{PROFILE}", DRAW),
     "fill 1, profile: stands in fill 1 and belongs in [prover]"),
    ("profile in the heading", "draw", changed("[heading]\n", '[heading]\nprofile = "Bi-directional"\n', DRAW),
     "[heading], profile: stands in [heading] and belongs in [prover]"),
    ("profile of a proving", "prove", changed("[prover]\n", f"[prover]\n{PROFILE}"),
     "[prover], profile: stands in [prover] and belongs in [prover] of a water draw"),
    ("profile in a proving's runs", "prove", changed("[every_run]\n", f"[every_run]\n{PROFILE}"),
     "[every_run], profile: stands in [every_run] and belongs in [prover] of a water draw"),
    ("ticket without a key", "ticket", "[ticket]\nopening = 1\n",
     "[ticket], closing: missing: expected the closing reading, 0.00 to 999,999.99 bbl", 6),
    ("no single", "live", LIVE.format("73.3"),
     '[live], temperature: no single holds 73.3 exactly: the nearest is 73.3000030517578125, "4292999a"'),
    ("beyond every single", "live", LIVE.format("1e39"), "[live], temperature: is beyond every single"),
    ("bits too few", "live", LIVE.format('"4292"'),
     "[live], temperature: 4292 is no single: expected a number, or eight hex digits in quotes"),
    ("hundredths for the panel", "panel", PANEL.format("73.25", "40"),
     "[panel], temperature: 73.25 has more digits than the unit, 0.1 °F: expected at most 1 decimal, in °F"),
    ("parts of a psi for the panel", "panel", PANEL.format("73.3", "40.5"),
     "[panel], pressure: 40.5 has more digits than the unit, 1 psi: expected a whole number, in psi"),
    ("a single's bits for the panel", "panel", PANEL.format('"4292999a"', "40"),
     "[panel], temperature: 4292999a is not in °F: expected at most 1 decimal, in °F"),
    ("true for the panel", "panel", PANEL.format("73.3", "true"),
     "[panel], pressure: expected a number (a whole number, in psi), found true or false"),
    ("no number for the panel", "panel", PANEL.format("nan", "40"), "[panel], temperature: nan is not a number"),
    ("beyond the panel's line", "panel", PANEL.format("3276.8", "40"),
     "[panel], temperature: 3,276.8 °F does not fit its place: expected -20.0 to 200.0 °F"),
    ("below the panel's line", "panel", PANEL.format("73.3", "-1"),
     "[panel], pressure: -1 psi does not fit its place: expected 0 to 1,500 psi"),
    ("panel without a key", "panel", "[panel]\ntemperature = 73.3\n",
     "[panel], pressure: missing: expected the pressure, 0 to 1,500 psi"),
    ("panel without its table", "panel", "[heading]\n", "the table [panel] is missing"),
    ("a panel's key above its table", "panel", "pressure = 40\n[panel]\ntemperature = 73.3\n",
     "pressure: stands at the top of the file and belongs in [panel]"),
    ("a panel's key slipped", "panel", PANEL.format("73.3", "40").replace("pressure", "presure"),
     "[panel], presure: unknown key: did you mean pressure?"),
    ("numbers for the panel as a reading", "live", PANEL.format("73.3", "40"),
     "is a job of the kind panel: try ./endakuro panel"),
)  # fmt: skip


def test():
    tally = Tally("bad files")
    with tempfile.TemporaryDirectory() as folder:
        path = Path(folder) / "job.toml"
        for name, command, content, expected, *count in CASES:
            path.write_bytes(content if isinstance(content, bytes) else content.encode())
            status, out, err = called(command, path)
            tally.same((status, out), (2, ""), f"{name}: status and page")
            told = [FAULT.sub("", line) for line in err.splitlines() if line.startswith(f"{path}: ")]
            found = any(each.startswith(expected) for each in told)
            tally.check(found, f"{name}: expected {expected!r}, found {err!r}")
            tally.same(len(told), *count or [1], f"{name}: faults told, {err!r}")
        places = (("prove", Path(folder) / "none.toml", "No such file"), ("prove", folder, "Is a directory"))
        places += (("read", Path(folder) / "none", "No such file"), ("book", Path(folder) / "none", "No such file"))
        for command, place, expected in places:
            status, out, err = called(command, place)
            tally.same((status, out), (2, ""), f"{place}: status and page")
            tally.holds(err, f"{place}: cannot be read: {expected}", command)
        path.write_text("title = 3\n")
        status, out, err = run("rework", folder, "--csv", Path(folder) / "out.csv")
        tally.same(status, 2, "rework: status")
        tally.holds(out, "holds no job: expected [[run]], [[fill]], [ticket], [live] or [panel]", "rework")
        path.unlink()
        for place in (folder, path):
            tally.same(called("rework", place)[0], 2, f"rework of {place}")
    status, _, err = called("read", "--hex", "0g")
    tally.same((status, err), (2, "--hex: expected hex digits, two a byte, spaces allowed\n"), "read --hex")
    tally.same(run("prove")[0], 2, "no file named")
    return tally
