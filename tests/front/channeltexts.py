"""Files of live readings, plain and tagged, with what is said of each."""

JOB = "[live]\ntemperature = {}\npressure = {}\n"
# The paper's numbers that a live reading can be refused with.
WORDS = {
    12: "reading not finite", 13: "reading out of range", 34: "fault code from a transmitter",
    35: "channel of the wrong kind",
}  # fmt: skip


def single(number, bits, kind=None):
    """A reading's single as the JSON has it, its kind first where it is tagged."""
    return (("kind", kind),) * bool(kind) + (("number", number), ("bits", bits))


FORTY = single("40", "42200000")
# What a file says of both places, their rows of the page, tenths and psi, and their readings in the JSON.
SHOWN = (
    ("{ celsius = 22.5 }", "40", ("72.5 °F, from 22.5 °C (single 41b40000)", "40 psi, from 40 psi (single 42200000)"),
     (725, 40), (single("22.5", "41b40000", "celsius"), FORTY)),
    ("{ fahrenheit = 73.25 }", '{ pressure = "42200000" }',
     ("73.3 °F, from 73.25 °F (single 42928000)", "40 psi, from 40 psi (single 42200000)"),
     (733, 40), (single("73.25", "42928000", "fahrenheit"), single("40", "42200000", "pressure"))),
    ('"42928000"', "{ pressure = 39.5 }",
     ("73.3 °F, from 73.25 °F (single 42928000)", "40 psi, from 39.5 psi (single 421e0000)"),
     (733, 40), (single("73.25", "42928000"), single("39.5", "421e0000", "pressure"))),
    # Halves of a tenth of °F, above and below zero: away from zero in °F.
    ("{ celsius = 22.25 }", "40", ("72.1 °F, from 22.25 °C (single 41b20000)",), (721, 40),
     (single("22.25", "41b20000", "celsius"), FORTY)),
    ("{ celsius = -17.75 }", "40", ("0.1 °F, from -17.75 °C (single c18e0000)",), (1, 40),
     (single("-17.75", "c18e0000", "celsius"), FORTY)),
    ("{ celsius = -18.25 }", "40", ("-0.9 °F, from -18.25 °C (single c1920000)",), (-9, 40),
     (single("-18.25", "c1920000", "celsius"), FORTY)),
    ("{ celsius = -0.0 }", "{ pressure = -0.0 }",
     ("32.0 °F, from -0 °C (single 80000000)", "0 psi, from -0 psi (single 80000000)"), (320, 0),
     (single("-0", "80000000", "celsius"), single("-0", "80000000", "pressure"))),
    # Beyond the ends, as near as still comes to them.
    ("{ celsius = -28.90625 }", "{ pressure = 1500.25 }", ("-20.0 °F, from -28.90625 °C (single c1e74000)",),
     (-200, 1500), (single("-28.90625", "c1e74000", "celsius"), single("1500.25", "44bb8800", "pressure"))),
    ("{ celsius = 93.34375 }", "{ pressure = -0.25 }",
     ("200.0 °F, from 93.34375 °C (single 42bab000)", "0 psi, from -0.25 psi (single be800000)"), (2000, 0),
     (single("93.34375", "42bab000", "celsius"), single("-0.25", "be800000", "pressure"))),
    # As long as a single's number becomes.
    ('{ celsius = "80000001" }', "40", (), (320, 40),
     (single("-0." + "0" * 44 + "1" + "40129846432481707092372958328991613128026194187651577175706828388979108268586"
      "060148663818836212158203125", "80000001", "celsius"), FORTY)),
)  # fmt: skip

DEGREES = "range -20.0 to 200.0 °F to the nearest 0.1 °F"
CELSIUS = f"{DEGREES}, about -28.9 to 93.3 °C"
PSI = "range 0 to 1,500 psi to the nearest 1 psi"
SENT = "the transmitter sent"
# What stands in a place, the number that it is refused with, or 0, and the words.
FIRST = {
    "a fault code": ("{ fault = 7 }", 34, f"temperature: {SENT} fault code 7 in place of a reading"),
    "a pressure": ("{ pressure = 40 }", 35,
     f"temperature: {SENT} a pressure, 40 psi (single 42200000), where a temperature in °F or °C belongs"),
    "a pressure that is none": ('{ pressure = "ffc00001" }', 35,
     f"temperature: {SENT} a pressure, nan psi (single ffc00001), where a temperature in °F or °C belongs"),
    "no number of °C": ("{ celsius = nan }", 12, f"temperature is nan °C (single 7fc00000), {CELSIUS}"),
    "too much in °C": ("{ celsius = inf }", 12, f"temperature is infinity °C (single 7f800000), {CELSIUS}"),
    "no number of °F": ("{ fahrenheit = nan }", 12, f"temperature is nan °F (single 7fc00000), {DEGREES}"),
    "no plain number": ("nan", 12, f"temperature is nan °F (single 7fc00000), {DEGREES}"),
    "forty below": ("{ celsius = -40 }", 13, f"temperature is -40 °C (single c2200000), {CELSIUS}"),
    "next to the lower end": ("{ celsius = -28.9375 }", 13,
     f"temperature is -28.9375 °C (single c1e78000), {CELSIUS}"),
    "next to the upper end": ("{ celsius = 93.375 }", 13, f"temperature is 93.375 °C (single 42bac000), {CELSIUS}"),
    "too hot in °F": ("{ fahrenheit = 200.0625 }", 13, f"temperature is 200.0625 °F (single 43481000), {DEGREES}"),
    "°C": ("{ celsius = 22.5 }", 0, ""),
    "a plain number": ("73.25", 0, ""),
}  # fmt: skip
SECOND = {
    "a fault code": ("{ fault = 255 }", 34, f"pressure: {SENT} fault code 255 in place of a reading"),
    "°C": ("{ celsius = 22.5 }", 35,
     f"pressure: {SENT} a temperature, 22.5 °C (single 41b40000), where a pressure in psi belongs"),
    "°F that are none": ("{ fahrenheit = -inf }", 35,
     f"pressure: {SENT} a temperature, -infinity °F (single ff800000), where a pressure in psi belongs"),
    "no number": ("{ pressure = nan }", 12, f"pressure is nan psi (single 7fc00000), {PSI}"),
    "below zero": ("{ pressure = -0.5 }", 13, f"pressure is -0.5 psi (single bf000000), {PSI}"),
    "too much": ("{ pressure = 1500.5 }", 13, f"pressure is 1500.5 psi (single 44bb9000), {PSI}"),
    "psi": ("{ pressure = 40 }", 0, ""),
}  # fmt: skip
# Bits that are no numbers, and numbers that are far too large.
LOST = ("7f800000", "ff800000", "7fc00000", "7f800001", "ffffffff")
COLD = ("7f7fffff", "ff7fffff", "c2200000", "00000001", "80000000")

ONE_OF = "expected one of fahrenheit, celsius, pressure, fault"
SINGLE = "expected a number, or eight hex digits in quotes"
IN_CHANNEL = "in a channel: temperature = { celsius = .. }"
# A file and its faults.
BAD = (
    (JOB.format("{}", "40"), f"line 2: [live], temperature: {ONE_OF}, found none"),
    (JOB.format("{ celsius = 22.5, fault = 7 }", "{ pressure = 1, celsius = 2, fahrenheit = 3 }"),
     f"line 2: [live], temperature: {ONE_OF}, found celsius and fault",
     f"line 3: [live], pressure: {ONE_OF}, found fahrenheit and celsius and pressure"),
    (JOB.format("{ celcius = 22.5 }", "{ pressure = 40, note = 3 }"),
     "line 2: [live], temperature, celcius: unknown key: did you mean celsius?",
     f"line 3: [live], pressure, note: unknown key: {ONE_OF}"),
    (JOB.format("{ C = 22.5 }", "{ f = 7 }"),
     "line 2: [live], temperature, C: unknown key: did you mean celsius?",
     "line 3: [live], pressure, f: unknown key: did you mean fahrenheit or fault?"),
    ("[live]\ncelsius = 22.5\npressure = 40\n", f"line 2: [live], celsius: stands in [live] and belongs {IN_CHANNEL}"),
    ("[live]\ncelsius = 22.5\npresure = 40\n",
     f"line 2: [live], celsius: stands in [live] and belongs {IN_CHANNEL}",
     "line 3: [live], presure: unknown key: did you mean pressure?"),
    ("[live]\ncelsius = 22.5\n", "line 1: [live], pressure: missing: expected the pressure in psi, or its bits in hex",
     f"line 2: [live], celsius: stands in [live] and belongs {IN_CHANNEL}"),
    ("celsius = 22.5\n[live]\npressure = 40\n",
     f"line 1: celsius: stands at the top of the file and belongs {IN_CHANNEL}"),
    ("[live]\nc = 22.5\npressure = 40\n",
     f"line 2: [live], c: unknown key: did you mean celsius? It belongs {IN_CHANNEL}"),
    ("[live]\ntemperature = 73.25\nfault = 7\n",
     "line 3: [live], fault: stands in [live] and belongs in a channel: temperature = { fault = .. } or"
     " pressure = { fault = .. }"),
    (JOB.format("{ fault = 256 }", "{ fault = -1 }"),
     "line 2: [live], temperature, fault: 256 does not fit its place: expected 0 to 255",
     "line 3: [live], pressure, fault: -1 does not fit its place: expected 0 to 255"),
    (JOB.format("{ fault = 7.5 }", "{ fault = true }"),
     "line 2: [live], temperature, fault: 7.5 has more digits than the unit, 1: expected a whole number",
     "line 3: [live], pressure, fault: expected a number (a whole number), found true or false"),
    (JOB.format('{ fault = "seven" }', "{ fault = { code = 7 } }"),
     "line 2: [live], temperature, fault: seven is not a number: expected a whole number",
     "line 3: [live], pressure, fault: expected a number (a whole number), found a table"),
    (JOB.format("{ celsius = 22.4 }", '{ pressure = "4220" }'),
     "line 2: [live], temperature, celsius: no single holds 22.4 exactly: the nearest is"
     ' 22.3999996185302734375, "41b33333"',
     f"line 3: [live], pressure, pressure: 4220 is no single: {SINGLE}"),
    (JOB.format("{ celsius = 1e39 }", "{ pressure = { psi = 40 } }"),
     f"line 2: [live], temperature, celsius: is beyond every single: {SINGLE}",
     f"line 3: [live], pressure, pressure: {SINGLE}, found a table"),
    (JOB.format("{ celsius = true }", "[40]"), f"line 2: [live], temperature, celsius: {SINGLE}, found true or false",
     f"line 3: [live], pressure: {SINGLE}, found a list"),
    (JOB.format('"22.5 °C"', '{ celsius = "22.5 °C" }'),
     f"line 2: [live], temperature: 22.5 °C is no single: {SINGLE}; °C is written {{ celsius = 22.5 }}",
     f"line 3: [live], pressure, celsius: 22.5 °C is no single: {SINGLE}"),
    (JOB.format("{ celsius = 22,5 }", "{ pressure = .5 }"),
     "line 2: [live], temperature: 22,5 has a comma: write 22.5, with a decimal point",
     "line 3: [live], pressure: .5 is no number of TOML: expected digits on both sides of the point"),
    (JOB.format("{ celsius = }", "{ fault = 007 }"), "line 2: [live], temperature: has no value",
     "line 3: [live], pressure: 007 begins with a zero: expected the number without it"),
    (JOB.format("{ celsius = 1, celsius = 2 }", "{ pressure = 40"),
     "line 2: [live], temperature: celsius stands in it twice: expected once",
     "line 3: [live], pressure: is not TOML: Unclosed inline table"),
    (JOB.format("73.25\ntemperature = { celsius = 22.5 }", "40"),
     "line 3: temperature: stands there twice: expected once"),
    ("[live]\npressure = 40\n\n[live.temperature]\ncelsius = 22,5\n",
     "line 5: [live], temperature, celsius: 22,5 has a comma: write 22.5, with a decimal point"),
    ("[live]\npressure = 40\n\n[live.temperature]\n# note\ncelsuis = 22.5\n",
     "line 6: [live], temperature, celsuis: unknown key: did you mean celsius?"),
    ("[live]\npressure = 40\n\n[live.temperature]\n", f"line 4: [live], temperature: {ONE_OF}, found none"),
    (JOB.format("73.25", "40") + "[live.temperature]\ncelsius = 22.5\n",
     "line 4: is not TOML: Cannot overwrite a value"),
    ("[live]\npressure = { pressure = 40 }\n",
     "line 1: [live], temperature: missing: expected the temperature in °F, or its bits in hex"),
)  # fmt: skip

# What a plain reading came to before channels could be tagged.
PLAIN_PAGE = """\
LIVE READING                                                         to the nearest 0.1 °F and 1 psi
====================================================================================================
   Job file                  {file}
   SHA-256 of the job file   {digest}
   Worked by                 Endakuro 1.0

READING
   Temperature               73.3 °F, from 73.25 °F (single 42928000)
   Pressure                  40 psi, from 40 psi (single 42200000)

ON THE PANEL
   Temperature               73.3000030517578125 °F (single 4292999a)
   Pressure                  40 psi (single 42200000)
"""
PLAIN_JSON = """\
{"endakuro": "1.0", "command": "live", "outcome": "accepted", "job": {"file": "%(file)s", "sha256": "%(digest)s", \
"heading": {}}, "readings": {"temperature": {"number": "73.25", "bits": "42928000"}, "pressure": {"number": "40", \
"bits": "42200000"}}, "result": {"temperature": {"count": 733, "unit": "°F", "decimals": 1}, "pressure": {"count": 40, \
"unit": "psi", "decimals": 0}}, "panel": {"temperature": {"number": "73.3000030517578125", "bits": "4292999a"}, \
"pressure": {"number": "40", "bits": "42200000"}}}
"""
