"""A TOML text that may have lines that are none: each is told, and the rest is read as if it had a value there."""

import re
import tomllib

from .hints import echo, without_commas

# Stands in a place whose line has been told already; no text that people write has this sign.
TOLD = "\ufdd0"
MOST_LINES = 40
AT = re.compile(r" \(at (?:line (\d+), column \d+|end of document)\)$")
ASSIGNED = re.compile(r"""\s*([A-Za-z0-9_-]+)\s*=\s*([^#]*?)\s*(?:\#.*)?""")
COMMAS = re.compile(r"[+-]?\d[\d.]*(?:,\d+)+(?:\.\d+)?")
UNIT = re.compile(r"([+-]?\d[\d.,_]*(?:[eE][+-]?\d+)?)\s*([^\d\s,].*)")
HALF = re.compile(r"[+-]?(?:\.\d+|\d+\.)")
ZEROS = re.compile(r"[+-]?0+\d+(?:\.\d+)?")
WORDS = re.compile(r"[^\W\d][\w .-]*")
# A table in one line that has one key: what is wrong with it is wrong inside.
INLINE = re.compile(r"\{([^={}]*=[^={}]*)\}")
TWICE = re.compile(r"Duplicate inline table key '(.*)'")
# Longer than Python turns into a number, and no figure.
LONG = re.compile(r"\d{4000,}")
TOO_LONG = "has too many digits"


class Written(str):
    """A TOML float as it stands in the file: nothing is lost on the way."""


def parsed(text):
    """The text as it could be read, its tables, and its lines that are no TOML, {line: (key, words)}; line 0 is the
    whole text. Tables are None where what is wrong leaves no way to read on."""
    broken, lines = {}, text.split("\n")
    while True:
        mended = "\n".join(lines)
        try:
            return mended, tomllib.loads(mended, parse_float=Written), broken
        except RecursionError:
            number, words = 0, "too many brackets in one another"
        except tomllib.TOMLDecodeError as fault:
            number, words = place_of(fault)
        except ValueError:
            # Python makes no number of that many digits, and does not tell where they stand.
            number = next((at for at, line in enumerate(lines, 1) if LONG.search(line.replace("_", ""))), 0)
            words = TOO_LONG
        line, again = lines[number - 1] if number else "", number in broken
        key = key_of(line)
        broken.setdefault(number, (key, said(line, words)))
        if again or not line.strip() or line.lstrip().startswith("[") or len(broken) > MOST_LINES:
            return mended, None, broken
        lines[number - 1] = f'{key} = "{TOLD}"' if key and not is_second(words) else ""


def is_second(words):
    """Whether tomllib complains of a key that stands there before."""
    return "overwrite" in words


def place_of(fault):
    """The line of a fault, and its words without it."""
    match = AT.search(str(fault))
    return int(match[1] or 0) if match else 0, AT.sub("", str(fault))


def key_of(line):
    match = ASSIGNED.fullmatch(line)
    return match[1] if match else ""


def said(line, words):
    """What is wrong with a line, as somebody can mend it."""
    match = ASSIGNED.fullmatch(line)
    if not match:
        return f"is not TOML: {words}"
    value = match[2]
    if is_second(words):
        return "stands there twice: expected once"
    if twice := TWICE.fullmatch(words):
        return f"{echo(twice[1])} stands in it twice: expected once"
    if inside := INLINE.fullmatch(value):
        return said(inside[1], words)
    if not value:
        return "has no value"
    if words == TOO_LONG:
        return f"{echo(value)} {TOO_LONG}"
    if COMMAS.fullmatch(value):
        return f"{echo(value)} has a comma: {echo(without_commas(value))}"
    if value[0] in "\"'" and value.count(value[0]) == 1:
        return f"{echo(value)} has no closing quote"
    if HALF.fullmatch(value):
        return f"{echo(value)} is no number of TOML: expected digits on both sides of the point"
    if ZEROS.fullmatch(value):
        return f"{echo(value)} begins with a zero: expected the number without it"
    if UNIT.fullmatch(value):
        return f'{echo(value)} has a unit: expected both in quotes, "{echo(value)}", or the number alone'
    if WORDS.fullmatch(value):
        return f'expected text in quotes: "{echo(value)}"'
    return f"is not TOML: {words}"
