"""What is said of a key or a number that is nearly right, and how a text out of a file is shown."""

import difflib
import re

LONGEST = 80
# Thousands set apart by points before a decimal comma, as many countries write.
POINTED = re.compile(r"[+-]?\d{1,3}(\.\d{3})+,\d+")
THOUSANDS = re.compile(r"[+-]?[1-9]\d{0,2},\d{3}")


def plain(text):
    """A text as it may go to a terminal: a control character could do anything there."""
    return "".join(letter if letter.isprintable() else "?" for letter in text)


def echo(value):
    """A value out of a file, as it is shown: never more than a part of a line."""
    text = plain(str(value)[: LONGEST + 1])
    return text if len(text) <= LONGEST else text[:LONGEST] + " .."


def near(key, known):
    """The known keys that a key is likely to stand for: one that it begins, abbreviates, or nearly spells."""
    return shortened(key, known) or difflib.get_close_matches(plainly(key), list(known), 1, 0.5)


def shortened(key, known):
    """The known keys that a key begins or abbreviates."""
    said = plainly(key)
    for means in (begins, abbreviates, names_a_part):
        found = [each for each in known if said and means(said, each)]
        if found:
            return found
    return []


def plainly(key):
    return re.sub(r"[^a-z0-9]+", "_", key.casefold())


def begins(said, key):
    return key.startswith(said)


def abbreviates(said, key):
    """p_temp is prover_temperature."""
    said, parts = said.split("_"), key.split("_")
    return len(said) == len(parts) and all(part.startswith(word) for word, part in zip(said, parts))


def names_a_part(said, key):
    """temp is prover_temperature or meter_temperature, equilibrium_pressure that of either."""
    return len(said) > 2 and (key.endswith(f"_{said}") or any(part.startswith(said) for part in key.split("_")))


def offer(offered, known):
    return f"did you mean {' or '.join(offered)}?" if offered else f"expected one of {', '.join(known)}"


def without_commas(number):
    """How to write a number that has commas."""
    whole, pointed = number.replace(",", ""), number.replace(",", ".")
    if POINTED.fullmatch(number):
        return f"write {number.replace('.', '').replace(',', '.')}, with a decimal point alone"
    if "." in number or number.count(",") > 1:
        return f"write {whole}, without commas"
    if THOUSANDS.fullmatch(number):
        return f"write {whole}, without commas, or {pointed} where the comma is a decimal point"
    return f"write {pointed}, with a decimal point"
