"""The version of Endakuro that every page, workbook and row of results carries."""

from hashlib import sha256

from .build import BINARY

NUMBER = "1.0"
NAME = f"Endakuro {NUMBER}"


def lines():
    """The version, and by its checksum the program that all figures come from."""
    told = f"SHA-256 {sha256(BINARY.read_bytes()).hexdigest()}" if BINARY.is_file() else "not built yet"
    return [NAME, f"line program {BINARY}", f"   {told}"]
