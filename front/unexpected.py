"""An error that nobody expected: one line, and a file that says where it came from."""

import tempfile
import traceback

from .hints import echo


def words_of(fault):
    """What is said of it. Its trace goes to a file of its own."""
    told = f"unexpected {type(fault).__name__}: {echo(fault)}"
    named = {"prefix": "endakuro-", "suffix": ".log", "delete": False, "errors": "replace"}
    try:
        with tempfile.NamedTemporaryFile("w", **named) as file:
            file.write("".join(traceback.format_exception(fault)))
    except OSError:
        return told
    return f"{told}; more in {file.name}"
