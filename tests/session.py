"""The session of docs/LINES.md: what it says is typed gets the answers that it shows.

Run: python3 tests/session.py [--program CMD]
"""

import argparse
import sys
from pathlib import Path

from programs import REFERENCE, Stopped, answers_of, command

PAGE = Path(__file__).parents[1] / "docs" / "LINES.md"
BEGIN, END, TYPED = "```session", "```", "> "


def session():
    """The lines of the session's block."""
    lines = PAGE.read_text().split("\n")
    begin = lines.index(BEGIN) + 1
    return lines[begin : lines.index(END, begin)]


def main():
    options = argparse.ArgumentParser(description="Run the session of docs/LINES.md.")
    options.add_argument("--program", type=command, default=REFERENCE)
    shown = session()
    typed = [line.removeprefix(TYPED) for line in shown if line.startswith(TYPED)]
    expected = [line for line in shown if not line.startswith(TYPED)]
    try:
        found = answers_of(options.parse_args().program, "\n".join(typed).encode())
    except Stopped as stop:
        print(f"session: stopped, {stop}")
        return 1
    told = [answer.decode("latin-1") for answer in found]
    differences = sum(a != b for a, b in zip(expected, told)) + abs(len(expected) - len(told))
    for line, a, b in zip(typed, expected, told):
        if a != b:
            print(f"{line}\n  the page {a}\n  program  {b}")
    print(f"session: {len(typed)} lines of docs/LINES.md, differences {differences}")
    return 1 if differences or not typed else 0


if __name__ == "__main__":
    sys.exit(main())
