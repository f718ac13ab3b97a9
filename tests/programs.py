"""Running a program of the line grammar: lines in, answers out."""

import shlex
import subprocess
import sys
from pathlib import Path

LONGEST = 1_048_576
REFERENCE = [sys.executable, str(Path(__file__).parents[1] / "reference" / "endakuro.py")]


class Stopped(Exception):
    """A program that ended otherwise than at the end of its input."""


def command(text):
    """A program's command as typed, an emulator before it included."""
    return shlex.split(text)


def is_silent(line):
    """Whether a line gives no answer."""
    return len(line) <= LONGEST and (line in (b"", b"\r") or line.startswith(b"#"))


def run(program, given, seconds=600):
    """The answers of a program to the bytes given, as lines without their ends, and what stopped
    it before the end of its input: None when nothing did."""
    name = shlex.join(program)
    try:
        done = subprocess.run(program, input=given, stdout=subprocess.PIPE, timeout=seconds)
    except OSError as fault:
        return [], f"{name} does not start: {fault.strerror}"
    except subprocess.TimeoutExpired as late:
        printed, stopped = late.stdout or b"", f"{name} came to no end within {seconds} s"
    else:
        printed = done.stdout
        stopped = f"{name} ended with code {done.returncode}" if done.returncode else None
    *answers, rest = printed.split(b"\n")
    if rest and not stopped:
        stopped = f"{name} broke off within its last answer"
    return answers, stopped


def answers_of(program, given):
    """The answers of a program that must come to its end."""
    answers, stopped = run(program, given)
    if stopped:
        raise Stopped(stopped)
    return answers
