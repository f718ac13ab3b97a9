"""Book sessions: from a file, through a pipe, at the keyboard."""

import subprocess
import tempfile
from pathlib import Path

from harness import LAUNCHER, Tally, at_terminal, called, run

# Shipper 0 sends nine, shipper 1 five, shipper 2 one: 01's figure.
NINE = "".join(f"request 0 {number}\n" for number in range(1, 10))
FIVE = "".join(f"request 1 {number}\n" for number in range(11, 16))
LINES = """\
request 21 of shipper 2 goes in
  shipper 0  reserve 2  ceiling 8  8 waiting: 1 2 3 4 5 6 7 8
  shipper 1  reserve 2  ceiling 8  4 waiting: 11 12 13 14
  shipper 2  reserve 2  ceiling 8  1 waiting: 21
  shipper 3  reserve 2  ceiling 8  0 waiting
  commons: 8 of 8 in use
  last served: shipper 3
"""
# A bad line and what is said of it.
SET = "expected: set R0 R1 R2 R3 T0 T1 T2 T3, four reserves and then four ceilings"
LOAD = "expected: load LAST L0 L1 L2 L3 [R0 R1 R2 R3 T0 T1 T2 T3], all eight figures or none"
BAD = (
    ("ask 0 1", "ask: expected one of request, withdraw, take, set, empty, load, book, help or quit"),
    ("request 0", "expected: request SHIPPER NUMBER"),
    ("request 0 1 2", "expected: request SHIPPER NUMBER"),
    ("take 1", "expected: take"),
    ("request 256 1", "256: expected a shipper, 0 to 3"),
    ("request -1 1", "-1: expected a shipper, 0 to 3"),
    ("request 0 4294967296", "4294967296: expected a request number, 1 to 4294967295"),
    ("request 0 ²", "²: expected a request number, 1 to 4294967295"),
    ("load 3 - - -", LOAD),
    ("load 3 - - - - 2", LOAD),
    ("load 3 - - - - 2 2 2 2", LOAD),
    ("load 3 - - - - 2 2 2 2 8 8 8", LOAD),
    ("load 3 - - - - 2 2 2 2 8 8 8 8 8", LOAD),
    ("load 3 - - - - 2 2 2 - 8 8 8 8", "-: expected a reserve, 1 to 13"),
    ("load 3 - - - - 2 2 2 2 8 8 8 256", "256: expected a ceiling, from the shipper's reserve to 16"),
    ("set", SET),
    ("set 0 5 12", SET),
    ("set 5 2 2 12 6 6", SET),
    ("set 5,2,2,2 12,6,6,6", SET),
    ("set 5 2 2 2 12 6 6 6 5", SET),
    ("set 256 2 2 2 8 8 8 8", "256: expected a reserve, 1 to 13"),
    ("set 2 2 2 2 8 8 -8 8", "-8: expected a ceiling, from the shipper's reserve to 16"),
    ("set 2 2 2 2 8 8 8 8.0", "8.0: expected a ceiling, from the shipper's reserve to 16"),
    ("load 3 1,,2 - - -", ": expected a request number, 1 to 4294967295"),
    ("load 3 " + ",".join(map(str, range(1, 18))) + " - - -", "expected at most 16 numbers in a line"),
)


def path_faults(tally):
    """All lines of a file that are no steps, at once; a byte order mark; a dash."""
    with tempfile.TemporaryDirectory() as folder:
        path = Path(folder) / "session.txt"
        path.write_text("take 1\nrequest 0 1\n# ask\nask\nquit\nask\n")
        status, out, err = called("book", path)
        told = f"{path}: line 1: expected: take\n{path}: line 4: ask: expected one of "
        tally.check(status == 2 and not out and err.startswith(told) and "line 6" not in err, f"all at once: {err!r}")
        path.write_bytes(b"\xef\xbb\xbfrequest 0 1\r\ntake\r\n")
        status, out, err = called("book", path)
        tally.same((status, err), (0, ""), "a file as a Windows editor writes it")
        tally.holds(out, "request 1 of shipper 0 is taken", "a file as a Windows editor writes it")
    for words in (["book"], ["book", "-"]):
        done = subprocess.run([LAUNCHER, *words], input=b"\xef\xbb\xbfrequest 0 1\n", capture_output=True)
        tally.same((done.returncode, done.stderr), (0, b""), f"{words} with a byte order mark")


def test():
    tally = Tally("book sessions")
    status, out, err = run("book", given=NINE + FIVE + "request 2 21\n")
    tally.same((status, err), (1, ""), "a session with refusals")
    ninth = "refused 24: ceiling reached; shipper 0 has 8 waiting, range up to its ceiling of 8\n"
    tally.holds(out, f"> request 0 9\n{ninth}", "ninth")
    fifth = "shipper 1 has 4 waiting, range up to its reserve of 2 while the commons are used up, 8 of 8\n"
    tally.holds(out, f"> request 1 15\nrefused 25: has its reserve or more and commons full; {fifth}", "fifth")
    tally.check(out.endswith(LINES), f"the four lines: {out[-200:]!r}")
    status, out, _ = run("book", given="# a note\n\nload 2 1,2 - 3 -\ntake\nempty\nbook\nquit\ntake\n")
    tally.same(status, 0, "a session without refusals")
    line = "  shipper {}  reserve 2  ceiling 8  {} waiting{}\n".format
    taken = f"> take\nrequest 1 of shipper 0 is taken\n{line(0, 1, ': 2')}{line(1, 0, '')}{line(2, 1, ': 3')}"
    tally.holds(out, taken, "take")
    lines = "".join(line(who, 0, "") for who in range(4))
    ends = f"> book\n{lines}  commons: 0 of 8 in use\n  last served: shipper 3\n"
    tally.check(out.endswith(ends), f"an empty book: {out[-200:]!r}")
    with tempfile.TemporaryDirectory() as folder:
        path = Path(folder) / "session.txt"
        for line, words in BAD:
            path.write_text(f"request 0 1\n{line}\ntake\n")
            status, out, err = called("book", path)
            # A file is checked before its first step.
            tally.same((status, out, err), (2, "", f"{path}: line 2: {words}\n"), line)
            status, out, err = called("book", given=f"request 0 1\n{line}\ntake\n")
            tally.same((status, err), (2, f"standard input: line 2: {words}\n"), f"{line}, through a pipe")
            tally.check("is taken" not in out, f"{line}: the session went on")
    done = subprocess.run([LAUNCHER, "book"], input=b"request 0 1\n\xff\xfe\x1b[2J\n", capture_output=True, cwd="/")
    said = "standard input: line 2: \ufffd\ufffd?[2J: expected one of"
    tally.check(done.returncode == 2 and done.stderr.decode().startswith(said), f"wild bytes: {done.stderr!r}")
    path_faults(tally)
    typed = "request 0 1\nrequest 0 1\nhello\nhelp\nset 5 2 2 12 6 6\ntake\nset 5 2 2 2 12 6 6 6\nquit\n"
    status, shown = at_terminal([str(LAUNCHER), "book"], typed)
    tally.same(status, 0, "status at the keyboard")
    for part in ("book> ", "request 1 of shipper 0 goes in", "refused 23: already waiting", "hello: expected one of"):
        tally.holds(shown, part, "keyboard")
    tally.holds(shown, "request 1 of shipper 0 is taken", "keyboard: after a bad line")
    tally.holds(shown, f"\n{SET}\n", "keyboard: six figures")
    tally.holds(shown, "the figures are replaced by those given\n  shipper 0  reserve 5  ceiling 12  ", "keyboard: set")
    return tally
