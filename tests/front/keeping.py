"""book --keep: the book between sessions, whole or not at all; history and editing at the keyboard."""

import os
import pty
import subprocess
import tempfile
from pathlib import Path

from harness import LAUNCHER, Tally, called, run
from losses import small_files

UP, LEFT = "\x1b[A", "\x1b[D"
FIRST = "  shipper 0  reserve 2  ceiling 8 "


def step_in(kept):
    """The one step of a kept book, below its notes."""
    [step] = [line for line in kept.read_text().splitlines() if not line.startswith("#")]
    return step


def between_sessions(tally, folder):
    kept, other = folder / "book.txt", folder / "link"
    other.symlink_to(kept)
    status, _, err = run("book", "--keep", other, given="request 0 101\nrequest 2 7\nrequest 0 102\n")
    tally.same((status, err, other.is_symlink()), (0, "", True), "the first session")
    status, out, _ = run("book", "--keep", kept, given="take\nbook\n")
    tally.same(status, 0, "the second session")
    tally.holds(out, f"request 101 of shipper 0 is taken\n{FIRST} 1 waiting: 102\n", "the second session")
    status, out, _ = run("book", "--keep", kept, given="take\n")
    tally.holds(out, f"request 7 of shipper 2 is taken\n{FIRST} 1 waiting: 102\n", "whose turn it is is kept")
    tally.same(step_in(kept), "load 2 102 - - - 2 2 2 2 8 8 8 8", "what is kept")
    status, out, _ = run("book", kept)
    tally.same(status, 0, "a kept book is a session too")
    tally.holds(out, f"{FIRST} 1 waiting: 102\n", "a kept book is a session too")
    run("book", "--keep", kept, given="request 1 5\nask\ntake\n")
    tally.same(step_in(kept), "load 2 102 5 - - 2 2 2 2 8 8 8 8", "steps before a line that is none are kept")
    session = folder / "session.txt"
    session.write_text("request 1 6\nask\n")
    before = kept.read_bytes()
    tally.same((run("book", session, "--keep", kept)[0], kept.read_bytes()), (2, before), "a session that is not whole")
    status, out, _ = run("book", "--keep", kept, given="load 9 1 - - -\n")
    tally.same(kept.read_bytes(), before, "a book that is not sound is not kept")
    tally.holds(out, f"the book is not sound: {kept} keeps the last one that was", "a book that is not sound")


def by_agreement(tally, folder):
    """Figures are kept with the book."""
    kept = folder / "book.txt"
    tally.same(called("book", "--keep", kept, given="set 5 2 2 2 12 6 6 6\n")[0], 0, "figures set")
    tally.same(step_in(kept), "load 3 - - - - 5 2 2 2 12 6 6 6", "figures are kept")
    for given, step in (
        ("set 1 1 1 1 8 8 8 9", "load 3 - - - - 1 1 1 1 8 8 8 9"),
        ("set 2 2 2 2 8 8 8 8\nset 1 1 1 1 8 8 8 9", "load 3 - - - - 1 1 1 1 8 8 8 9"),
        ("request 3 55\nwithdraw 3 55", "load 3 - - - - 1 1 1 1 8 8 8 9"),
        ("set 5 2 2 2 12 6 6 6", "load 3 - - - - 5 2 2 2 12 6 6 6"),
    ):
        status, _, _ = called("book", "--keep", kept, given=f"{given}\n")
        tally.same((status, step_in(kept)), (0, step), f"{given!r}, kept")
    asks = "".join(f"request 0 {number}\n" for number in range(1, 12))
    status, out, _ = called("book", "--keep", kept, given=asks)
    told = "shipper 0 has 10 waiting, range up to its reserve of 5 while the commons are used up, 5 of 5\n"
    tally.holds(out, told, "the commons of kept figures")
    tally.same((status, step_in(kept)), (1, "load 3 1,2,3,4,5,6,7,8,9,10 - - - 5 2 2 2 12 6 6 6"), "kept with figures")
    before = kept.read_bytes()
    for step, number in (("set 2 2 2 2 8 8 8 8", 30), ("request 0 1", 23)):
        status, out, _ = called("book", "--keep", kept, given=f"{step}\n")
        tally.check(status == 1 and f"\nrefused {number}: " in out, f"{step}: {out!r}")
        tally.same(kept.read_bytes(), before, f"{step}: a refused step keeps nothing new")
    for figures in ("5 4 4 4 12 8 8 8", "0 2 2 2 8 8 8 8", "5 2 2 2 4 6 6 6"):
        kept.write_text(f"load 3 - - - - {figures}\n")
        status, out, err = called("book", "--keep", kept, given="set 2 2 2 2 8 8 8 8\n")
        tally.same((status, out, step_in(kept)), (2, "", f"load 3 - - - - {figures}"), f"no kept book: {figures}")
        tally.check(err.startswith(f"{kept}: --keep: holds no kept book: it is not sound: "), f"{figures}: {err!r}")
    tally.check(err.endswith(": ceiling of shipper 0 is 4, range 5 (its reserve) to 16\n"), f"what is wrong: {err!r}")


def without_figures(tally, folder):
    """A file without figures is read with those of a new book, and stays byte for byte until the book changes."""
    kept = folder / "book.txt"
    notes = b"# The book of waiting requests; ./endakuro book --keep goes on from it.\r\n# Shipper 3 is away.\r\n"
    for last, lines in ((3, "- - - -"), (1, "101,102 - 7 -"), (0, "1,2,3,4,5,6,7,8 - - -")):
        old = notes + f"load {last} {lines}".encode()
        kept.write_bytes(old)
        status, out, err = called("book", "--keep", kept, given="book\nrequest 0 0\nhelp\n")
        tally.same((status, err, kept.read_bytes()), (1, "", old), f"{lines}: nothing has changed")
        tally.same(out.count("reserve 2  ceiling 8"), 8, f"{lines}: figures of a new book")
        tally.holds(out, f"\n  last served: shipper {last}\n", lines)
        tally.same(called("book", "--keep", kept, given="load 9 - - - -\nbook\n")[0], 1, f"{lines}: a book not sound")
        tally.same(kept.read_bytes(), old, f"{lines}: a book that is not sound is not kept")
        tally.same(called("book", "--keep", kept, given="request 3 55\n")[0], 0, f"{lines}: a change")
        changed = lines[:-1] + "55"
        tally.same(step_in(kept), f"load {last} {changed} 2 2 2 2 8 8 8 8", f"{lines}: written with figures")
        tally.same(called("book", "--keep", kept, given="withdraw 3 55\n")[0], 0, f"{lines}: and back")
        tally.same(step_in(kept), f"load {last} {lines} 2 2 2 2 8 8 8 8", f"{lines}: nothing is lost")
        stays = notes.replace(b"\r\n", b"\n")
        tally.check(kept.read_bytes().startswith(stays + b"load "), f"{lines}: notes stay: {kept.read_bytes()!r}")


def left_alone(tally, folder):
    """Files that are no kept book, or cannot be written, are as they were."""
    notes, steps = folder / "notes.txt", folder / "steps.txt"
    for content in ("my notes\n", "request 0 1\n", "load 3 - - - -\nload 3 - - - -\n", "load 9 - - - -\n", "load 3\n"):
        notes.write_text(content)
        status, out, err = called("book", "--keep", notes, given="request 0 1\n")
        tally.same((status, out, notes.read_text()), (2, "", content), f"no kept book: {content!r}")
        tally.check(err.startswith(f"{notes}: --keep: "), f"no kept book: {err!r}")
    steps.write_text("request 0 1\n")
    status, _, err = called("book", steps, "--keep", steps)
    tally.same((status, steps.read_text()), (2, "request 0 1\n"), "the session's own file")
    os.mkfifo(folder / "pipe")
    for place in (folder, "-", folder / "pipe"):
        tally.same(called("book", "--keep", place, given="request 0 1\n")[0], 2, f"--keep {place}")
    kept = folder / "kept.txt"
    called("book", "--keep", kept, given="request 0 1\n")
    before = kept.read_bytes()
    full = [str(LAUNCHER), "book", "--keep", str(kept)]
    many = "".join(f"request {at % 4} {4_000_000_000 + at}\n" for at in range(60)).encode()
    # Room for one number more.
    room = len(before) + len(",4000000000")
    done = subprocess.run(full, input=many, capture_output=True, preexec_fn=lambda: small_files(room))
    tally.same((done.returncode, list(folder.glob(".*.part"))), (3, []), "a disk that is full")
    tally.same(step_in(kept), "load 3 1,4000000000 - - - 2 2 2 2 8 8 8 8", "a full disk: the last that fits")
    empty = folder / "empty.txt"
    empty.touch()
    tally.same(called("book", "--keep", empty, given="request 0 1\n")[0], 0, "an empty file is a new book")
    notes.write_text("# Mine.\n")
    tally.same(called("book", "--keep", notes, given="request 0 1\n")[0], 0, "a file of notes is a new book")
    tally.same(notes.read_text(), "# Mine.\nload 3 1 - - - 2 2 2 2 8 8 8 8\n", "notes stay")


def two_sessions(tally, folder):
    """What another session has kept since is not written over."""
    kept = folder / "kept.txt"
    command = [str(LAUNCHER), "book", "--keep", str(kept)]
    one = subprocess.Popen(command, stdin=subprocess.PIPE, stdout=subprocess.PIPE, stderr=subprocess.PIPE, text=True)
    one.stdin.write("request 0 1\n")
    one.stdin.flush()
    while "last served" not in one.stdout.readline():
        pass
    tally.same(called("book", "--keep", kept, given="request 1 2\n")[0], 0, "another session")
    now = kept.read_bytes()
    _, err = one.communicate("request 2 3\n", timeout=30)
    tally.same((one.returncode, kept.read_bytes()), (3, now), "a session that comes too late")
    tally.holds(err, "another session has changed it since; its book stays", "a session that comes too late")


def typed_one_by_one(command, lines):
    """Each line when it is asked for: what comes before that is no editing."""
    mine, theirs = pty.openpty()
    env = os.environ | {"TERM": "xterm"}
    process = subprocess.Popen(command, stdin=theirs, stdout=theirs, stderr=theirs, env=env, close_fds=True)
    os.close(theirs)
    shown = b""
    for number, line in enumerate(lines, 1):
        while shown.count(b"book> ") < number:
            shown += os.read(mine, 65536)
        os.write(mine, line.encode() + b"\r")
    while True:
        try:
            got = os.read(mine, 65536)
        except OSError:
            break
        if not got:
            break
        shown += got
    os.close(mine)
    return process.wait(30), shown.decode("utf-8", "replace").replace("\r\n", "\n")


def keyboard(tally, folder):
    """A line called back by the arrow, and one edited in its midst."""
    typed = ("request 0 1", "take", f"{UP}{UP}", f"request 3 7{LEFT}{LEFT}\x7f1", "quit")
    status, shown = typed_one_by_one([str(LAUNCHER), "book"], typed)
    tally.same(status, 0, "keyboard")
    tally.same(shown.count("request 1 of shipper 0 goes in"), 2, "a line called back")
    tally.holds(shown, "request 7 of shipper 1 goes in", "a line edited")


def test():
    tally = Tally("kept books")
    for part in (between_sessions, by_agreement, without_figures, left_alone, two_sessions, keyboard):
        with tempfile.TemporaryDirectory() as folder:
            part(tally, Path(folder))
    return tally
