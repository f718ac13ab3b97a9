"""What rework meets in a folder besides jobs, and goes on past; errors that nobody expected."""

import contextlib
import io
import json
import os
import shutil
import signal
import subprocess
import sys
import tempfile
import time
from pathlib import Path

from harness import LAUNCHER, ROOT, Tally, called
from reworks import rows_of

from front import crew, figures, finding, results
from front.extras import Extras
from front.program import Program

EXAMPLES = ROOT / "examples"
GOOD = (EXAMPLES / "figure-5.toml").read_text()
WILD = "a\x1b[2J\udcff\n.toml"
HANGS = GOOD[: GOOD.index("[[run]]")] + '[runs]\nfile = "pipe"\n'
OLD = "of an earlier day"
NOBODY = 65534


def rework(folder, *words):
    """Standard output as bytes: names in it may be wild."""
    command = [str(LAUNCHER), "rework", str(folder), "--csv", str(folder / "out.csv"), *words]
    done = subprocess.run(command, capture_output=True, timeout=120)
    return done.returncode, done.stdout.decode(), done.stderr.decode()


def obstacles(tally, folder):
    for name in ("a.toml", "JOB.TOML", WILD, "z.toml"):
        shutil.copy(EXAMPLES / "ticket.toml", folder / name)
    os.mkfifo(folder / "fifo.toml")
    os.mkfifo(folder / "pipe")
    (folder / "hangs.toml").write_text(HANGS)
    (folder / "loop.toml").symlink_to(folder / "loop.toml")
    (folder / "gone.toml").symlink_to(folder / "nowhere")
    (folder / "mem.toml").symlink_to("/proc/self/mem")
    (folder / "folder.toml").mkdir()
    (folder / "nul.toml").write_bytes(bytes(1000))
    (folder / "deep.toml").write_text("a = " + "[" * 100_000)
    status, out, err = rework(folder, "--patience", "2")
    tally.same((status, err), (2, ""), "status and complaints")
    rows = {row["file"]: (row["outcome"], row["words"]) for row in rows_of(folder / "out.csv")}
    shown = "a?[2J??.toml"
    for name in ("a.toml", "JOB.TOML", shown, "z.toml"):
        tally.same(rows.pop(name), ("accepted", ""), name)
    for name, outcome, words in (
        ("fifo.toml", "skipped", "is a pipe, a socket or a device: expected a file"),
        ("hangs.toml", "skipped", "no answer in 2 seconds"),
        ("loop.toml", "skipped", "cannot be read: Too many levels of symbolic links"),
        ("gone.toml", "skipped", "cannot be read: No such file or directory"),
        ("mem.toml", "bad file", "cannot be read: Input/output error"),
        ("nul.toml", "bad file", "line 1: is not TOML: Invalid statement"),
        ("deep.toml", "bad file", "is not TOML: too many brackets in one another"),
    ):
        tally.same(rows.pop(name), (outcome, words), name)
        tally.holds(out, f"{folder / name}: {'skipped: ' if outcome == 'skipped' else ''}{words}\n", name)
    tally.same(rows, {}, "other rows")
    tally.check("\x1b" not in out, "a control character of a name reaches the terminal")
    left = "left out: 1 folders inside (--recursive goes into them), 1 files that are not *.toml\n"
    tally.holds(out, left, "what is left out")


def second_stop(tally, folder):
    """Ctrl-C while a file hangs: the first waits for it, the second ends at once, and the old results are there."""
    os.mkfifo(folder / "pipe")
    for end in (signal.SIGINT, signal.SIGTERM):
        stopped_by(tally, folder, end)


def stopped_by(tally, folder, end):
    (folder / "hangs.toml").write_text(HANGS)
    (folder / "out.csv").write_text(OLD)
    command = [str(LAUNCHER), "rework", str(folder), "--csv", str(folder / "out.csv"), "--force", "--patience", "300"]
    process = subprocess.Popen(command, stdout=subprocess.PIPE, stderr=subprocess.PIPE, text=True)
    # The pipe is opened for reading once the file is in hand.
    pipe = os.open(folder / "pipe", os.O_WRONLY)
    process.send_signal(end)
    time.sleep(0.5)
    tally.same(process.poll(), None, f"after one {end.name} the job in hand is waited for")
    process.send_signal(end)
    _, err = process.communicate(timeout=20)
    os.close(pipe)
    tally.same((process.returncode, err), (130, ""), "after the second")
    tally.same(((folder / "out.csv").read_text(), list(folder.glob(".*.part"))), (OLD, []), "the old results")


def unreadable(tally, folder):
    """Files and folders of somebody else."""
    inner, locked = folder / "inner", folder / "locked.toml"
    inner.mkdir()
    shutil.copy(EXAMPLES / "ticket.toml", locked)
    shutil.copy(EXAMPLES / "ticket.toml", folder / "a.toml")
    folder.chmod(0o755)
    for place in (inner, locked):
        place.chmod(0)
    with Program() as program, as_nobody():
        found = finding.find([str(folder)], True)
        row = results.worked(str(locked), program, Extras())
    why = {str(inner): "the folder cannot be read: Permission denied"}
    names = ["a.toml", "inner", "locked.toml"]
    tally.same(([Path(path).name for path in found.paths], found.skipped), (names, why), "an unreadable folder")
    tally.same((row["outcome"], row["words"]), ("bad file", "cannot be read: Permission denied"), "an unreadable file")


@contextlib.contextmanager
def as_nobody():
    """Root may read everything."""
    root = os.geteuid() == 0
    if root:
        os.seteuid(NOBODY)
    try:
        yield
    finally:
        if root:
            os.seteuid(0)


def onto_runs(tally, folder):
    """The CSV of results is no CSV of runs."""
    (folder / "out.csv").write_text("pulses\n1\n")
    shutil.copy(EXAMPLES / "figure-5.toml", folder / "other.toml")
    shared = "[every_run]\nprover_temperature = 63\nmeter_temperature = 64"
    text = GOOD[: GOOD.index("[[run]]")].replace("[every_run]", shared)
    (folder / "job.toml").write_text(text + '[runs]\nfile = "out.csv"\n')
    status, _, err = rework(folder, "--force")
    tally.same((status, (folder / "out.csv").read_text()), (2, "pulses\n1\n"), "results onto the runs of a job")
    tally.holds(err, "out.csv: --csv: is read by this command", "results onto the runs of a job")


def unexpected(tally, folder):
    """Status 3, one line, and a file that has the trace; in a worker, a row."""

    def broken(*_):
        raise KeyError("no such thing")

    kept, figures.prove = figures.prove, broken
    try:
        status, out, err = called("prove", EXAMPLES / "figure-5.toml")
    finally:
        figures.prove = kept
    tally.same((status, out, len(err.splitlines())), (3, "", 1), f"an unexpected error: {err!r}")
    tally.check(err.startswith("endakuro: unexpected KeyError: 'no such thing'; more in "), f"its words: {err!r}")
    tally.holds(Path(err.split("more in ")[-1].strip()).read_text(), "in broken", "its trace")
    Path(err.split("more in ")[-1].strip()).unlink()
    kept, results.worked = results.worked, broken
    streams, out, before = (sys.stdin, sys.stdout), io.StringIO(), signal.getsignal(signal.SIGTERM)
    try:
        sys.stdin, sys.stdout = io.StringIO('"a.toml"\n"b.toml"\n'), out
        with contextlib.redirect_stderr(io.StringIO()):
            crew.work()
    finally:
        (sys.stdin, sys.stdout), results.worked = streams, kept
        signal.signal(signal.SIGTERM, before)
    _, *rows = [json.loads(line) for line in out.getvalue().splitlines()]
    tally.same([(row["outcome"], row["unexpected"]) for row in rows], [("skipped", True)] * 2, "in a worker")
    for row in rows:
        tally.holds(row["words"], "unexpected KeyError: 'no such thing'; more in ", "in a worker")
        Path(row["words"].split("more in ")[-1]).unlink()


def reader_gone(tally, folder):
    """Lines that nobody reads any more are no reason to lose the results."""
    for number in range(60):
        shutil.copy(EXAMPLES / "refusals" / "ticket-11-readings-exchanged.toml", folder / f"{number}.toml")
    for more in ((), ("--json",)):
        command = [str(LAUNCHER), "rework", str(folder), "--csv", str(folder / "out.csv"), "--force", *more]
        process = subprocess.Popen(command, stdout=subprocess.PIPE, stderr=subprocess.DEVNULL)
        process.stdout.readline()
        process.stdout.close()
        tally.same(process.wait(60), 1, f"rework {more} whose lines nobody reads")
        tally.same(len(rows_of(folder / "out.csv")), 60, f"rework {more} whose lines nobody reads")
        (folder / "out.csv").unlink()


def tidied(tally, folder):
    """A worker that is ended comes to its own end, by which what it has half written is gone."""
    os.mkfifo(folder / "pipe")
    (folder / "hangs.toml").write_text(HANGS)
    worker = crew.Worker(Extras())
    worker.give(str(folder / "hangs.toml"))
    pipe = os.open(folder / "pipe", os.O_WRONLY)
    worker.end()
    os.close(pipe)
    tally.same(worker.process.wait(20), 1, "a worker that is ended")


def asked_again(tally, _):
    """A worker that is asked to end once more while it ends stays on its way, without a word."""
    while_it_ends = "import atexit, signal; atexit.register(signal.raise_signal, signal.SIGTERM); "
    command = [sys.executable, "-c", while_it_ends + crew.START, str(ROOT)]
    pipes = {"stdin": subprocess.PIPE, "stdout": subprocess.PIPE, "stderr": subprocess.PIPE}
    process = subprocess.Popen([*command, "{}"], **pipes)
    process.stdout.readline()
    process.terminate()
    _, err = process.communicate(timeout=20)
    tally.same((process.returncode, err), (1, b""), "a worker that is asked again")


def lost_worker(tally, folder):
    """A worker that is killed costs one job, and the others go to a new one."""
    for number in range(40):
        shutil.copy(EXAMPLES / "ticket.toml", folder / f"{number:02}.toml")
    paths = sorted(map(str, folder.glob("*.toml")))
    with crew.Crew(1, 30) as one:
        found = {}
        for path, row in one.rows(paths, lambda: False):
            if not found:
                one.workers[0].process.kill()
            found[path] = row["outcome"]
    tally.same(set(found), set(paths), "every job has a row")
    tally.same(sorted(set(found.values())), ["accepted", "skipped"], "outcomes after a worker was killed")
    tally.check(sum(each == "skipped" for each in found.values()) == 1, f"one job is skipped: {found}")


def test():
    tally = Tally("obstacles")
    parts = (obstacles, second_stop, unreadable, onto_runs, unexpected, reader_gone, tidied, asked_again, lost_worker)
    for part in parts:
        with tempfile.TemporaryDirectory() as folder:
            part(tally, Path(folder))
    return tally
