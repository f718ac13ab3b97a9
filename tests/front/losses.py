"""Nothing of a user's is lost: outputs held against inputs and each other as files, written whole or not at all."""

import os
import resource
import signal
import subprocess
import tempfile
from pathlib import Path

from harness import LAUNCHER, ROOT, Tally, called, run

from front import outputs

EXAMPLES = ROOT / "examples"
JOB = (EXAMPLES / "second-five.toml").read_bytes()
RECORD = (EXAMPLES / "report-7.record").read_bytes()
OPTIONS = ("--record", "--worksheet", "--plot")
OLD = "of an earlier day"


class Place:
    """A folder with a job, and other names for files in it."""

    def __init__(self, folder):
        self.folder = Path(folder)
        self.job = self.folder / "job.toml"
        self.job.write_bytes(JOB)
        self.inner = self.folder / "inner"
        self.inner.mkdir()

    def names(self, name):
        """Ways to say a file: itself, by a link, by another name, through folders, by a linked folder."""
        path = self.folder / name
        linked, other, around = self.folder / "link", self.folder / "other", self.folder / "around"
        linked.symlink_to(path)
        around.symlink_to(self.folder)
        yield from (path, linked, self.inner / ".." / name, around / name)
        if path.exists():
            os.link(path, other)
            yield other

    @property
    def parts(self):
        return list(self.folder.rglob("*.part"))


def onto_inputs(tally, place):
    for path in place.names("job.toml"):
        for option in OPTIONS:
            for more in ((), ("--force",)):
                status, out, err = called("prove", place.job, option, path, *more)
                tally.same((status, out), (2, ""), f"{option} onto the job as {path}")
                tally.same(err, f"{path}: {option}: is read by this command: expected another file\n", f"{path}")
    status, _, _ = called("rework", place.folder, "--csv", place.job, "--force")
    tally.same(status, 2, "rework onto a job")
    given = place.job.open("rb")
    words = [str(LAUNCHER), "prove", "-", "--worksheet", str(place.job), "--force"]
    tally.same(subprocess.run(words, stdin=given, capture_output=True).returncode, 2, "onto standard input's file")
    tally.same(place.job.read_bytes(), JOB, "the job file")


def onto_each_other(tally, place):
    for path in place.names("out"):
        status, _, err = called("prove", place.job, "--plot", place.folder / "out", "--worksheet", path)
        tally.same(status, 2, f"two outputs of one name, {path}")
        tally.holds(err, "--plot: is written by --worksheet too: expected a file of its own", str(path))
    tally.check(not (place.folder / "out").exists(), "one of two outputs was written")
    tally.same(called("prove", place.job, "--plot", "-", "--record", "-")[0], 2, "both on standard output")
    with open(place.folder / "page", "wb") as page:
        words = [str(LAUNCHER), "prove", str(place.job), "--plot", str(place.folder / "page"), "--force"]
        done = subprocess.run(words, stdout=page, stderr=subprocess.PIPE, text=True)
    tally.same(done.returncode, 2, "onto the page's own file")
    tally.holds(done.stderr, "is written by standard output too", "onto the page's own file")


def onto_old(tally, place):
    old, link = place.folder / "old", place.folder / "link"
    old.write_text(OLD)
    old.chmod(0o640)
    link.symlink_to(old)
    status, out, err = called("prove", place.job, "--record", old)
    told = f"{old}: --record: is there already: --force writes over it\n"
    tally.same((status, out, err), (2, "", told), "an output that is there")
    tally.same(old.read_text(), OLD, "an output that is there")
    tally.same(called("prove", place.job, "--record", link, "--force")[0], 0, "--force")
    tally.same((old.read_bytes(), link.is_symlink()), (RECORD, True), "--force through a link")
    tally.same(old.stat().st_mode & 0o777, 0o640, "rights of an output that was there")
    status, _, err = called("prove", place.job, "--record", place.inner, "--force")
    tally.same((status, err), (2, f"{place.inner}: --record: is a folder: expected a file\n"), "a folder")
    pipe = place.folder / "pipe"
    os.mkfifo(pipe)
    with subprocess.Popen(["cat", pipe], stdout=subprocess.PIPE) as reader:
        tally.same(called("prove", place.job, "--record", pipe)[0], 0, "a pipe needs no force")
        tally.check(pipe.is_fifo(), "a pipe has become a file")
        if not pipe.is_fifo():
            reader.kill()
        tally.same(reader.stdout.read(), RECORD, "what goes through a pipe")


def refused(tally, place):
    for name in ("prove-05-too-hot.toml", "prove-09-runs-drift.toml"):
        old = place.folder / "old"
        old.write_text(OLD)
        job = EXAMPLES / "refusals" / name
        status, _, err = called("prove", job, "--record", old, "--force")
        tally.same((status, old.read_text()), (1, OLD), f"{name}: the record that was there")
        told = f"{old}: not written: the record there is of an earlier job"
        tally.same(err.splitlines()[-1], told, f"{name}: words")
        old.unlink()
        status, _, err = called("prove", job, "--record", old)
        tally.same((status, old.exists(), "earlier" in err), (1, False, False), f"{name}: no record there")


def small_files(most=1000):
    resource.setrlimit(resource.RLIMIT_FSIZE, (most, most))
    signal.signal(signal.SIGXFSZ, signal.SIG_IGN)


def cut_short(tally, place):
    """A limit on a file's size, as a full disk: the worksheet does not fit."""
    old = place.folder / "old.csv"
    for command, job, option in (("prove", place.job, "--worksheet"), ("rework", place.folder, "--csv")):
        old.write_text(OLD)
        for number in range(30):
            (place.folder / f"{number}.toml").write_bytes(JOB)
        words = [str(LAUNCHER), command, str(job), option, str(old), "--force"]
        done = subprocess.run(words, capture_output=True, text=True, preexec_fn=small_files)
        tally.same((done.returncode, old.read_text()), (3, OLD), f"{command}: a file that does not fit")
        tally.same(done.stderr, f"{old}: cannot be written: File too large\n", f"{command}: a file that does not fit")
        tally.same(place.parts, [], f"{command}: what is left behind")


def without_kit(tally, place):
    old = place.folder / "old.csv"
    old.write_text(OLD)
    env = os.environ | {"RATTLE_HOME": "/nowhere"}
    for words in (("rework", place.folder, "--csv", old), ("prove", place.job, "--worksheet", old)):
        status, out, _ = run(*words, "--force", env=env)
        tally.same((status, out, old.read_text(), place.parts), (3, "", OLD, []), f"{words[0]} without the kit")


def standard(tally, place):
    words = [str(LAUNCHER), "prove", "-", "--record", "-"]
    done = subprocess.run(words, input=JOB, capture_output=True)
    tally.same((done.returncode, done.stdout, done.stderr), (0, RECORD, b""), "from standard input to standard output")
    status, out, _ = run("ticket", "-", given=(EXAMPLES / "ticket.toml").read_text())
    tally.same(status, 0, "a ticket from standard input")
    tally.holds(out, "Job file                  standard input", "a ticket from standard input")
    status, out, err = run("ticket", "-", given="[ticket]\nopening = 1\n")
    tally.check(status == 2 and err.startswith("standard input: line 1: [ticket], closing"), f"a bad one: {err!r}")
    told = "standard input: is read once: expected a file for the report or for the job\n"
    tally.same(run("verify", "-", "-", given=JOB.decode()), (2, "", told), "standard input twice")
    page = run("ticket", EXAMPLES / "ticket.toml")[1]
    status, out, _ = run("verify", "-", EXAMPLES / "ticket.toml", given=page)
    tally.check(status == 0 and out.startswith("standard input: is that job's"), f"a page from standard input: {out!r}")
    done = subprocess.run([str(LAUNCHER), "read", "-"], input=RECORD, capture_output=True)
    tally.check(done.returncode == 0 and b"1.0002" in done.stdout, f"a record from standard input: {done.stderr!r}")


def streams(tally, place):
    """Standard streams that are full or closed, and a command line that would speak to the terminal."""
    job = f"{LAUNCHER} prove {place.job}"
    for command, expected, words in (
        (f"{job} > /dev/full", 3, "output: cannot be written: No space left on device\n"),
        (f"{job} --record - > /dev/full", 3, "standard output: cannot be written: No space left on device\n"),
        (f"{LAUNCHER} --version > /dev/full", 3, "output: cannot be written: No space left on device\n"),
        (f"{job} --record - >&-", 3, "standard output: cannot be written: it is closed\n"),
        (f"{LAUNCHER} prove - <&-", 2, "standard input: is closed: expected a file there\n"),
        (f"{LAUNCHER} read - <&-", 2, "standard input: is closed: expected a file there\n"),
    ):
        done = subprocess.run(command, shell=True, capture_output=True, text=True)
        tally.same((done.returncode, done.stderr), (expected, words), command)
    status, _, err = run("prove", place.job, "b\x1b[2J" + "b" * 5000)
    tally.check(status == 2 and "\x1b" not in err and len(err) < 2000, f"a wild command line: {err[-200:]!r}")


def meanwhile(tally, place):
    """A file that comes into being while an output is written is left as it is."""
    path = place.folder / "out"
    try:
        with outputs.opened(str(path)) as file:
            file.write(b"mine")
            path.write_text(OLD)
        tally.check(False, "a file that came meanwhile was written over")
    except outputs.NotWritten as told:
        tally.same(str(told), f"{path}: cannot be written: a file has come there meanwhile", "words")
    tally.same((path.read_text(), place.parts), (OLD, []), "a file that came meanwhile")


def test():
    tally = Tally("nothing lost")
    parts = (onto_inputs, onto_each_other, onto_old, refused, cut_short, without_kit, standard, streams, meanwhile)
    for part in parts:
        with tempfile.TemporaryDirectory() as folder:
            part(tally, Place(folder))
    return tally
