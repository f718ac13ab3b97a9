"""The whole logs of wrong programs. `rt ci` tries each edit of crates/*/must-fail and shows one line of what the prover said; this tries
each once more, as `rt ci` does, over the libraries that it has left in crates/*/out, and gives all that was said.

A check of the crate as it stands comes first, and each edit is tried over what that proved; what is not refused there is tried from nothing.
A log is kept on this machine under a sum of all that the prover read: the crate, the libraries as they were built, the prover and the edit.
Where nothing of these has changed, it is not made again.
"""

import contextlib
import hashlib
import json
import os
import pathlib
import shutil
import sys
import tempfile
import threading
import time
from concurrent.futures import ThreadPoolExecutor

import kit

STORE = pathlib.Path(os.environ.get("XDG_CACHE_HOME") or pathlib.Path.home() / ".cache") / "endakuro" / "waves"
UNUSED_DAYS = 30
# What a check over kept work takes of the memory of one from nothing.
OVER = 0.7
# The check says so in its last line, with this status; every other status is no verdict, or a proof.
REFUSED = 1


def edited(crate, pairs):
    """The texts of the files that the pairs change, by their path in the crate, or why they cannot be."""
    texts = {}
    for path, old, new in pairs:
        if path not in texts:
            if not path or not (crate / path).is_file():
                return None, f"there is no file {path}"
            texts[path] = (crate / path).read_text()
        found = texts[path].count(old) if old else 0
        if found != 1:
            return None, f"'{old}' stands in {path} {found} times"
        texts[path] = texts[path].replace(old, new)
    return texts, None


class Lanes:
    """As many checks at once as there are processors and as memory holds."""

    def __init__(self):
        number = os.environ.get("RT_JOBS", "")
        self.free = int(number) if number.isdigit() and number != "0" else len(os.sched_getaffinity(0))
        self.memory, self.turn, self.running = 0.85 * available(), threading.Condition(), 0

    @contextlib.contextmanager
    def one(self, need):
        with self.turn:
            self.turn.wait_for(lambda: self.free and (need <= self.memory or not self.running))
            self.free, self.memory, self.running = self.free - 1, self.memory - need, self.running + 1
        try:
            yield
        finally:
            with self.turn:
                self.free, self.memory, self.running = self.free + 1, self.memory + need, self.running - 1
                self.turn.notify_all()


def available():
    for line in pathlib.Path("/proc/meminfo").read_text().splitlines():
        if line.startswith("MemAvailable:"):
            return 1024 * int(line.split()[1])
    return 0


def lines_of(folder, pattern):
    return sum(path.read_bytes().count(b"\n") for part in kit.PARTS for path in (folder / part).rglob(pattern))


def need_of(root, name):
    """The most memory that a check of the crate is likely to take, in bytes, as `rt ci` reckons it."""
    folder = root / "crates" / name
    beneath = sum(lines_of(root / "crates" / it, "*.rt") for it in kit.below(kit.listed(root), name))
    return 1_000_000_000 + 1_000_000 * lines_of(folder, "*.rt") + 200_000 * lines_of(folder, "*.antt") + 80_000 * beneath


def sum_of(root, name):
    """A sum of all that a check of the crate reads: its own files, and the libraries below it with the prover that built them."""
    crates, folder = kit.listed(root), root / "crates" / name
    told = hashlib.sha256(repr((name, crates[name], (kit.home() / "KIT-ID").read_bytes(), (kit.home() / "WHAT").read_bytes())).encode())
    for part in kit.PARTS:
        for path in sorted((folder / part).rglob("*")):
            if path.is_file():
                told.update(repr((str(path.relative_to(folder)), path.read_bytes())).encode())
    for it in kit.below(crates, name):
        # a library's format holds the sum of its files, and the build of the prover
        told.update((kit.library(root, it) / "format").read_bytes())
    return told.hexdigest()


def kept(key):
    try:
        found = json.loads((STORE / key).read_text())
        os.utime(STORE / key)
        return found["status"], found["said"]
    except (OSError, ValueError, KeyError):
        return None


def keep(key, status, said):
    with contextlib.suppress(OSError):
        STORE.mkdir(parents=True, exist_ok=True)
        for path in STORE.iterdir():
            if path.stat().st_mtime < time.time() - UNUSED_DAYS * 86400:
                path.unlink(missing_ok=True)
        with tempfile.NamedTemporaryFile("w", dir=STORE, prefix="new-", delete=False) as file:
            json.dump({"status": status, "said": said}, file)
        os.replace(file.name, STORE / key)


def copied(folder, to):
    """A copy of proved work, by links where these can be made: a check replaces such a file, and changes none."""

    def copy(one, other):
        try:
            if one.endswith(".oantt"):
                return os.link(one, other)
        except OSError:
            pass
        return shutil.copy2(one, other)

    shutil.copytree(folder, to, copy_function=copy)


def check(root, name, texts, over, jobs=1):
    """Checks a copy of the crate with these texts in place of its own: the status, and what was said."""
    with tempfile.TemporaryDirectory(prefix="endakuro-edit-") as room:
        for part in kit.PARTS:
            if (root / "crates" / name / part).is_dir():
                shutil.copytree(root / "crates" / name / part, f"{room}/{part}")
        for path, text in texts.items():
            pathlib.Path(room, path).write_text(text)
        return kit.prover("check", room, *kit.words(root, name, jobs), *(["--incremental", str(over)] if over else []))


def is_refused(status, said):
    return status == REFUSED and said.rstrip("\n").rpartition("\n")[2].startswith("logic=not-proved")


class Tries:
    """The tries of one run: a crate is checked as it stands at most once. Use as a context: what they prove goes with it."""

    def __init__(self, root):
        self.root, self.lanes, self.seeds, self.room = root, Lanes(), {}, tempfile.TemporaryDirectory(prefix="endakuro-waves-")

    def __enter__(self):
        return self

    def __exit__(self, *_):
        self.room.cleanup()

    def seed(self, name):
        """What a check of the crate as it stands proved, or why it did not."""
        if name not in self.seeds:
            seed = pathlib.Path(self.room.name, name)
            own = self.root / "crates" / name / "out" / "incremental"
            with self.lanes.one(need_of(self.root, name)):
                if own.is_dir():
                    copied(own, seed)
                else:
                    seed.mkdir()
                status, said = check(self.root, name, {}, seed)
            last = (said.rstrip("\n") or "it said nothing").rpartition("\n")[2]
            self.seeds[name] = seed, f"the crate as it stands is not proved: {last[:200]}" if status else None
        return self.seeds[name]

    def one(self, name, seed, edit, key, texts):
        need, over = need_of(self.root, name), seed.with_name(f"{name}-{edit.name}")
        with self.lanes.one(OVER * need):
            copied(seed, over)
            status, said = check(self.root, name, texts, over)
            shutil.rmtree(over, ignore_errors=True)
        if not is_refused(status, said):
            with self.lanes.one(need):
                status, said = check(self.root, name, texts, None)
        if is_refused(status, said):
            keep(key, status, said)
        return status, said

    def crate(self, pool, name, edits):
        seed, why = self.seed(name)
        if why:
            return {edit: (None, why) for edit in edits}
        return {edit: pool.submit(self.one, name, seed, edit, *rest) for edit, rest in edits.items()}

    def logs(self, edits):
        """What the prover says of each edit, a path with the pairs that it changes: (its status, its words), or None with why it was not tried."""
        root, found, waiting = self.root, {}, {}
        for edit, pairs in edits.items():
            name = edit.parent.parent.name
            texts, why = edited(edit.parent.parent, pairs)
            lacking = [it for it in kit.below(kit.listed(root), name) if not (kit.library(root, it) / "format").is_file()]
            if why or lacking:
                found[edit] = None, why or f"{lacking[0]} is not built: run `rt ci` first"
                continue
            key = hashlib.sha256(repr((sum_of(root, name), edit.name, sorted(texts.items()))).encode()).hexdigest()
            found[edit] = kept(key)
            if not found[edit]:
                waiting.setdefault(name, {})[edit] = key, texts
        if waiting:
            print(f"waves: {sum(map(len, waiting.values()))} of {len(edits)} to be tried", flush=True)
        with ThreadPoolExecutor(max(1, len(edits) + len(waiting))) as pool:
            longest = sorted(waiting, key=lambda it: -need_of(root, it) * len(waiting[it]))
            for begun in [pool.submit(self.crate, pool, name, waiting[name]) for name in longest]:
                for edit, tried in begun.result().items():
                    found[edit] = tried if isinstance(tried, tuple) else tried.result()
        return found


if __name__ == "__main__":
    sys.exit("this is a part of tests/waves.py")
