"""move: files of run records to their longer form and back, by the paper's own places of bytes; what is refused, in
words; whole or not at all, and nothing lost."""

import json
import os
import random
import struct
import subprocess
import tempfile
from hashlib import sha256
from pathlib import Path

from harness import LAUNCHER, Tally, called
from losses import small_files

from front import fields, moves
from front.program import Program, Refused

FILES = 40
OLD = b"of an earlier day"
# 01: pulses (4), T prover and meter (signed 2), P, CTL and F (2 each), and by 02 Pe; zeros up to 32.
SHORT = struct.Struct("<IhhHHHHHHHH8s")
LENGTHS = {"forward": 32, "back": 48}
WAYS = {"forward": moves.FORWARD, "back": moves.BACK}
PULSES = (1, 2, 17_743, 99_999_999, 100_000_000)
HEADS = {
    1: "refused 1: records not whole, or too few or many", 2: "refused 2: an unnamed byte is not zero",
    5: "refused 5: record field out of range", 36: "refused 36: pulse count not whole",
}  # fmt: skip


def record_of(rng):
    """A record in the short form, every field within its range or at an end of it."""

    def count(low, high):
        return rng.choice((low, high, rng.randint(low, high), rng.randint(low, high)))

    pressures = [count(0, 1500) for _ in range(2)]
    temperatures, ctl, f = ([count(*ends) for _ in range(2)] for ends in ((-200, 2000), (5000, 15000), (0, 10000)))
    pulses = rng.choice((*PULSES, rng.randint(1, 100_000_000)))
    vapour = [count(0, pressure) for pressure in pressures]
    return SHORT.pack(pulses, *temperatures, *pressures, *ctl, *f, *vapour, bytes(8))


def lengthened(record):
    """02: pulses in thousandths (8 bytes), 'then the old bytes 4 to 31 at 8 to 35, then zeros'."""
    return struct.pack("<Q", struct.unpack("<I", record[:4])[0] * 1000) + record[4:32] + bytes(12)


def put(octets, at, packing, value):
    changed = bytearray(octets)
    struct.pack_into(packing, changed, at, value)
    return bytes(changed)


def there_and_back(tally, folder):
    """Forward the long records, back the old bytes; each line says what was done."""
    rng = random.Random(81)
    for number, count in enumerate([1, 2, 4096, *(rng.randint(1, 60) for _ in range(FILES))]):
        records = [record_of(rng) for _ in range(count)]
        short, long = b"".join(records), b"".join(map(lengthened, records))
        old, new, again = (folder / f"{number}{end}" for end in (".short", ".long", ".again"))
        old.write_bytes(short)
        noun = "record" if count == 1 else "records"
        sizes = f"{len(short):,} bytes, 32 a record", f"{len(long):,} bytes, 48 a record"
        for words, (source, target), (before, after), expected in (
            (("forward",), (old, new), sizes, long),
            (("back", "--back"), (new, again), reversed(sizes), short),
        ):
            told = f"{source}: {count:,} {noun} moved {words[0]} into {target}: from {before}, to {after}\n"
            found = called("move", *words[1:], source, target)
            tally.same((*found, target.read_bytes()), (0, told, "", expected), f"file {number}, {words[0]}")
        tally.same((old.read_bytes(), new.read_bytes()), (short, long), f"file {number}: what was moved")


def refusal_of(octets, name, program):
    """The refusal of such a file, explained: its number, its record and its details."""
    way = WAYS[name]
    old = moves.RunFile("old", octets, way.source)
    try:
        moves.moved(old, way, "new", program)
    except Refused as refused:
        told = moves.explain(old, way, refused.refusal, program)
        return told.number, told.record, [str(each) for each in told.details]
    return None


def in_words(tally, program):
    """Each field at its ends and past them, each byte that is not named, counts that are not whole."""
    rng = random.Random(82)
    # Far from the ends, so that one field alone is at fault, and no bytes that the other form could take.
    plain = SHORT.pack(17_743, 630, 645, 1200, 1100, 9975, 9965, 823, 829, 0, 0, bytes(8))
    files = {"forward": (plain, fields.RUN, 24), "back": (lengthened(plain), fields.INTERPOLATED_RUN, 28)}
    for name, (record, known, unnamed) in files.items():
        size, at = LENGTHS[name], 0
        for key, field in known.items():
            for count in (field.low - 1, field.low, field.high, field.high + 1):
                if not field.fits(count):
                    continue
                own = put(record, at, f"<{field.place}", count)
                # Where it may reach its own end, an equilibrium pressure has a pressure that does.
                own = put(own, at - 12, "<H", 1500) if key in fields.AT_MOST else own
                words = f"record 2: {field.label} is {field.text(count)}, range {field.range}"
                expected = None if field.within(count) else (5, 2, [words])
                tally.same(refusal_of(record + own + record, name, program), expected, f"{name}: {key} {count}")
            at += struct.calcsize(f"<{field.place}")
        tally.same(at, unnamed, f"{name}: where the zeros begin")
        for place in range(unnamed, size):
            value = rng.randint(1, 255)
            expected = (2, 3, [f"record 3: byte {place} is {value:02x}, range 00"])
            found = refusal_of(record * 2 + put(record, place, "<B", value), name, program)
            tally.same(found, expected, f"{name}: byte {place}")
        above = put(record, unnamed - 4, "<H", 1201)
        words = "prover equilibrium pressure Pe is 1,201 psi, above the prover pressure, range 0 to 1,200 psi"
        tally.same(refusal_of(above, name, program), (5, 1, [f"record 1: {words}"]), f"{name}: Pe above P")
    long = files["back"][0]
    for thousandths in (1_001, 1_999, 17_743_500, 99_999_999_999):
        shown = f"{thousandths // 1000:,}.{thousandths % 1000:03}"
        words = f"record 2: pulses is {shown} pulses, not whole: the short form holds whole pulses alone"
        found = refusal_of(long + put(long, 0, "<Q", thousandths) + long, "back", program)
        tally.same(found, (36, 2, [words]), f"back: {thousandths} thousandths")
    hot, odd, part = put(long, 8, "<h", 2500), put(long, 40, "<B", 7), put(long, 0, "<Q", 1_001)
    both = put(put(hot, 40, "<B", 7), 0, "<Q", 1_001)
    for records, expected in (
        ((long, both), (5, 2)), ((long, put(odd, 0, "<Q", 1_001)), (2, 2)), ((part, odd, hot), (36, 1)),
        ((odd, part), (2, 1)), ((hot, part), (5, 1)), ((long, long, part), (36, 3)),
    ):  # fmt: skip
        tally.same(refusal_of(b"".join(records), "back", program)[:2], expected, f"back: first of {expected}")


def lengths(tally, folder, program):
    """What is not of whole records, or not of 1 to 4,096; and what is of whole records of the other form."""
    rng = random.Random(83)
    short = record_of(rng)
    long = lengthened(short)
    for name, size, other, asked in (("forward", 32, 48, "with --back"), ("back", 48, 32, "without --back")):
        form, another = ("short", "long") if name == "forward" else ("long", "short")
        for length in (1, size - 1, size + 1, other, 5 * size + 7, 5 * other):
            octets = (short if size == 32 else long) * 8
            held, over = counted(length // size, "record"), counted(length % size, "byte")
            words = [f"{counted(length, 'byte')}: {held} of the {form} form, {size} bytes each, and {over} over"]
            words[0] += ", range whole records"
            if length % other == 0:
                one = counted(length // other, "record")
                words.append(f"as {one} of the {another} form, {other} bytes each, they are moved {asked}")
            tally.same(refusal_of(octets[:length], name, program), (1, 0, words), f"{name}: {length} bytes")
        for count, told in ((0, "0"), (4097, "more than 4096")):
            octets = (short if size == 32 else long) * count
            expected = (1, 0, [f"records: {told}, range 1 to 4096"])
            tally.same(refusal_of(octets, name, program), expected, f"{name}: {count} records")
    # A file that was moved before, and whose length is that of whole records of both forms.
    for octets, name, form, asked in (
        (long * 2, "forward", "2 records of the long form, 48 bytes each", "with --back"),
        (put(long, 0, "<Q", 1_001) * 2, "forward", "2 records of the long form, 48 bytes each", "with --back"),
        (short * 3, "back", "3 records of the short form, 32 bytes each", "without --back"),
    ):
        number, _, details = refusal_of(octets, name, program)
        tally.check(number in (2, 5) and details[-1] == f"as {form}, they are moved {asked}", f"{name}: {details}")
    status, out, err = called("move", "/dev/zero", folder / "endless")
    told = f"/dev/zero: {HEADS[1]}\n   records: more than 4096, range 1 to 4096\n"
    tally.same((status, out, err, (folder / "endless").exists()), (1, "", told, False), "a file without end")


def counted(count, noun):
    return f"{count} {noun}" if count == 1 else f"{count} {noun}s"


def nothing_lost(tally, folder):
    """A refusal and every fault of the command leave what is there as it was."""
    records = record_of(random.Random(84)) * 3
    old, new, other = folder / "old", folder / "new", folder / "other"
    old.write_bytes(records)
    other.symlink_to(old)
    (folder / "twin").hardlink_to(old)
    for path in (old, other, folder / "twin", folder / "." / "old"):
        for more in ((), ("--force",)):
            told = f"{path}: NEW: is read by this command: expected another file\n"
            tally.same(called("move", old, path, *more), (2, "", told), f"onto itself as {path}")
    tally.same(called("move", old, folder, "--force")[0], 2, "onto a folder")
    new.write_bytes(OLD)
    told = f"{new}: NEW: is there already: --force writes over it\n"
    tally.same((*called("move", old, new), new.read_bytes()), (2, "", told, OLD), "onto a file that is there")
    for octets, more, number in ((records[:-1], (), 1), (put(records, 68, "<h", 2500), (), 5), (b"", ("--back",), 1)):
        bad, nowhere = folder / "bad", folder / "nowhere"
        bad.write_bytes(octets)
        status, out, err = called("move", bad, nowhere, *more)
        tally.check((status, out) == (1, "") and err.startswith(f"{bad}: {HEADS[number]}\n   "), f"refused: {err}")
        tally.same((nowhere.exists(), list(folder.glob(".*.part"))), (False, []), "what a refusal writes")
        status, _, err = called("move", bad, new, "--force", *more)
        told = f"{new}: not written: the file there is as it was"
        tally.same((status, err.splitlines()[-1], new.read_bytes()), (1, told, OLD), "a refusal by --force")
    tally.same((called("move", old, new, "--force")[0], new.stat().st_size), (0, 144), "--force")
    missing, place = folder / "none", folder / "none" / "new"
    told = f"{place}: cannot be written: No such file or directory\n"
    tally.same(called("move", old, place), (3, "", told), "no such folder")
    told = f"{missing}: cannot be read: No such file or directory\n"
    tally.same(called("move", missing, folder / "x"), (2, "", told), "no such file")
    tally.same(old.read_bytes(), records, "what was to be moved")


def processes(tally, folder):
    """A disk that is full, and standard streams."""
    records = [record_of(random.Random(85)) for _ in range(64)]
    short, long = b"".join(records), b"".join(map(lengthened, records))
    old, new = folder / "many", folder / "full"
    old.write_bytes(short)
    new.write_bytes(OLD)
    words = [str(LAUNCHER), "move", str(old), str(new), "--force"]
    done = subprocess.run(words, capture_output=True, text=True, preexec_fn=small_files)
    told = f"{new}: cannot be written: File too large\n"
    tally.same((done.returncode, done.stdout, done.stderr), (3, "", told), "a disk that is full")
    tally.same((new.read_bytes(), list(folder.glob(".*.part"))), (OLD, []), "a disk that is full")
    done = subprocess.run([str(LAUNCHER), "move", "-", "-"], input=short, capture_output=True, cwd="/")
    tally.same((done.returncode, done.stdout, done.stderr), (0, long, b""), "from standard input to standard output")


def for_machines(tally, folder):
    octets = record_of(random.Random(86)) * 2
    old, new = folder / "two", folder / "two.long"
    old.write_bytes(octets)
    told = json.loads(called("move", old, new, "--json")[1])
    made = {"file": str(new), "form": "long", "records": 2, "length": 96}
    tally.same(told["to"], made | {"sha256": sha256(new.read_bytes()).hexdigest()}, "JSON: to")
    tally.same(told["from"]["sha256"], sha256(octets).hexdigest(), "JSON: from")
    status, line, _ = called("move", old, "-", "--json")
    tally.same((status, json.loads(line)["outcome"]), (2, "bad file"), "JSON and records on standard output")
    old.write_bytes(put(octets, 36, "<h", -201))
    told = json.loads(called("move", old, folder / "none", "--json")[1])
    tally.same((told["outcome"], told["from"]), ("refused", {"file": str(old), "form": "short"}), "JSON: refused")
    detail = told["refusal"]["details"][0]
    found = (told["refusal"]["number"], told["refusal"]["record"], detail["field"], detail["value"]["count"])
    tally.same(found, (5, 2, "prover_temperature", -201), "JSON: refused")
    tally.check("to" not in told and not os.path.exists(folder / "none"), "JSON: refused")


def test():
    tally = Tally("run records moved")
    with tempfile.TemporaryDirectory() as folder, Program() as program:
        in_words(tally, program)
        lengths(tally, Path(folder), program)
        for part in (there_and_back, nothing_lost, processes, for_machines):
            part(tally, Path(folder))
    return tally
