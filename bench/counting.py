"""The x86-64 instructions that a side of the benchmark carries out, counted by the kit's emulator on an Arm machine and by valgrind on
x86-64. bench/run comes first."""

import bisect
import os
import platform
import re
import shutil
import struct
import subprocess
import sys
import tempfile
from collections import Counter
from pathlib import Path

ROOT = Path(__file__).resolve().parents[1]
BENCH = ROOT / "target/c/bench"
# As bench.c and kind.h have them.
KINDS = (
    "jobs of twenty runs",
    "jobs of long records",
    "water draws",
    "bidirectional draws",
    "tickets",
    "live readings",
    "smart transmitters",
    "panel numbers",
    "look-ups in 4,096",
    "forward of 4,096",
    "forward of 512",
    "back of 4,096",
    "back of 512",
    "book calls",
    "rounded quotients",
    "those of two words",
)
# How many files a chunk of these has; of other inputs it has a thousand.
FILES = {"forward of 4,096": 16, "forward of 512": 128, "back of 4,096": 16, "back of 512": 128}
SIDES = ("ours", "plain C", "unchecked", "previous")
OURS = 0

# One instruction at a time, each written to the log as a line 'Trace ..' with its address.
TRACED = {"QEMU_ONE_INSN_PER_TB": "1", "QEMU_LOG": "exec,nochain", "QEMU_LOG_FILENAME": "/dev/stdout"}
ADDRESS = re.compile(rb"Trace [^\[]*\[[0-9a-f]+/([0-9a-f]+)/")
# Symbols are bound at the start.
BOUND = os.environ | {"LD_BIND_NOW": "1"}
PAGE = 4096
ELSEWHERE = "the C library"


def chosen(words):
    """Each kind with its name and how many of its inputs are counted: as many as the command's words say, or 50, or all of a chunk."""
    asked = int(words[0]) if words else 50
    return [(kind, name, min(asked, FILES.get(name, asked))) for kind, name in enumerate(KINDS)]


def carried_out(kind, side, made, count):
    """How often each place, an address or a function, was carried out for `count` of `made` inputs."""
    # of the count as many digits as of the inputs: the program's start takes longer where its words are longer
    words = [str(kind), str(side), str(made), str(count).zfill(len(str(made)))]
    program = [str(ROOT / "tests/c/run"), str(BENCH), *words]
    found = by_valgrind(program) if platform.machine() == "x86_64" else by_emulator(program)
    if not found:
        sys.exit("no count: it takes bench/run first, and on x86-64 valgrind")
    return found


def by_emulator(program):
    with subprocess.Popen(program, stdout=subprocess.PIPE, env=BOUND | TRACED) as traced:
        found = Counter(line[1] for line in map(ADDRESS.match, traced.stdout) if line)
    return None if traced.returncode else Counter({int(address, 16): times for address, times in found.items()})


def by_valgrind(program):
    if not shutil.which("valgrind"):
        return None
    with tempfile.NamedTemporaryFile("r") as out:
        # tests/c/run is a script that ends as the program, so what is written last is the program's
        words = ["--tool=callgrind", f"--callgrind-out-file={out.name}", "--compress-strings=no", "--compress-pos=no", "--trace-children=yes"]
        done = subprocess.run(["valgrind", *words, *program], stdout=subprocess.DEVNULL, stderr=subprocess.DEVNULL, env=BOUND)
        return None if done.returncode else costs(Path(out.name).read_text())


def costs(callgrind):
    """The instructions of each function itself, from a file of callgrind's."""
    found, function, called = Counter(), None, False
    for line in callgrind.splitlines():
        if line.startswith("fn="):
            function = line[3:]
        elif line.startswith("calls="):
            # the next line is what the called function took, which is counted with that function
            called = True
        elif re.match(r"\d+ \d+$", line):
            found[function] += 0 if called else int(line.split()[1])
            called = False
    return found


def symbols():
    """The program's functions: where each begins and ends, counted from the program's own start, and its name."""
    elf = BENCH.read_bytes()
    begin, = struct.unpack_from("<Q", elf, 40)
    size, count = struct.unpack_from("<HH", elf, 58)
    sections = [struct.unpack_from("<IIQQQQIIQQ", elf, begin + size * i) for i in range(count)]
    for _, kind, _, _, offset, length, link, *_ in sections:
        if kind != 2:  # SHT_SYMTAB
            continue
        names = sections[link][4]
        for at in range(offset, offset + length, 24):
            name, info, _, _, value, extent = struct.unpack_from("<IBBHQQ", elf, at)
            if info % 16 == 2 and extent:  # STT_FUNC
                yield value, value + extent, elf[names + name : elf.index(0, names + name)].decode()


def named(found):
    """The same by the program's functions, wherever they were counted by address or by name."""
    functions = sorted(symbols())
    place_of = by_name(functions) if all(isinstance(place, str) for place in found) else by_address(functions, found)
    by_function = Counter()
    for place, times in found.items():
        by_function[place_of(place)] += times
    return by_function


def by_name(functions):
    own = {name for _, _, name in functions}

    def function_of(place):
        # behind a name that valgrind has met again within itself stands how often
        name = place.split("'")[0]
        return name if name in own else ELSEWHERE

    return function_of


def by_address(functions, found):
    begins = [begin for begin, _, _ in functions]
    start, main = (next(begin for begin, _, name in functions if name == one) for one in ("_start", "main"))
    # the program stands where both of these were begun, and more of its functions than anywhere else
    bases = [place - start for place in found if (place - start) % PAGE == 0 and place - start + main in found]
    base = max(bases, key=lambda base: sum(base + begin in found for begin in begins))

    def function_of(place):
        at = bisect.bisect_right(begins, place - base) - 1
        return functions[at][2] if at >= 0 and place - base < functions[at][1] else ELSEWHERE

    return function_of
