"""The C face: the header as C11 and C++17, its declarations against the Rattle source, every function through the linked archive
beside the line program, every number of the panel beside the reference and back, channels that no line can say, run records moved between
their forms, rounded quotients beside whole numbers of any length, and the examples.

Run: python3 tests/c_face.py [--lines N] [--seed S]     once `rt run` in crates/endakuro, or `rt ci`, has built the line program
"""

import argparse
import shutil
import subprocess
import sys
from collections import Counter
from math import prod
from pathlib import Path

import declarations
import ratios
from cases import cases, shapes
from cases.panels import SPANS, held, in_range
from compare import BAD, OK, REACHES, entry_of, outcome, short
from programs import REFERENCE, Stopped, answers_of, is_silent

ROOT = Path(__file__).resolve().parents[1]
BUILT = ROOT / "target" / "c"
LINE_PROGRAM = [str(ROOT / "tests" / "endakuro")]
# Entries of the line program that the C face has not.
OTHERS = {"spread"}
RUN = str(ROOT / "tests" / "c" / "run")
EXAMPLES = ("skid", "round_trips", "agreement", "compressibility", "transmitters", "interpolation")
# Patterns of a single's bits that are no finite number, in each of the three kinds that carry one.
NOT_FINITE = 3 * 2**24
# Every two lengths up to four long records and a bit, moved either way.
LENGTHS = 2 * (4 * 48 + 3 + 1) ** 2

ONLY_HEADER = b"#include <endakuro.h>\n"
STRICT = ["-Wall", "-Wextra", "-Wpedantic", "-Werror"]
SHOWN = 5


def compilers():
    """The kit's compiler for x86-64, and the machine's own where it has them: they bring their own headers."""
    kit = [str(ROOT / "tests" / "c" / "compile")]
    own = [[name, *STRICT, f"-I{ROOT / 'include'}"] for name in ("gcc", "clang") if shutil.which(name)]
    return [kit, *own]


def header():
    faults = list(declarations.faults())
    tried = 0
    for compiler in compilers():
        for language, standard in (("c", "c11"), ("c++", "c++17")):
            words = ["-x", language, f"-std={standard}", "-fsyntax-only", "-"]
            done = subprocess.run([*compiler, *words], input=ONLY_HEADER, capture_output=True)
            tried += 1
            if done.returncode:
                faults.append(f"{compiler[0]} -std={standard}: {done.stderr.decode()}")
    for fault in faults:
        print(fault)
    print(f"header: {declarations.counts()}; compiled {tried} times as C11 and C++17; faults {len(faults)}")
    return not faults


def build(name, source):
    program = BUILT / name
    done = subprocess.run([ROOT / "tests" / "c" / "build", program, ROOT / source], capture_output=True)
    if done.returncode:
        raise Stopped(f"{source} is not built: {done.stderr.decode()}")
    return [RUN, str(program)]


def differences(program, calls, named):
    """How many of C's answers are not those of the program named."""
    found = answers_of(program, b"\n".join(line for line, _ in calls) + b"\n")
    different = [(line, a, b) for (line, a), b in zip(calls, found) if a != b]
    for line, expected, other in different[:SHOWN]:
        print(f"{short(line)}\n  {named:12} {short(expected)}\n  {'C':12} {short(other)}")
    return len(different) + abs(len(calls) - len(found))


def lines(program, count, seed):
    """The line program's answers are what C must give; a line that it calls bad calls no entry, and is left out, as is an
    entry that C has not."""
    asked = [line for line in cases(seed, count) if not is_silent(line)]
    told = answers_of(LINE_PROGRAM, b"\n".join(asked) + b"\n")
    answered = [(line.removesuffix(b"\r"), answer) for line, answer in zip(asked, told, strict=True)]
    calls = [(line, answer) for line, answer in answered if outcome(answer) != BAD and entry_of(line) not in OTHERS]
    different = differences(program, calls, "line program")
    reached = Counter((entry_of(line), outcome(answer)) for line, answer in calls)
    wanted = {entry: answers for entry, answers in REACHES.items() if entry not in OTHERS}
    missing = [f"{entry} {what}" for entry, answers in wanted.items() for what in answers if not reached[entry, what]]
    if missing:
        print(f"never reached: {', '.join(missing)}")
    print(f"C beside the line program: {len(calls)} calls of {len(wanted)} entries; differences {different}")
    return not different and not missing


def panel(program):
    """The reference's bits are what C must show of every number, and its refusal past each end that the type holds."""
    asked = [shapes.line(entry, number) for entry in SPANS for number in held(entry)]
    told = answers_of(REFERENCE, b"\n".join(asked) + b"\n")
    different = differences(program, list(zip(asked, told, strict=True)), "reference")
    shown = sum(outcome(answer) == OK for answer in told)
    print(f"the panel beside the reference: {len(asked)} calls, {shown} shown; differences {different}")
    return not different


def counted(name, tried):
    """What a program that tries by itself all that it has says at its end; the first differences stand before it."""
    *apart, said = answers_of(build(name, f"tests/c/{name}.c"), b"")
    for difference in apart:
        print(difference.decode())
    print(f"{tried}: {said.decode()}")
    return said


def way_back():
    """Every temperature shown with every pressure shown is read live as the two numbers that the panel was given."""
    said = counted("way_back", "the panel read live")
    return said == b"%d pairs; differences 0" % prod(len(in_range(entry)) for entry in SPANS)


def channels():
    """Kinds outside the four and fault codes of more than a byte, which no line has, and all that is not finite."""
    calls, _, different = counted("channels", "channels that no line can say").partition(b" calls; differences ")
    return int(calls) > NOT_FINITE and int(different) == 0


def moving():
    """Every two small lengths, files of more records than any line holds, and every two faults of a record: the answer, each byte of the
    buffer, the records and what stands beside both."""
    calls, _, different = counted("moving", "run records moved").partition(b" calls; differences ")
    return int(calls) > LENGTHS and int(different) == 0


def quotients(seed):
    """Rounded quotients, which no line has: every length of a divisor, every correction of a digit, every side of a half."""
    asked = ratios.ratios(seed)
    told = [b"%d %d" % ratios.answer(*ratio) for ratio in asked]
    calls = [(b"%d %d %d" % ratio, answer) for ratio, answer in zip(asked, told, strict=True)]
    different = differences(build("quotients", "tests/c/quotients.c"), calls, "whole numbers")
    reached = {what for ratio in asked for what in ratios.reached(*ratio)}
    missing = [what for what in ratios.wanted() if what not in reached]
    if missing:
        print(f"never reached: {missing}")
    print(f"rounded quotients: {len(calls)} beside whole numbers of any length; differences {different}")
    return not different and not missing


def example(name):
    found = answers_of(build(name, f"examples/c/{name}.c"), b"")
    expected = (ROOT / f"examples/c/{name}.txt").read_bytes().splitlines()
    same = found == expected
    if not same:
        print(b"\n".join(found).decode())
    print(f"examples/c/{name}.c: {len(found)} lines, {'as' if same else 'NOT as'} {name}.txt has them")
    return same


def main():
    options = argparse.ArgumentParser(description="Test the C face.")
    options.add_argument("--lines", type=int, default=72_000)
    options.add_argument("--seed", type=int, default=2)
    chosen = options.parse_args()
    try:
        held = [header()]
        program = build("lines", "tests/c/lines.c")
        held += [lines(program, chosen.lines, chosen.seed), panel(program), way_back(), channels(), moving(), quotients(chosen.seed)]
        held += [example(name) for name in EXAMPLES]
    except Stopped as stop:
        print(f"C face: stopped, {stop}")
        return 1
    return 0 if all(held) else 1


if __name__ == "__main__":
    sys.exit(main())
