"""The comparison: the program under test and the reference answer the same lines.

Run: python3 tests/compare.py --program CMD [--lines N] [--seed S] [--told DIR]
     python3 tests/compare.py --self          the reference alone: do the cases reach all?
     python3 tests/compare.py --ahead DIR     the same, lines and answers kept for --told DIR

Ends with 0 exactly when no answer differs and every entry and number was reached, each place where
an equilibrium pressure can stand, every kind of bidirectional draw, look-up, channels, job in the
longer form, move and book call, channels beside `live`, jobs beside the same in the longer form,
files moved there and back, and all that the panel can be shown.
"""

import argparse
import sys
from collections import Counter
from concurrent.futures import ThreadPoolExecutor
from itertools import cycle, islice

import channel_kinds
import draw_kinds
import long_kinds
import lookup_kinds
import move_kinds
from beside_live import BesideLive
from beside_short import BesideShort
from book_kinds import BookKinds
from cases import cases
from cases.grammar import NAMES
from outcomes import BAD, NONE, OK, outcome, record_of
from programs import REFERENCE, Stopped, command, is_silent, run
from shown import Shown
from standings import ACCEPTED, FAULTY, SIDES, standings
from there_and_back import ThereAndBack
from told import Told

BATCH = 10_000
SHOWN = 5
WIDTH = 240

# What each entry can answer (01, Numbers given back, and the page on the line program).
REACHES = {
    "cts": (OK, 3, 5),
    "cps": (OK, 3, 5),
    "cpl": (OK, 5),
    "prove": (OK, 14, 22, 1, 3, 4, 5, 2, 7, 8, 9),
    "runs": (OK, NONE),
    "run": (OK, 1, 3, 4, 5, 2, 7, 8),
    "prove_long": (OK, 14, 22, 1, 3, 4, 5, 2, 7, 8, 9),
    "runs_long": (OK, NONE),
    "run_long": (OK, 1, 3, 4, 5, 2, 7, 8),
    "forward": (OK, 14, 1, 5, 2),
    "back": (OK, 14, 1, 5, 2, 36),
    "draw": (OK, 1, 3, 5, 2, 6, 9),
    "fill": (OK, 1, 3, 5, 2),
    "passes": (OK, 1, 3, 5, 2, 6),
    "bidirectional": (OK, 1, 3, 5, 2, 6, 9),
    "trips": (OK, 1, 3, 5, 2, 6),
    "ticket": (OK, 10, 11),
    "live": (OK, 12, 13),
    "channels": (OK, 34, 35, 12, 13),
    "panel_temperature": (OK, 13),
    "panel_pressure": (OK, 13),
    "look_up": (OK, 1, 32, 13, 33),
    "spread": (OK, 9),
    "write": (OK, 14, 22, 15),
    "read": (OK, 14, 15),
    "request": (OK, 20, 21, 22, 23, 24, 25),
    "withdraw": (OK, 20, 21, 22, 26),
    "take": (OK, 20, 27),
    "book": (OK, 20),
    "set": (OK, 20, 30, 31),
    "figures": (OK, 20),
    "load": (OK,),
    "empty": (OK,),
}


# What a line of these entries reaches is told from the line alone.
TOLD_BY_LINE = {
    entry: kinds
    for kinds in (draw_kinds, lookup_kinds, channel_kinds, long_kinds, move_kinds)
    for entry in kinds.ENTRIES
}

# What each entry answers where P is below Pe.
BELOW_EQUILIBRIUM = {
    **{"cpl": 5, "ticket": 10, "prove": 5, "runs": NONE, "run": 5},
    **{"prove_long": 5, "runs_long": NONE, "run_long": 5, "forward": 5, "back": 5},
}


def entry_of(line):
    name = line.rstrip(b"\r").split(b" ", 1)[0].decode("latin-1")
    return name if name in NAMES else None


def short(octets):
    """Readable in a terminal, whatever the bytes."""
    text = octets.decode("latin-1").encode("unicode_escape").decode("ascii")
    return text if len(text) <= WIDTH else f"{text[:WIDTH]}.. ({len(octets)} bytes)"


# Every second batch ends with an LF, half of the others with a CR.
ENDS = (b"", b"\n", b"\r", b"\n")


def batches(stream):
    """Lines by the batch, as they are given."""
    for end in cycle(ENDS):
        lines = list(islice(stream, BATCH))
        if not lines:
            return
        yield b"\n".join(lines) + end


def lines_of(turn, given):
    """The lines of a batch: one that ends with an LF has no further line."""
    return given.removesuffix(b"\n" if turn % 2 else b"").split(b"\n")


class Reached:
    """What the lines reach, told by the reference's answers."""

    def __init__(self):
        self.reached = Counter()
        self.stood = Counter()
        self.kinds = Counter()
        self.booked = BookKinds()
        self.shown = Shown()
        self.beside_live = BesideLive()
        self.beside_short = BesideShort()
        self.there_and_back = ThereAndBack()

    def batch(self, answered):
        self.booked.begin()
        for line, answer in answered:
            self.take(line, answer)

    def take(self, line, answer):
        entry, what = entry_of(line), outcome(answer)
        self.reached[entry, what] += 1
        self.booked.take(entry, line, what, answer)
        self.shown.take(entry, line, answer)
        self.beside_live.take(entry, line, answer)
        self.beside_short.take(entry, line, answer)
        self.there_and_back.take(entry, line, answer)
        if what != BAD:
            for side, where in standings(entry, line, record_of(answer)):
                self.stood[entry, side, where, what] += 1
        if what != BAD and entry in TOLD_BY_LINE:
            for kind in {*TOLD_BY_LINE[entry].reached(line.removesuffix(b"\r"))}:
                self.kinds[entry, what, kind] += 1

    def missing(self):
        missing = [
            f"{entry} {what}"
            for entry, answers in REACHES.items()
            for what in (*answers, BAD)
            if not self.reached[entry, what]
        ]
        if not self.reached[None, BAD]:
            missing.append("unknown name")
        for entry, fault in BELOW_EQUILIBRIUM.items():
            for side in SIDES[entry]:
                wanted = [(where, OK) for where in ACCEPTED] + [(where, fault) for where in FAULTY]
                missing += [
                    f"{entry} {what} with the {side}'s {where}"
                    for where, what in wanted
                    if not self.stood[entry, side, where, what]
                ]
        missing += [
            f"{entry} {what} with {kind}"
            for entry, kinds in TOLD_BY_LINE.items()
            for what, kind in kinds.wanted(entry)
            if not self.kinds[entry, what, kind]
        ]
        missing += self.booked.missing()
        missing += self.shown.missing()
        missing += self.beside_live.missing()
        missing += self.beside_short.missing(REACHES)
        missing += self.there_and_back.missing()
        return missing

    def summary(self):
        numbers, accepted, bad = Counter(), Counter(), 0
        for (entry, what), times in self.reached.items():
            if what == BAD:
                bad += times
            elif what in (OK, NONE):
                accepted[entry] += times if what == OK else 0
            else:
                numbers[what] += times
        told = " ".join(f"{number}:{numbers[number]}" for number in sorted(numbers))
        taken = " ".join(f"{entry}:{accepted[entry]}" for entry in REACHES)
        return (
            f"{sum(self.reached.values())} answers; refused {told};"
            f" bad lines {bad}; accepted {taken}"
        )


class WorkedOut:
    """Lines made, and the reference asked, batch by batch; as `Told` has what was kept."""

    def __init__(self, seed, count):
        self.cases = cases(seed, count)
        self.kinds = Reached()

    def given(self):
        return batches(self.cases)

    def answers(self, turn, given):
        answers, stopped = run(REFERENCE, given)
        if stopped:
            raise Stopped(stopped)
        asked = [line for line in lines_of(turn, given) if not is_silent(line)]
        if len(answers) != len(asked):
            raise Stopped(f"the reference gave {len(answers)} answers to {len(asked)} lines")
        self.kinds.batch(zip(asked, answers))
        return answers

    def reached(self):
        return self.kinds.summary(), self.kinds.missing()


class Comparison:
    """The program under test beside the reference's answers."""

    def __init__(self, keep):
        self.keep = keep
        self.lines = 0
        self.differences = 0

    def batch(self, lines, reference, tested, stopped):
        asked = [(at, line) for at, line in enumerate(lines) if not is_silent(line)]
        for place, ((at, _), expected) in enumerate(zip(asked, reference, strict=True)):
            found = tested[place] if place < len(tested) else b"(no answer)"
            if found != expected:
                self.differ(lines, at, expected, found)
        if len(tested) != len(asked):
            print(f"the program gave {len(tested)} answers to {len(asked)} lines")
        if len(tested) > len(asked):
            self.differ(lines, len(lines) - 1, b"(no further answer)", tested[len(asked)])
        if stopped:
            raise Stopped(stopped)
        self.lines += len(lines)

    def differ(self, lines, at, expected, found):
        self.differences += 1
        if self.differences > SHOWN:
            return
        print(f"line {self.lines + at + 1}: {short(lines[at])}")
        print(f"  reference {short(expected)}")
        print(f"  program   {short(found)}")
        if self.keep and self.differences == 1:
            with open(self.keep, "wb") as kept:
                kept.write(b"\n".join(lines[: at + 1]) + b"\n")
            print(f"  the lines up to it are in {self.keep}")


def compare(chosen):
    folder = chosen.ahead or chosen.told
    told = Told(folder, chosen.seed, chosen.lines) if folder else None
    is_kept = chosen.told and told.is_whole
    source = told if is_kept else WorkedOut(chosen.seed, chosen.lines)
    comparison = Comparison(chosen.keep)
    for turn, given in enumerate(source.given()):
        with ThreadPoolExecutor(2) as both:
            expected = both.submit(source.answers, turn, given)
            found = both.submit(run, chosen.program, given) if chosen.program else None
        if chosen.ahead:
            told.keep(turn, given, expected.result())
        answers = found.result() if found else (expected.result(), None)
        comparison.batch(lines_of(turn, given), expected.result(), *answers)
        print(f"{comparison.lines} of {chosen.lines} lines", file=sys.stderr, flush=True)
    summary, missing = source.reached()
    if chosen.ahead:
        told.finish(summary, missing)
    print(f"compare: {comparison.lines} lines, {summary}; differences {comparison.differences}")
    if missing:
        print(f"never reached: {', '.join(missing)}")
    return 1 if missing or comparison.differences else 0


def main():
    options = argparse.ArgumentParser(description="Compare a program with the reference.")
    which = options.add_mutually_exclusive_group(required=True)
    which.add_argument("--program", type=command, help="the command of the program under test")
    which.add_argument("--self", action="store_true", help="the reference alone")
    which.add_argument("--ahead", metavar="DIR", help="the reference alone, kept for --told")
    options.add_argument("--lines", type=int, default=110_000)
    options.add_argument("--seed", type=int, default=1)
    options.add_argument("--told", metavar="DIR", help="where --ahead may have kept what it told")
    options.add_argument("--keep", help="a file for the lines up to the first difference")
    chosen = options.parse_args()
    try:
        return compare(chosen)
    except Stopped as stop:
        print(f"compare: stopped, {stop}")
        return 1


if __name__ == "__main__":
    sys.exit(main())
