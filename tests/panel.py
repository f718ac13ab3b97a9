"""Numbers for the panel (02), all of them: each single beside this machine's own and beside its
neighbours, the customer's bound over whole numbers, and the way back through `live`.

Run: python3 tests/panel.py [--program CMD]
"""

import argparse
import re
import struct
import sys
from fractions import Fraction
from itertools import cycle

from cases.panels import SPANS, in_range, past_ends
from cases.shapes import line
from cases.singles import bits, neighbours
from programs import REFERENCE, Stopped, answers_of, command
from shown import wanted

TEMPERATURE, PRESSURE = SPANS
PER_UNIT = {TEMPERATURE: 10, PRESSURE: 1}
SHOWN = re.compile(rb"ok ([0-9a-f]{8})")
# 02: "the distance between 10x and n, times 131072, is at most 10"
PARTS, MOST = 131072, 10
PRINTED = 10


def exact(single):
    """The exact number in a finite single's bits, as this machine reads them."""
    return Fraction(struct.unpack(">f", struct.pack(">I", single))[0])


def is_finite(single):
    return single >> 23 & 0xFF != 0xFF


def single_faults(entry, number, single):
    """What is wrong with the single that shows a number."""
    # This machine rounds n ÷ 10 twice, to a double and then to a single. That is safe: where n ÷ 10
    # is no single, it is at least a tenth of a single's last place away from the middle between two
    # singles, and a double is off by less than a hundred-millionth of that place.
    if single != bits(number / PER_UNIT[entry]):
        yield "is not this machine's single"
    if not all(map(is_finite, (single, *neighbours(single)))):
        yield "is not finite, or is the largest that is"
        return
    meant = Fraction(number, PER_UNIT[entry])
    off = abs(exact(single) - meant)
    if any(abs(exact(other) - meant) <= off for other in neighbours(single)):
        yield "is not nearer than its neighbours"
    if entry == PRESSURE and off:
        yield "is not exact"
    if entry == TEMPERATURE and abs(10 * exact(single) - number) * PARTS > MOST:
        yield "is past the customer's bound"


class Panel:
    """A program's answers, and what is wrong with them."""

    def __init__(self, program):
        self.program = program
        self.faults = []

    def asked(self, lines):
        answers = answers_of(self.program, b"\n".join(lines) + b"\n")
        if len(answers) != len(lines):
            raise Stopped(f"{self.program[-1]} gave {len(answers)} answers to {len(lines)} lines")
        return zip(lines, answers)

    def fault(self, sent, told):
        self.faults.append(f"{sent.decode()}: {told}")

    def refusals(self):
        past = [(entry, number) for entry in SPANS for number in past_ends(entry)]
        answered = self.asked([line(*words) for words in past])
        for words, (sent, answer) in zip(past, answered):
            if answer != wanted(*words):
                self.fault(sent, answer.decode("latin-1"))

    def shown(self, entry):
        """Every number in range, and the single that shows it."""
        singles = []
        answered = self.asked([line(entry, number) for number in in_range(entry)])
        for number, (sent, answer) in zip(in_range(entry), answered):
            found = SHOWN.fullmatch(answer)
            if not found:
                self.fault(sent, answer.decode("latin-1"))
                continue
            singles.append((number, int(found[1], 16)))
            for told in single_faults(entry, *singles[-1]):
                self.fault(sent, f"{found[1].decode()} {told}")
        return singles

    def way_back(self, temperatures, pressures):
        """`live` of the singles: there are more temperatures than pressures."""
        pairs = [*zip(temperatures, cycle(pressures))]
        answered = self.asked([line("live", f"{t:08x}", f"{p:08x}") for (_, t), (_, p) in pairs])
        for ((tenths, _), (psi, _)), (sent, answer) in zip(pairs, answered):
            if answer != b"ok %d %d" % (tenths, psi):
                self.fault(sent, f"{answer.decode('latin-1')}, not ok {tenths} {psi}")


def faults_of(program):
    panel = Panel(program)
    panel.refusals()
    panel.way_back(*map(panel.shown, SPANS))
    return panel.faults


def main():
    options = argparse.ArgumentParser(description="Run every number for the panel.")
    options.add_argument("--program", type=command, help="the command of the program under test")
    chosen = options.parse_args()

    wrong = 0
    for program in filter(None, (REFERENCE, chosen.program)):
        try:
            faults = faults_of(program)
        except Stopped as stop:
            print(f"panel: stopped, {stop}")
            return 1
        for fault in faults[:PRINTED]:
            print(f"{program[-1]}: {fault}")
        wrong += len(faults)
    through = "both programs" if chosen.program else "the reference"
    counts = " and ".join(f"{len(in_range(entry))} of {entry}" for entry in SPANS)
    print(f"panel: {counts} through {through} and back through live, {wrong} wrong")
    return 1 if wrong else 0


if __name__ == "__main__":
    sys.exit(main())
