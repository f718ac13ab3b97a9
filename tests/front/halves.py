"""docs/WORKSHEET.md: what spreadsheets do at halves and just below, and that no prover factor can slip."""

import csv
import re
import subprocess
import tempfile
from decimal import Decimal
from math import prod
from pathlib import Path

import office
from harness import ROOT, Tally

PAGE = ROOT / "docs" / "WORKSHEET.md"
ROW = re.compile(r"^\| `(ROUND[^`]+)` \| ([\d.]+) \| ([\d.]+) \| ([\d.]+) \| `(ROUND[^`]+)` \|$", re.MULTILINE)
# The page tells what this version does in decimals.
VERSION = "LibreOffice 7.4"

# The ranges of CTS, CPS, CTL and CPL at 4 places, as whole counts.
CTS, CPS, CTL, CPL = range(9968, 10057), range(10000, 10901), range(5000, 15001), range(10000, 11766)
LARGEST = prod(factors[-1] for factors in (CTS, CPS, CTL, CPL))


def beside_halves():
    """Products beyond 2^53 that a spreadsheet would take for the half above them."""
    for half in range(9 * 10**15 + 5 * 10**11, LARGEST, 10**12):
        if half - 1 > 2**53:
            yield half - 1
        if half - 2 > 2**54:
            yield half - 2


def small_primes():
    most = CTL[-1]
    return [n for n in range(2, most + 1) if all(n % p for p in range(2, int(n**0.5) + 1))]


def divisors(number, primes):
    """All divisors of a number that has small primes alone; none of any other."""
    found = {1}
    for prime in primes:
        while number % prime == 0:
            number //= prime
            found |= {prime * each for each in found}
    return found if number == 1 else set()


def is_product(number, found):
    """Whether a number with these divisors is a product of four factors within their ranges."""
    return any(
        number % (cts * cps * cpl) == 0 and number // (cts * cps * cpl) in CTL
        for cts in found.intersection(CTS)
        for cps in found.intersection(CPS)
        for cpl in found.intersection(CPL)
    )


def search(tally):
    primes, page = small_primes(), PAGE.read_text()
    numbers = list(beside_halves())
    smooth = {number: found for number in numbers if (found := divisors(number, primes))}
    tally.holds(page, f"There are {len(numbers):,} such numbers", "the page")
    tally.holds(page, f"{len(smooth)} of them have no prime factor above 15,000", "the page")
    for number, found in smooth.items():
        tally.check(not is_product(number, found), f"{number} is a product that would slip")
    # The search finds products where there are some: this one is 4 below a half.
    near = 15_002_499_999_999_996
    tally.check(is_product(near, divisors(near, primes)), "a product that is known is not found")


def table(tally):
    rows = ROW.findall(PAGE.read_text())
    tally.check(len(rows) >= 8, f"{len(rows)} rows in the page's table")
    with tempfile.TemporaryDirectory() as folder:
        path = Path(folder) / "table.csv"
        with open(path, "w", newline="", encoding="utf-8") as file:
            csv.writer(file).writerows([f"={row[0]}", f"={row[4]}"] for row in rows)
        [found] = office.recalculated([path], folder)
    version = subprocess.run(["soffice", "--version"], capture_output=True, text=True).stdout
    for (decimals, exact, right, told, _), (in_decimals, in_counts) in zip(rows, found):
        tally.same(rounded(exact), right, f"{decimals}: the right digits")
        tally.same(Decimal(in_counts), Decimal(right) * 10_000, f"{decimals}: whole counts")
        if version.startswith(VERSION):
            tally.same(Decimal(in_decimals), Decimal(told), f"{decimals}: decimals")


def rounded(exact):
    """Halves up, to 4 places."""
    return str(Decimal(exact).quantize(Decimal("0.0001"), "ROUND_HALF_UP"))


def test():
    tally = Tally("halves")
    search(tally)
    table(tally)
    return tally
