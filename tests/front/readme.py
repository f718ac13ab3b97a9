"""README's commands and what they print: its blocks that begin with '$ ' are run as they stand.

Run: python3 tests/front/readme.py --write to bring the blocks up to date."""

import re
import subprocess
import sys

from harness import ROOT, Tally

PAGE = ROOT / "README.md"
BLOCK = re.compile(r"```console\n\$ ([^\n]+)\n(.*?)```\n", re.DOTALL)


def printed(command):
    """What a command prints in the repository's folder, complaints included."""
    done = subprocess.run(
        command, shell=True, stdout=subprocess.PIPE, stderr=subprocess.STDOUT, text=True, cwd=ROOT, timeout=120
    )
    return done.stdout


def renewed(page):
    return BLOCK.sub(lambda block: f"```console\n$ {block[1]}\n{printed(block[1])}```\n", page)


def test():
    tally = Tally("README")
    page = PAGE.read_text()
    blocks = BLOCK.findall(page)
    tally.check(len(blocks) >= 2, f"{len(blocks)} blocks of commands")
    tally.check(blocks and blocks[0][0].startswith("./endakuro prove examples/"), "the first command proves a job")
    for command, shown in blocks:
        tally.same(shown, printed(command), f"$ {command}")
    return tally


if __name__ == "__main__" and "--write" in sys.argv:
    PAGE.write_text(renewed(PAGE.read_text()))
