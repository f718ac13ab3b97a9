"""The command line inside this process, for tests that ask it often: its words are put together once, and one line
program answers all of them."""

import functools
from unittest import mock

from front import cli
from front.program import Program


class OneProgram(Program):
    """Started by the first that asks; each command finds it as a new one is, with an empty book."""

    running = None

    def start(self):
        if self.running is None or self.running.poll() is not None:
            super().start()
            OneProgram.running = self.process
        self.process = self.running
        self.ask("empty")

    def __exit__(self, *_):
        self.process = None


parser = functools.cache(cli.parser)


def main(words):
    """The exit status."""
    with mock.patch.multiple(cli, Program=OneProgram, parser=parser):
        try:
            return cli.main(words)
        except SystemExit as ended:
            return ended.code
