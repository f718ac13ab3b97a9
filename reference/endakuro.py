"""The independent reference program: lines on standard input, answers on standard output.

Run: python3 reference/endakuro.py < lines
"""

import sys

from lines import LONGEST, Program


def lines_of(stream):
    """Each line without its LF. Of a line that is too long no more than is needed to see that."""
    while line := stream.readline(LONGEST + 1):
        if line.endswith(b"\n"):
            yield line[:-1]
            continue
        yield line
        if len(line) > LONGEST:
            while (rest := stream.readline(LONGEST)) and not rest.endswith(b"\n"):
                pass


def main():
    program = Program()
    for line in lines_of(sys.stdin.buffer):
        answer = program.answer(line)
        if answer is not None:
            sys.stdout.buffer.write(answer + b"\n")
            sys.stdout.buffer.flush()


if __name__ == "__main__":
    main()
