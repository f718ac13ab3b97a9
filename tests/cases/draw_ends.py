"""Draws with a field or a setting at each end of its range and one past it, for provers of either
type: they differ in how many passes a draw has."""

from . import ends
from .plain import everywhere, plain_draw
from .shapes import Prover

VOLUME = 1_155_000


def fields(passes, rng):
    """With the place of the one fill that has it, and None where all have it."""
    for name, of in ends.FILL.items():
        for value in ends.around(of):
            draw = plain_draw([VOLUME] * passes)
            at = rng.randrange(passes)
            yield draw.with_fill(at, **{name: value}), at
            yield everywhere(draw, **{name: value}), None


def unnamed_bytes(passes, rng):
    """Each of bytes 20 to 31 alone: a fill has no equilibrium pressure there."""
    for byte in range(12):
        unnamed = bytearray(12)
        unnamed[byte] = rng.randint(1, 255)
        at = rng.randrange(passes)
        yield plain_draw([VOLUME] * passes).with_fill(at, unnamed=bytes(unnamed)), at


def settings(passes):
    for name, of in ends.PROVER.items():
        for value in ends.around(of):
            draw = plain_draw([VOLUME] * passes, prover=Prover(**{name: value}))
            yield everywhere(draw, pressure=700)


def metals(passes):
    for metal in (0, 1, 2, 3, 4, 5, 255):
        for certificate in (0, 1, 99, 100, 400, 401):
            draw = plain_draw([VOLUME] * passes, prover=Prover(metal, certificate))
            yield everywhere(draw, measure_temperature=700, prover_temperature=800)
