"""Cases of `channels` with faults: each alone, of every two the one that is answered, each kind and
each special single in either place; and bad lines."""

from itertools import product

from .channel_shapes import (
    CELSIUS,
    FAHRENHEIT,
    KINDS,
    PRESSURE,
    SPECIAL,
    TEMPERATURES,
    WITH_SINGLES,
    Channel,
    Channels,
    celsius,
    fahrenheit,
    fault,
    psi,
)

SOUND = {
    channel.kind: channel for channel in (fahrenheit(73.25), celsius(22.5), psi(40.0), fault(7))
}
FIRST, SECOND = SOUND[FAHRENHEIT], SOUND[PRESSURE]
CODES = (0, 1, 127, 128, 255)
NO_NUMBERS = SPECIAL["the quiet NaN of the smallest payload"], SPECIAL["minus infinity"]

OUT_OF_RANGE = {
    FAHRENHEIT: (fahrenheit(-20.1), fahrenheit(200.1)),
    CELSIUS: (celsius(-40.0), celsius(100.0)),
    PRESSURE: (psi(-0.5), psi(1500.5)),
}


def faulty(right):
    """With each fault that a channel can have, a wrong kind with those that it comes before too."""
    yield from map(fault, CODES)
    for kind in WITH_SINGLES:
        if kind not in right:
            yield SOUND[kind]
        yield from (Channel(kind, single) for single in NO_NUMBERS)
        yield from OUT_OF_RANGE[kind]


FAULTY_FIRST, FAULTY_SECOND = (*faulty(TEMPERATURES),), (*faulty((PRESSURE,)),)


def aimed():
    yield from (Channels(SOUND[one], SOUND[other]) for one, other in product(KINDS, repeat=2))
    yield from (Channels(first, SECOND) for first in FAULTY_FIRST)
    yield from (Channels(FIRST, second) for second in FAULTY_SECOND)
    yield from (Channels(*both) for both in product(FAULTY_FIRST, FAULTY_SECOND))
    for kind, single in product(WITH_SINGLES, SPECIAL.values()):
        yield Channels(Channel(kind, single), SECOND)
        yield Channels(FIRST, Channel(kind, single))
        yield Channels(Channel(kind, single), Channel(PRESSURE, single))
    for code in range(2**8):
        yield Channels(fault(code), SECOND)
        yield Channels(SOUND[CELSIUS], fault(code))


WRONG_KINDS = (
    *(b"", b"-", b"0", b"c", b"f", b"p", b"C", b"kelvin", b"temperature", b"psi", b"bar", b"live"),
    *(b"Celsius", b"CELSIUS", b"celsiu", b"celsius0", b"celsius\x00", b"celsius\t", b"\xc2\xb0c"),
    *(b"Fahrenheit", b"fahrenhei", b"fahrenheits", b"Pressure", b"pressur", b"pressure:"),
    *(b"Fault", b"faul", b"faults", b"fault7", b"channels", b"42928000"),
)
# Each is a fault code, a single, both or neither, by its form alone.
VALUES = (
    *(b"", b"-", b"0", b"1", b"7", b"9", b"12", b"99", b"100", b"127", b"128", b"199", b"200"),
    *(b"249", b"254", b"255", b"256", b"257", b"260", b"300", b"511", b"512", b"999", b"65535"),
    *(b"65536", b"4294967295", b"4294967296", b"18446744073709551616", b"18446744073709551623"),
    *(b"00", b"07", b"007", b"0255", b"-0", b"-1", b"-7", b"+7", b"7.0", b"7e0", b"0x7", b"9" * 40),
    *(b"00000000", b"00000007", b"12345678", b"42928000", b"80000000", b"7fc00000", b"ffffffff"),
    *(b"4292800", b"429280000", b"4292800g", b"4292800A", b"7FC00000", b"0x428000", b"-4292800"),
    *(b"4292 8000", b"42,28000", b"41b4\x000000", b"22.5", b"nan", b"inf", b"ff", b"fault"),
    *(b"7 ", b"7\r", b"\xd9\xa7"),
)


def bad_lines():
    """Most of them: what is in order of the values is told by the kind before."""
    kinds = [kind.encode("ascii") for kind in KINDS]
    first, second = b"celsius 41b40000", b"pressure 42200000"
    for word, value in product(WRONG_KINDS, (b"42200000", b"7")):
        yield b" ".join((b"channels", word, value, second))
        yield b" ".join((b"channels", first, word, value))
    for kind, value in product(kinds, VALUES):
        yield b" ".join((b"channels", kind, value, second))
        yield b" ".join((b"channels", first, kind, value))
    # a bad line whatever else would be refused
    for refused in (b"fault 7", b"pressure 42200000", b"celsius 7fc00000", b"celsius c2200000"):
        for bad in (b"fault 256", b"celsius 12", b"kelvin 42200000", b"pressure", b""):
            yield b" ".join((b"channels", refused, bad))
            yield b" ".join((b"channels", bad, refused))
    yield from miscounted(first, second)


def miscounted(first, second):
    """Operands missing, left over and out of their order."""
    yield from (b"channels", b"channels ", b"channels celsius", b"channels 41b40000")
    for one in (first, second, b"fault 7"):
        yield b"channels " + one
        yield b" ".join((b"channels", one, one, one))
        for more in (b"7", b"42200000", b"pressure", b"fault", b"-", b""):
            yield b" ".join((b"channels", one, more))
            yield b" ".join((b"channels", more, one))
            yield b" ".join((b"channels", first, second, more))
    yield from (b"channels 41b40000 42200000", b"channels 41b40000 celsius 42200000 pressure")
    yield b"channels celsius pressure 41b40000 42200000"
    yield b"channels celsius,41b40000 " + second
    yield from (b"channels celsius  41b40000 " + second, b"channels " + first + b"  " + second)
    yield from (b"channels celsius\t41b40000 " + second, b"channels fault 7 fault 7 0")
    yield from (b"channel " + first + b" " + second, b"live " + first + b" " + second)
