"""Cases of `look_up`."""

from dataclasses import replace
from itertools import chain, product

from . import ends, faulty_lookups
from .lookup_shapes import (
    GRAVITIES,
    HALF,
    MOST,
    ROW,
    TEMPERATURES,
    LookUp,
    Row,
    among_neighbours,
    any_rows,
    asked_of,
    rows_of,
    without_its_own,
)
from .proving_days import within

LONGEST_TABLES = (MOST - 1, MOST)
DENSE = 8  # half degrees in a row


def aimed(rng):
    for look_up in chain(
        every_number(rng),
        rests(rng),
        places(rng),
        missing(rng),
        answers(rng),
        orders(rng),
        past_ends(rng),
        faulty_lookups.aimed(rng),
    ):
        yield look_up.line


def every_number(rng):
    """Each temperature and each gravity that can be asked, of a table with all half degrees around
    it: rounded another way, it would find another record."""
    for temperature in range(ends.TEMPERATURE[0], ends.TEMPERATURE[1] + 1):
        yield among_neighbours(temperature, rng.randint(*ends.GRAVITY), rng)
    for gravity in range(ends.GRAVITY[0], ends.GRAVITY[1] + 1):
        yield among_neighbours(rng.randint(*ends.TEMPERATURE), gravity, rng)


def rests(rng):
    """Each tenth of both, above zero and below; then without the record that they go to."""
    for by, sign, more in product(range(HALF), (1, -1), range(HALF)):
        temperature = sign * (HALF * rng.randint(2, 38) + by)
        look_up = among_neighbours(temperature, HALF * rng.randint(2, 178) + more, rng)
        yield look_up
        yield without_its_own(look_up)
    for temperature in range(-7, 8):
        for gravity in (0, 1, 2, 3, 897, 898, 900):
            look_up = among_neighbours(temperature, gravity, rng)
            yield look_up
            yield without_its_own(look_up)


def places(rng):
    """Each place of small tables; in the longest both ends and the middle."""
    for count in range(1, 18):
        rows = any_rows(count, rng)
        yield from (LookUp(0, 0, rows).asking(row) for row in rows)
    for count in LONGEST_TABLES:
        rows = any_rows(count, rng)
        for record in (1, 2, count // 2, count - 1, count):
            yield LookUp(0, 0, rows).asking(rows[record - 1])


def missing(rng):
    """Each place where a record can be missing; and what is there in its stead."""
    for count in range(1, 18):
        rows = any_rows(count + 1, rng)
        for at, row in enumerate(rows):
            yield LookUp(0, 0, rows).asking(row).without_row(at)
    for count in LONGEST_TABLES:
        rows = any_rows(count + 1, rng)
        for at in (0, count // 2, count):
            yield LookUp(0, 0, rows).asking(rows[at]).without_row(at)
    for temperature, gravity in product((-200, -100, 0, 600, 2000), (0, 5, 300, 900)):
        # one record, no more than half a degree off or far away
        for warmer, more in product((-1, 0, 1, 20), repeat=2):
            pair = temperature + HALF * warmer, gravity + HALF * more
            if pair[0] in TEMPERATURES and pair[1] in GRAVITIES:
                yield LookUp(temperature, gravity, (Row(*pair),))
        # the temperature at another gravity, and the gravity with another temperature
        apart = (Row(temperature, 445), Row(445, gravity))
        yield LookUp(temperature, gravity, tuple(sorted(apart, key=lambda row: row.rank)))


def answers(rng):
    """The ends of what a record can say, and both bytes of each number."""
    temperatures = (-200, -195, -10, -5, 0, 5, 255, 260, 1995, 2000)
    gravities = (0, 5, 255, 260, 510, 515, 895, 900)
    for temperature, gravity in product(temperatures, gravities):
        factor = rng.choice((0, 1, 255, 256, 9999, 10000))
        yield LookUp(temperature, gravity, (Row(temperature, gravity, factor),))
    for factor in ends.around((ends.COMPRESSIBILITY, ends.U16)):
        yield LookUp(1000, 199, (Row(1000, 200, factor),))
    for factor in (255, 256, 448, 2560):
        yield LookUp(1000, 199, (Row(1000, 200, factor),))


# Two records, one after the other: how the temperature goes on, and how the gravity.
TEMPERATURE_STEPS = (
    *((-200, 2000), (2000, -200), (-5, 0), (0, -5), (-5, 5), (5, -5), (-10, -5), (-5, -10)),
    *((255, 260), (260, 255), (100, 105), (105, 100), (-5, -5), (0, 0), (100, 100)),
)
GRAVITY_STEPS = ((200, 200), (200, 205), (205, 200), (255, 260), (260, 255), (100, 800), (800, 100))


def orders(rng):
    """Two records in every order of temperature and of gravity, alone and in the middle of others;
    the second is asked for, or one of the others."""
    for temperatures, gravities in product(TEMPERATURE_STEPS, GRAVITY_STEPS):
        two = tuple(map(Row, temperatures, gravities, rng.sample(range(10001), 2)))
        yield LookUp(0, 0, two).asking(two[1])
        below = any_rows(rng.randint(1, 4), rng, gravities=range(0, 100, HALF))
        above = any_rows(rng.randint(1, 4), rng, gravities=range(805, 901, HALF))
        rows = (*below, *two, *above)
        yield LookUp(0, 0, rows).asking(rng.choice(rows))
    # above the first record, and still not above the one before
    for gravity, temperature in ((205, 100), (200, 105)):
        yield LookUp(0, 100, (Row(0, 100), Row(110, 205), Row(temperature, gravity)))


def past_ends(rng):
    """Past the ends of what can be asked, at each distance from a half degree that is there."""
    for temperature in (*ends.around(ends.ASKED["temperature"]), -202, -203, 2002, 2003):
        for gravity in (0, 300, 900, 901):
            yield LookUp(temperature, gravity, corners(gravity, rng))
    for gravity in (*ends.around(ends.ASKED["gravity"]), 902, 903, 2**15, 2**16 - 2):
        for temperature in (-201, -200, 0, 2000, 2001):
            # to the nearest half degree in 16 bits, the last of these would be gravity 0
            yield LookUp(temperature, gravity, corners(0, rng))


def corners(gravity, rng):
    """Both ends of the temperature, and 0, at both ends of the gravity and at this one."""
    gravities = {*ends.GRAVITY, within(gravity, ends.GRAVITY)}
    return rows_of(product(gravities, (*ends.TEMPERATURE, 0)), rng)


def spoiled(rows, rng):
    """A table with one thing changed, which most times is a fault."""
    at, other = rng.randrange(len(rows)), rng.randrange(len(rows))
    changed = list(rows)
    chance = rng.randrange(6)
    if chance == 0:
        name = rng.choice((*ends.TABLE_ROW,))
        changed[at] = rows[at]._replace(**{name: ends.outside(ends.TABLE_ROW[name], rng)})
    elif chance == 1:
        changed[at] = rows[at]._replace(temperature=rows[at].temperature + rng.randint(-4, 4))
    elif chance == 2:
        changed[at] = rows[at]._replace(gravity=rows[at].gravity + rng.randint(0, 4))
    elif chance == 3:
        changed[at] = rows[at]._replace(byte_6=rng.randint(0, 1), byte_7=rng.randint(0, 255))
    elif chance == 4:
        changed[at], changed[other] = rows[other], rows[at]
    else:
        changed.insert(at, rows[other])
    return tuple(changed)


def some_in_a_row(steps, rng):
    start = rng.randint(0, len(steps) - DENSE)
    return steps[start : start + DENSE]


def by_chance(rng):
    count = rng.choice((1, 2, 3, rng.randint(1, 9), rng.randint(4, 24), rng.randint(1, 60)))
    if rng.random() < 0.004:
        count = rng.choice((MOST - 1, MOST, MOST + 1))
    # half of the short tables are dense, so that what is asked has neighbours there
    steps = (TEMPERATURES, GRAVITIES)
    if count <= DENSE**2 and rng.random() < 0.5:
        steps = (some_in_a_row(TEMPERATURES, rng), some_in_a_row(GRAVITIES, rng))
    look_up = asked_of(any_rows(count, rng, *steps), rng)
    chance = rng.random()
    if chance < 0.15:
        look_up = replace(look_up, temperature=rng.randint(-210, 2010))
    elif chance < 0.25:
        look_up = replace(look_up, gravity=rng.randint(0, 910))
    elif chance < 0.5:
        look_up = replace(look_up, rows=spoiled(look_up.rows, rng))
    elif chance < 0.53:
        look_up = replace(look_up, tail=rng.randbytes(rng.randrange(ROW.size)))
    return look_up.line
