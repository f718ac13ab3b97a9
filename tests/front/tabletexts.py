"""Tables of compressibilities by chance, sound and faulty, as CSVs and as the records that the program is lent."""

import struct

from front.units import shown

HEADINGS = "temperature,gravity,F"
MARKED = "# Made for trying: not the printed table"
RECORD = struct.Struct("<hHHH")
# Half degrees in tenths: all that a table may have.
TEMPERATURES, GRAVITIES = range(-200, 2001, 5), range(0, 901, 5)


def csv_of(entries, above=(MARKED,)):
    """Entries are (temperature, gravity, F) in counts; below the headings each takes a line."""
    lines = [f"{shown(t, 1, False)},{shown(g, 1, False)},{shown(f, 3, False)}" for t, g, f in entries]
    return "\n".join([*above, HEADINGS, *lines]) + "\n"


def line_of(place, above=(MARKED,)):
    """The line of an entry by its place from 0."""
    return len(above) + 2 + place


def records_of(entries):
    return b"".join(RECORD.pack(*entry, 0) for entry in entries)


def ordered(entries):
    return sorted(entries, key=lambda entry: (entry[1], entry[0]))


def sound(rng, count):
    """A table that keeps every rule: some temperatures of some gravities, F at its ends at times."""
    pairs = {(rng.choice(TEMPERATURES), rng.choice(GRAVITIES)) for _ in range(count)}
    return ordered((t, g, rng.choice((0, 10000, rng.randint(200, 4000)))) for t, g in pairs)


def faulty(rng, entries):
    """The same with a fault somewhere, or several; at times it is sound still."""
    made = list(entries)
    for _ in range(rng.choice((0, 1, 1, 1, 2))):
        at = rng.randrange(len(made))
        t, g, f = made[at]
        made[at : at + 1] = rng.choice(
            (
                [(t + rng.choice((-4, -3, 1, 2)), g, f)], [(t, g + rng.choice((1, 2, 3, 4)), f)],
                [(rng.choice((-205, 2005, -32768, 32767)), g, f)], [(t, rng.choice((905, 65535)), f)],
                [(t, g, rng.choice((10001, 65535)))], [(t, g, f), (t, g, f)], [(t, g, f), (t, g, rng.randint(0, 9999))],
                [made[rng.randrange(len(made))]], [made[at - 1], (t, g, f)],
            )
        )  # fmt: skip
    return made


def verdict(entries):
    """The place, from 0, of the first entry that is faulty or out of order; None where there is none. Worked out here
    from 02's words, to be held against the program's."""
    for place, (t, g, f) in enumerate(entries):
        ranges = -200 <= t <= 2000 and 0 <= g <= 900 and 0 <= f <= 10000
        if not ranges or t % 5 or g % 5 or place and (g, t) <= (entries[place - 1][1], entries[place - 1][0]):
            return place
    return None
