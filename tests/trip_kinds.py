"""The kinds of round trips that must be reached: how many passes, which three agree and what else
would, spreads at the limit, exact halves and rests, pressures."""

from typing import Callable, NamedTuple

from cases.arithmetic import half_up
from cases.draw_days import LIMIT
from faults import GROUP, NUMBERS, ODD, PASSES
from outcomes import OK
from round_trips import OTHERS, agree, first_three, paired

BARREL = 970_200  # 0.01 cubic inch


class Kind(NamedTuple):
    """What `bidirectional` and what `trips` answers where it holds."""

    name: str
    bidirectional: object
    trips: object
    holds: Callable


def miscounted(name, holds):
    return Kind(name, NUMBERS[ODD], NUMBERS[ODD], holds)


def refused(name, holds):
    return Kind(name, NUMBERS[GROUP], OK, lambda of: of.first is None and holds(of))


def accepted(name, holds):
    return Kind(name, OK, OK, lambda of: of.first is not None and holds(of))


COUNTS = (
    *(
        miscounted(f"{count} passes", lambda of, count=count: of.count == count)
        for count in (*range(1, 6), *range(7, 22, 2), 22, 59, 60)
    ),
    miscounted(
        "an odd count that qualifies without its last pass",
        lambda of: of.count % 2 and of.first is not None,
    ),
    miscounted(
        "an odd count that qualifies without its first pass",
        lambda of: of.count % 2 and first_three(paired(of.passes[1:])) is not None,
    ),
    miscounted(
        "an even count above 20 that qualifies by its first 20",
        lambda of: of.count % 2 == 0 and of.count > 20 and first_three(of.trips[:10]) is not None,
    ),
)

PLACES = (
    *(
        refused(f"no three of {count // 2}", lambda of, count=count: of.count == count)
        for count in PASSES
    ),
    *(
        accepted(
            f"round trips from {first + 1} on of {count // 2}",
            lambda of, count=count, first=first: (of.count, of.first) == (count, first),
        )
        for count in PASSES
        for first in range(count // 2 - 2)
    ),
)

GROUPINGS = (
    *(
        refused(
            f"{name} that agree alone", lambda of, other=other: other(of.passes) is not None
        )
        for name, other in OTHERS.items()
    ),
    *(
        accepted(
            f"{name} that agree elsewhere",
            lambda of, other=other: other(of.passes) not in (None, 2 * of.first),
        )
        for name, other in OTHERS.items()
    ),
    accepted("passes in a row that never agree", lambda of: first_three(of.passes) is None),
    accepted(
        "out passes apart and back passes apart",
        lambda of: not agree(of.used_passes[0::2]) and not agree(of.used_passes[1::2]),
    ),
)

SPREADS = (
    accepted("the largest spread", lambda of: (of.spread + 1) * 10_000 > LIMIT * min(of.used)),
    accepted("a spread at the limit", lambda of: of.spread * 10_000 == LIMIT * min(of.used)),
    refused(
        "a spread one too large",
        lambda of: of.count == 6 and (of.spread - 1) * 10_000 <= LIMIT * min(of.used),
    ),
    refused(
        "a spread within the limit of the largest",
        lambda of: of.count == 6 and of.spread * 10_000 <= LIMIT * max(of.used),
    ),
)

ROUNDINGS = (
    accepted("a half in the out pass", lambda of: (True, False) in of.halves),
    accepted("a half in the back pass", lambda of: (False, True) in of.halves),
    accepted("a half in both passes", lambda of: (True, True) in of.halves),
    accepted("exact passes whose sum rounds to more", lambda of: 1 in of.turns),
    accepted("exact passes whose sum rounds to less", lambda of: -1 in of.turns),
    *(
        accepted(f"a mean with rest {rest}", lambda of, rest=rest: sum(of.used) % 3 == rest)
        for rest in range(3)
    ),
    accepted(
        "barrels that turn on the base being rounded",
        lambda of: half_up(sum(of.used) * 10_000, 3 * BARREL)
        != half_up(half_up(sum(of.used), 3) * 10_000, BARREL),
    ),
    refused("a round trip past 32 bits", lambda of: max(of.trips) >= 2**32),
)

PRESSURES = (
    accepted("more pressure out than back", lambda of: max(of.leans) > 0),
    accepted("more pressure back than out", lambda of: min(of.leans) < 0),
    accepted("one pressure out and back", lambda of: 0 in of.leans and max(of.pressures) > 0),
    accepted(
        "round trips that do not agree, or elsewhere, by the out pass's pressure",
        lambda of: first_three(of.by_out_pressure) != of.first,
    ),
    refused(
        "round trips that agree by the out pass's pressure",
        lambda of: first_three(of.by_out_pressure) is not None,
    ),
)

STANDING = (*PLACES, *GROUPINGS, *SPREADS, *ROUNDINGS, *PRESSURES)


def reached(trips):
    kinds = STANDING if trips.count in PASSES else COUNTS
    return [kind.name for kind in kinds if kind.holds(trips)]


def wanted(entry):
    return [(getattr(kind, entry), kind.name) for kind in (*COUNTS, *STANDING)]
