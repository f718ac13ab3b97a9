"""The kinds of requests that must be reached: at each own ceiling and reserve and one below it,
with the commons used up or one of them left, and where other figures would answer otherwise."""

from cases.book_shapes import NEW, PLACES, RESERVES, SHIPPERS, others_than
from outcomes import OK

ZERO, WAITING, CEILING, FULL = 22, 23, 24, 25
MOST_COMMONS = PLACES - SHIPPERS
# the others have at least one place each
MOST_OF_ONE = 13
BEYOND_REACH = (14, 15, 16)

AT_CEILING, AT_RESERVE = "at its ceiling", "at its reserve with the commons used up"


def answered(count, reserve, ceiling, used, commons):
    """What figures answer to a number that is not waiting."""
    if count >= ceiling:
        return CEILING
    return FULL if count >= reserve and used >= commons else OK


def by_other_figures(kept, shipper):
    """What is answered by one that takes other figures than the shipper's own or the book's."""
    figures, count, used = kept.figures, kept.counts[shipper], kept.used
    reserve, ceiling = figures.reserves[shipper], figures.ceilings[shipper]
    commons = figures.commons
    beyond_new = sum(max(count - new, 0) for count, new in zip(kept.counts, NEW.reserves))
    for other in others_than(shipper):
        told = answered(count, figures.reserves[other], ceiling, used, commons)
        yield f"shipper {other}'s reserve for shipper {shipper}'s", told
        told = answered(count, reserve, figures.ceilings[other], used, commons)
        yield f"shipper {other}'s ceiling for shipper {shipper}'s", told
    yield "a new book's reserve", answered(count, NEW.reserves[0], ceiling, used, commons)
    yield "a new book's ceiling", answered(count, reserve, NEW.ceilings[0], used, commons)
    yield "a new book's commons", answered(count, reserve, ceiling, used, NEW.commons)
    yield "commons used beyond 2", answered(count, reserve, ceiling, beyond_new, commons)
    if kept.before:
        told = answered(count, reserve, ceiling, used, kept.before.commons)
        yield "the commons before the setting", told


def reached(kept, shipper, what):
    figures, count = kept.figures, kept.counts[shipper]
    reserve, ceiling = figures.reserves[shipper], figures.ceilings[shipper]
    left = figures.commons - kept.used
    if count == ceiling:
        yield AT_CEILING
    if count == reserve and not left:
        yield AT_RESERVE
    if what in (ZERO, WAITING):
        return
    who = f"shipper {shipper}"
    if count in (ceiling, ceiling - 1):
        yield f"{who} at {count} of a ceiling of {ceiling}"
    if left in (0, 1) and count in (reserve, reserve - 1):
        yield f"{who} at {count} of a reserve of {reserve}, {left} of the commons left"
    if left in (0, 1) and count >= reserve:
        yield f"{left} left of commons of {figures.commons}"
    if count == MOST_OF_ONE and ceiling in BEYOND_REACH:
        yield f"{who} at {count} under a ceiling of {ceiling}"
    if not left and count == ceiling:
        yield f"{who} at its ceiling with the commons used up"
    for rule, told in by_other_figures(kept, shipper):
        if told != what:
            yield f"otherwise than by {rule}"


def wanted():
    """What is answered, and to which kind of request."""
    for what in (ZERO, WAITING):
        yield from ((what, kind) for kind in (AT_CEILING, AT_RESERVE))
    for shipper in range(SHIPPERS):
        yield from of_one(shipper)
    for commons in range(MOST_COMMONS + 1):
        yield FULL, f"0 left of commons of {commons}"
    for commons in range(1, MOST_COMMONS + 1):
        yield OK, f"1 left of commons of {commons}"
    for what in (CEILING, OK):
        yield what, "otherwise than by a new book's ceiling"
    for what in (FULL, OK):
        yield what, "otherwise than by a new book's reserve"
        yield what, "otherwise than by a new book's commons"
        yield what, "otherwise than by commons used beyond 2"
        yield what, "otherwise than by the commons before the setting"


def of_one(shipper):
    who = f"shipper {shipper}"
    for most in RESERVES:
        yield CEILING, f"{who} at {most} of a ceiling of {most}"
        yield OK, f"{who} at {most - 1} of a ceiling of {most}"
        yield FULL, f"{who} at {most} of a reserve of {most}, 0 of the commons left"
        yield OK, f"{who} at {most - 1} of a reserve of {most}, 0 of the commons left"
        if most < RESERVES[-1]:  # 13 leave no commons
            yield OK, f"{who} at {most} of a reserve of {most}, 1 of the commons left"
    for ceiling in BEYOND_REACH:
        yield FULL, f"{who} at {MOST_OF_ONE} under a ceiling of {ceiling}"
    yield CEILING, f"{who} at its ceiling with the commons used up"
    for other in others_than(shipper):
        for what in (FULL, OK):
            yield what, f"otherwise than by shipper {other}'s reserve for {who}'s"
        for what in (CEILING, OK):
            yield what, f"otherwise than by shipper {other}'s ceiling for {who}'s"
