"""What is wrong with a book from outside, or with figures, each found whatever else there is."""

from cases.book_shapes import PLACES, RESERVES, SHIPPERS

LAST, COMMONS, TOO_MANY = "the last served", "more than the commons", "reserves of more than 16"
OF_A_FIGURE = (
    "a reserve below 1",
    "a reserve above 13",
    "a ceiling below its reserve",
    "a ceiling above 16",
)
OF_A_LINE = ("more than its ceiling", "a zero", "a number twice", "an unused place")


def of(fault, shipper):
    return f"{fault} of shipper {shipper}"


def kinds():
    """Every fault that a book can have."""
    yield from (LAST, COMMONS)
    yield from (of(fault, shipper) for fault in OF_A_LINE for shipper in range(SHIPPERS))
    yield from kinds_of_figures()


def kinds_of_figures():
    yield TOO_MANY
    yield from (of(fault, shipper) for fault in OF_A_FIGURE for shipper in range(SHIPPERS))


def faults_of_figures(figures):
    for shipper, (reserve, ceiling) in enumerate(zip(figures.reserves, figures.ceilings)):
        found = (
            reserve < RESERVES[0],
            reserve > RESERVES[-1],
            ceiling < reserve,
            ceiling > PLACES,
        )
        yield from (of(fault, shipper) for fault, is_so in zip(OF_A_FIGURE, found) if is_so)
    # a reserve above 13 brings more than 16 with it, and is told alone
    if max(figures.reserves) <= RESERVES[-1] and figures.commons < 0:
        yield TOO_MANY


def faults(last, counts, figures, lines):
    in_rules = True
    for fault in faults_of_figures(figures):
        in_rules = False
        yield fault
    if last >= SHIPPERS:
        yield LAST
    beyond = sum(max(count - reserve, 0) for count, reserve in zip(counts, figures.reserves))
    if in_rules and beyond > figures.commons:
        yield COMMONS
    for shipper, (count, places) in enumerate(zip(counts, lines)):
        numbers, unused = places[:count], places[count:]
        found = (
            in_rules and count > figures.ceilings[shipper],
            0 in numbers,
            len({*numbers} - {0}) < len(numbers) - numbers.count(0),
            any(unused),
        )
        yield from (of(fault, shipper) for fault, is_so in zip(OF_A_LINE, found) if is_so)
