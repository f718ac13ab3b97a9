"""What of a step and of the book a refusal is about. The line program has judged; here are found the rules that are
broken, to say them all."""

from collections import Counter
from dataclasses import replace

from .fields import CEILING, NUMBER, REQUEST, RESERVE
from .hints import offer
from .places import PLACES, SHIPPERS, Figures
from .refusals import Detail

LAST_SHIPPER = SHIPPERS - 1
# What four reserves can add up to: each is at least 1.
ADDED_UP = (4, PLACES)


def about(number, step, book, given):
    """The details of a refusal: the step, the program's book, the one last given from outside."""
    who, which = (*step.words[1:], None, None)[:2]
    match number:
        case 20:
            # No step but load makes a book that is not sound, and nothing but load and empty changes one.
            return of_book(given)
        case 21:
            return (Detail(f"shipper is {who}, range 0 to 3", "shipper", who, 0, LAST_SHIPPER, NUMBER),)
        case 22:
            return (of_number(which, ""),)
        case 23:
            return (f"request {which} waits in the line of shipper {who}",)
        case 24:
            return (f"{has(who, book)}, range up to its ceiling of {book.figures.ceilings[who]}",)
        case 25:
            return (f"{has(who, book)}, range up to its reserve of {book.figures.reserves[who]} {commons(book)}",)
        case 26:
            return (f"request {which} does not wait in the line of shipper {who}",)
        case 30:
            waiting = ", ".join(has(each, book) for each in range(SHIPPERS) if book.lines[each])
            return (f"{waiting}: figures are set where nobody waits",)
        case 31:
            return of_set(step.figures)
    return ("no shipper has a request waiting",)


def has(who, book):
    return f"shipper {who} has {book.counts[who]} waiting"


def commons(book):
    if not book.commons:
        return "since the book has no commons"
    return f"while the commons are used up, {book.used} of {book.commons}"


def of_number(which, at):
    words = f"{at}request number is {which}, range {REQUEST.range}"
    return Detail(words, "request", which, REQUEST.low, REQUEST.high, NUMBER)


def of_figures(figures):
    """Each rule that figures break; none where they keep them all."""
    found = []
    for who, (own, ceiling) in enumerate(zip(figures.reserves, figures.ceilings)):
        if not RESERVE.within(own):
            found.append(of_figure(RESERVE, who, own, RESERVE.range))
        # A ceiling's range begins at the reserve, if that is one.
        known = replace(CEILING, low=own) if RESERVE.within(own) else CEILING
        if not known.within(ceiling):
            from_reserve = f"{own} (its reserve) to {known.high}" if RESERVE.within(own) else known.range
            found.append(of_figure(known, who, ceiling, from_reserve))
    in_all = sum(figures.reserves)
    if in_all > PLACES:
        words = f"the reserves add up to {in_all}, range up to {PLACES}"
        found.append(Detail(words, "reserves", in_all, *ADDED_UP, NUMBER))
    return tuple(found)


def of_figure(field, who, count, ends):
    named = f"{field.label} of shipper {who}"
    return Detail(f"{named} is {count}, range {ends}", named, count, field.low, field.high, field.unit)


def of_set(figures):
    """What the figures break; and where they were given ceilings first, or shipper by shipper, how to give them."""
    eight = figures.words
    orders = dict.fromkeys((eight[SHIPPERS:] + eight[:SHIPPERS], eight[::2] + eight[1::2]))
    meant = [f"set {' '.join(map(str, order))}" for order in orders if not of_figures(Figures.of(order))]
    told = of_figures(figures)
    return (*told, f"{offer(meant, ())} the four reserves come first, then the four ceilings") if meant else told


def of_book(book):
    """Each rule that a book from outside breaks."""
    found = []
    if book.last > LAST_SHIPPER:
        words = f"last served is shipper {book.last}, range 0 to 3"
        found.append(Detail(words, "last", book.last, 0, LAST_SHIPPER, NUMBER))
    found += of_figures(book.figures)
    for who, line in enumerate(book.lines):
        if len(line) > book.figures.ceilings[who]:
            found.append(f"{has(who, book)}, range up to its ceiling of {book.figures.ceilings[who]}")
        if 0 in line:
            found.append(of_number(0, f"shipper {who}: "))
        twice = [which for which, times in Counter(line).items() if times > 1 and which]
        found += (f"request {which} waits more than once in the line of shipper {who}" for which in twice)
    return *found, *of_commons(book)


def of_commons(book):
    """More waiting beyond the reserves than the commons hold; reserves beyond all places leave none, and are told."""
    room = PLACES - sum(book.figures.reserves)
    beyond = sum(max(count - own, 0) for count, own in zip(book.counts, book.figures.reserves))
    if 0 <= room < beyond:
        return (f"{beyond} waiting beyond the reserves, range up to the commons of {room}",)
    return ()
