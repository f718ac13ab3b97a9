"""How large the letters of a printed page may be: the largest size at which all blocks fit a sheet of Letter or A4.
Lines are counted, with some room to spare; no figure comes from here."""

from dataclasses import dataclass
from math import ceil

from .page import Blanks, Grid, Notes, Octets, Pairs, Section

# In millimetres: what Letter and A4 have in common inside margins of 12.
WIDTH, HEIGHT, PLOT = 186, 251, 100
LARGEST, SMALLEST, STEP = 3.1, 1.5, 0.05
# A page whose letters would be smaller is set tight: its rows close together, and its third table beside the conclusion
# where no plot stands there.
LEGIBLE = 2.3
# In sizes of a letter: a line, a table's line and a tight one, a digit, a letter of text, a column's padding.
LINE, ROW, TIGHT, DIGIT, LETTER, PADDING = 1.3, 1.3, 1.12, 0.64, 0.56, 0.55
# What the rules of a table take besides.
RULES = 1.4
NAME, SIGNATURES = 12.5, 5.5
PLOT_SHAPE = 520 / 900
# A value that is longer takes a line of its own.
LONGEST_IN_HALF = 42


@dataclass(frozen=True)
class Parts:
    """A page's blocks: above the conclusion, beside it, the conclusion, and the rest."""

    above: list
    side: list
    conclusion: list
    rest: list

    @property
    def grids(self):
        return grids_of(self.above)

    @property
    def tight(self):
        """The same with the third table beside the conclusion, which a fourth then stands above."""
        if len(self.grids) < 3:
            return self
        starts = [at for at, block in enumerate(self.above) if isinstance(block, Section)]
        third = [at for at, block in enumerate(self.above) if isinstance(block, Grid)][2]
        start = max(at for at in starts if at < third)
        end = min([at for at in starts if at > third], default=len(self.above))
        return Parts(self.above[:start], self.above[start:end], self.above[end:] + self.conclusion, self.rest)


@dataclass(frozen=True)
class Fit:
    """The size of a letter in millimetres, how many of the tables, from the first on, stand side by side, the height of
    a table's line in sizes, and the blocks in their places."""

    size: float
    beside: int
    row: float
    parts: Parts

    @property
    def side(self):
        """The width of what stands beside the conclusion."""
        return side_of(self.parts, self.size)


def grids_of(blocks):
    return [block for block in blocks if isinstance(block, Grid)]


def width_of(grid):
    """In sizes of a letter."""
    columns = [column for _, own in grid.groups for column in own]
    cells = [*zip(*columns), *grid.rows]
    return sum(max(len(row[at]) for row in cells) * DIGIT + PADDING for at in range(len(columns))) + len(grid.groups)


def height_of(grid, row):
    return (len(grid.rows) + 3 + bool(grid.foot)) * row + RULES


def side_of(parts, size):
    return max((ceil(width_of(grid) * size + 2) for grid in grids_of(parts.side)), default=0)


def lines_of(text, room):
    return max(1, ceil(len(text) * LETTER / room))


def halves(rows):
    """Names and values as they stand: two short ones beside each other, a long one alone."""
    lines, open_line = [], False
    for row in rows:
        alone = len(row[1]) > LONGEST_IN_HALF
        if open_line and not alone:
            lines[-1].append(row)
        else:
            lines.append([row])
        open_line = not alone and not (open_line and len(lines[-1]) == 2)
    return lines


def pairs_height(rows, room, single):
    if single:
        return sum(lines_of(value, room - NAME) for _, value in rows)
    return sum(
        max(lines_of(value, (room if len(value) > LONGEST_IN_HALF else room / 2 - 2) - NAME) for _, value in line)
        for line in halves(rows)
    )


def height(block, size, width, row=ROW):
    """A block's height in sizes of a letter, on a width in millimetres."""
    room = width / size
    match block:
        case Section():
            return 2.3
        case Pairs(rows, alone):
            return LINE * pairs_height(rows, room, alone or width < WIDTH) + 0.4
        case Blanks(names):
            return LINE * 1.4 * ceil(len(names) / 2) + 0.4
        case Grid():
            return height_of(block, row)
        case Notes(lines):
            return LINE * sum(lines_of(text, room) for text in lines) + 0.4
        case Octets(text):
            return LINE * lines_of(text, room) + 0.4
    return SIGNATURES


def total(parts, verdict, size, beside, row, has_plot):
    """The page's height in millimetres."""
    grids = [height_of(grid, row) for grid in parts.grids]
    sizes = 3 + sum(LINE * lines_of(words, WIDTH / size - 2) for words in verdict) + 2 * bool(verdict)
    sizes += sum(height(block, size, WIDTH) for block in parts.above if not isinstance(block, Grid))
    sizes += max(grids[:beside], default=0) + sum(grids[beside:])
    taken = PLOT if has_plot else side_of(parts, size)
    share = WIDTH - taken - 3 if taken else WIDTH
    concluded = sum(height(block, size, share, row) for block in parts.conclusion)
    stands = PLOT * PLOT_SHAPE / size + 0.4 if has_plot else sum(height(each, size, taken, row) for each in parts.side)
    return (sizes + max(concluded, stands) + sum(height(block, size, WIDTH) for block in parts.rest)) * size


def wide_enough(parts, size, beside):
    widths = [width_of(grid) * size + 4 for grid in parts.grids]
    concluded = [width_of(grid) * size + 4 for grid in grids_of(parts.conclusion)]
    share = WIDTH - side_of(parts, size) - 3
    return max([sum(widths[:beside]), *widths[beside:]]) - 4 <= WIDTH and max(concluded, default=0) <= share


def largest(parts, verdict, row, has_plot):
    """The better of tables beneath each other and side by side; the smallest size where nothing fits."""
    grids = parts.grids
    count = int((LARGEST - SMALLEST) / STEP) + 1
    for size in (LARGEST - STEP * at for at in range(count)):
        for beside in range(1, len(grids) + 1) or (0,):
            if wide_enough(parts, size, beside) and total(parts, verdict, size, beside, row, has_plot) <= HEIGHT:
                return Fit(round(size, 2), beside, row, parts)
    return Fit(SMALLEST, len(grids), row, parts)


def fit(parts, verdict, has_plot):
    loose = largest(parts, verdict, ROW, has_plot)
    if loose.size >= LEGIBLE:
        return loose
    tight = largest(parts if has_plot else parts.tight, verdict, TIGHT, has_plot)
    return max(loose, tight, key=lambda own: own.size)
