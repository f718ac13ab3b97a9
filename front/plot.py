"""The run factors as a picture: SVG, drawn by hand. Only the places of marks are worked out here."""

import html
import re

from . import page
from .fields import LIMIT
from .plot_scale import BOTTOM, HEIGHT, LEFT, RIGHT, TOP, WIDTH, Scale
from .units import shown

INK, QUIET, ACCEPTED, BAND, OTHER = "#1f2933", "#9aa5b1", "#0b6e4f", "#cfe8dc", "#ffffff"
REFUSED = "#a4161a"
LONGEST_NAME = 66
UNTITLED = "Meter proving"


def words(text):
    """A text as XML holds it: control characters have no place there."""
    held = re.sub(r"[^\t\n\r\x20-\ud7ff\ue000-\ufffd\U00010000-\U0010ffff]", "?", text)
    return html.escape(held, quote=False)


def label(x, y, text, anchor="middle", size=15, extra=""):
    return f'<text x="{x:.1f}" y="{y:.1f}" text-anchor="{anchor}" font-size="{size}"{extra}>{words(text)}</text>'


def line(x1, y1, x2, y2, colour, extra=""):
    return f'<line x1="{x1:.1f}" y1="{y1:.1f}" x2="{x2:.1f}" y2="{y2:.1f}" stroke="{colour}"{extra}/>'


def axes(frame):
    right, floor = WIDTH - RIGHT, HEIGHT - BOTTOM
    drawn = []
    for there, edge, y in ((frame.above, frame.ceiling, frame.ceiling - 14), (frame.below, frame.floor, floor - 14)):
        if there:
            drawn += [line(LEFT, edge, right, edge, INK, ' stroke-width="0.7" stroke-dasharray="6 3"')]
            drawn += [label(LEFT - 10, y, "off the scale", "end", 11)]
    for factor in frame.steps:
        y = frame.y(factor)
        drawn.append(line(LEFT, y, right, y, QUIET, ' stroke-width="0.5" stroke-dasharray="2 4"'))
        drawn.append(label(LEFT - 10, y + 4, shown(factor, 4), "end"))
    drawn += [label(frame.x(run), floor + 22, str(run)) for run in range(1, frame.count + 1)]
    drawn += [line(LEFT, floor, right, floor, INK), line(LEFT, TOP, LEFT, floor, INK)]
    drawn.append(label((LEFT + right) / 2, floor + 50, "Run", size=16))
    middle = (TOP + floor) / 2
    drawn.append(label(24, middle, "Run factor", size=16, extra=f' transform="rotate(-90 24 {middle:.1f})"'))
    return drawn


def band(frame, group, limit):
    """The band of the limit above the smallest of these factors, over their runs."""
    top, height = frame.band(group.smallest, limit)
    left, right = frame.x(group.numbers[0] - 0.5), frame.x(group.numbers[-1] + 0.5)
    place = f'x="{left:.1f}" y="{top:.1f}" width="{right - left:.1f}" height="{height:.1f}"'
    return [f'<rect class="band" {place} fill="{BAND}"/>']


def meter_factor(frame, factor):
    """The accepted five's mean, as a line with its name."""
    y = frame.y(factor)
    look = ' class="meter-factor" stroke-width="1.5" stroke-dasharray="8 4"'
    told = f"meter factor {shown(factor, 4)}"
    return [
        line(LEFT, y, WIDTH - RIGHT, y, ACCEPTED, look),
        label(WIDTH - RIGHT + 10, y + 4, told, "start", extra=f' fill="{ACCEPTED}"'),
    ]


def marks(frame, factors, accepted):
    drawn = []
    points = " ".join(f"{frame.x(run):.1f},{frame.mark(factor):.1f}" for run, factor in enumerate(factors, 1))
    drawn.append(f'<polyline points="{points}" fill="none" stroke="{QUIET}"/>')
    for run, factor in enumerate(factors, 1):
        name, fill = ("accepted", ACCEPTED) if run in accepted else ("other", OTHER)
        x, y = frame.x(run), frame.mark(factor)
        drawn.append(
            f'<circle class="run {name}" cx="{x:.1f}" cy="{y:.1f}" r="6" fill="{fill}" stroke="{INK}">'
            f"<title>run {run}: {shown(factor, 4)}</title></circle>"
        )
        if frame.is_off(factor):
            drawn.append(label(x + 10, y + 4, shown(factor, 4), "start", 14, ' class="off"'))
    return drawn


def legend(job, outcome):
    """What the marks mean, beside the top of the picture."""
    x, y = WIDTH - RIGHT + 18, TOP + 6
    circle = f'<circle cx="{x}" cy="{{y}}" r="6" fill="{{fill}}" stroke="{INK}"/>'
    square = f'<rect x="{x - 7}" y="{{top}}" width="14" height="12" fill="{{fill}}"/>'
    rows = [(circle, ACCEPTED, "accepted run")] if outcome else []
    rows += [(circle, OTHER, "run"), (square, BAND, f"limit, {LIMIT.text(job.limit)}")]
    drawn = []
    for at, (mark, fill, told) in enumerate(rows):
        here = y + 24 * at
        drawn += [mark.format(y=here, top=here - 6, fill=fill), label(x + 14, here + 4, told, "start")]
    return drawn


def headline(job):
    """The job's title, cut to what the picture holds."""
    name = job.heading.get("title", UNTITLED)
    return name if len(name) <= LONGEST_NAME else name[:LONGEST_NAME] + " .."


def summary(worked):
    outcome = worked.answer
    if worked.refusal:
        best = f"best five: runs {worked.group.numbers[0]} to {worked.group.numbers[-1]}"
        return f"NOT ACCEPTED, {worked.refusal.headline}; {best}"
    return f"runs {outcome.first} to {outcome.accepted[-1]} accepted, meter factor {shown(outcome.factor, 4)}"


def draw(worked):
    """The picture's text."""
    job, outcome = worked.job, worked.answer
    factors = [own["factor"] for own in worked.runs]
    frame = Scale(factors, worked.group.values, job.limit)
    name, told = headline(job), summary(worked)
    colour = f' fill="{REFUSED}" font-weight="bold"' if worked.refusal else ""
    parts = [
        f'<svg xmlns="http://www.w3.org/2000/svg" width="{WIDTH}" height="{HEIGHT}" viewBox="0 0 {WIDTH} {HEIGHT}"'
        f' font-family="DejaVu Sans, Arial, sans-serif" fill="{INK}" role="img">',
        f"<title>{words(name)}: {words(told)}</title>",
        f"<desc>{page.origin(job)}</desc>",
        f'<rect width="{WIDTH}" height="{HEIGHT}" fill="#ffffff"/>',
        label(LEFT, 34, name, "start", 18, ' font-weight="bold"'),
        label(LEFT, 58, f"Request {job.request}: {told}", "start", 15, colour),
        *band(frame, worked.group, job.limit),
        *(meter_factor(frame, outcome.factor) if outcome else []),
        *axes(frame),
        *marks(frame, factors, worked.accepted),
        *legend(job, outcome),
        "</svg>",
    ]
    return "\n".join(parts) + "\n"
