"""A page for print: one sheet of Letter or A4, one file, nothing fetched. It sets the same blocks as the plain text."""

from string import Template

from . import version
from .html_fit import LONGEST_IN_HALF, PLOT, WIDTH, Parts, fit
from .page import Blanks, Grid, Notes, Octets, Pairs, Section, Signatures
from .plot import words

STYLE = Template("""
@page { margin: 12mm }
* { box-sizing: border-box }
html { background: #fff; color: #111 }
body { margin: 0 auto; width: ${width}mm; font: ${size}mm/1.3 "Liberation Sans", Arial, Helvetica, sans-serif;
  font-variant-numeric: tabular-nums }
@media screen { body { padding: 12mm 0 } }
header { display: flex; justify-content: space-between; align-items: baseline; border-bottom: 0.4mm solid #111 }
h1 { font-size: 1.55em; margin: 0; letter-spacing: 0.03em }
h2 { font-size: 1.05em; margin: 0.75em 0 0.2em; border-bottom: 0.1mm solid #888 }
.verdict { border: 0.5mm solid #a4161a; color: #a4161a; margin: 0.5em 0; padding: 0.3em 0.6em }
.verdict b { font-size: 1.25em }
dl { margin: 0.2em 0; display: grid; grid-template-columns: 1fr 1fr; column-gap: 4mm }
dl div { display: flex }
.alone, .conclusion dl div { grid-column: 1 / -1 }
dt { flex: 0 0 12.5em; color: #444 }
dd { margin: 0; overflow-wrap: anywhere; min-width: 0 }
.blanks { display: grid; grid-template-columns: 1fr 1fr; gap: 0 4mm; margin: 0.2em 0 }
.blanks div { display: flex; align-items: flex-end; line-height: 1.82 }
.blanks span { flex: 0 0 12.5em; color: #444 }
.blanks i, .signatures i { flex: 1; border-bottom: 0.15mm solid #111; height: 1.3em }
.tables { display: flex; gap: 4mm; align-items: flex-start }
table { border-collapse: collapse; margin: 0.3em 0; white-space: nowrap; width: 100%; line-height: ${row} }
.tables table { width: auto }
th { font-weight: normal; color: #444; text-align: right; padding: 0 0 0 0.55em }
th.group { text-align: center; border-bottom: 0.1mm solid #888 }
td { text-align: right; padding: 0 0 0 0.55em }
.first { padding-left: 1.1em }
.mark { width: 1%; padding-left: 0.3em }
tbody { border-top: 0.2mm solid #111; border-bottom: 0.2mm solid #111 }
tbody tr:first-child td, tfoot td { padding-top: 0.2em }
tbody tr:last-child td { padding-bottom: 0.15em }
tr.marked td { font-weight: bold }
p { margin: 0.1em 0; color: #444 }
code { font: 0.92em "Liberation Mono", "DejaVu Sans Mono", monospace; overflow-wrap: anywhere }
.conclusion { display: flex; gap: 3mm; break-inside: avoid }
.conclusion > div { flex: 1; min-width: 0 }
.conclusion > .side { flex: 0 0 ${side}mm }
figure { margin: 0.4em 0 0; flex: 0 0 ${plot}mm }
svg { width: 100%; height: auto; display: block }
.signatures { display: flex; gap: 5mm; margin-top: 3em; break-inside: avoid }
.signatures div { flex: 2; display: flex; align-items: flex-end; gap: 0.6em; white-space: nowrap }
.signatures div:last-child { flex: 1.2 }
""")


def section(block):
    return f"<h2>{words(block.words)}</h2>"


def pairs(block):
    def row(name, value):
        look = " class=alone" * (block.alone or len(value) > LONGEST_IN_HALF)
        return f"<div{look}><dt>{words(name)}</dt><dd>{words(value)}</dd></div>"

    return f"<dl>{''.join(row(name, value) for name, value in block.rows)}</dl>"


def grid(block):
    """The first column of a group stands apart from the group before it, a mark beside what it marks."""
    columns = [column for _, own in block.groups for column in own]
    looks = [" class=first" if at == 0 else "" for _, own in block.groups for at in range(len(own))]
    looks = [look if any(column) else " class=mark" for look, column in zip(looks, columns)]

    def row(cells, kind, marked=False):
        told = (f"<{kind}{look}>{words(cell)}</{kind}>" for look, cell in zip(looks, cells))
        return f"<tr{' class=marked' * marked}>{''.join(told)}</tr>"

    named = "".join(
        f'<th colspan="{len(own)}"{" class=group" * bool(name)}>{words(name)}</th>' for name, own in block.groups
    )
    over = f"<tr>{named}</tr>" if any(name for name, _ in block.groups) else ""
    head = over + row([name for name, _ in columns], "th") + row([unit for _, unit in columns], "th")
    body = "".join(row(cells, "td", "*" in cells) for cells in block.rows)
    foot = f"<tfoot>{row(block.foot, 'td')}</tfoot>" if block.foot else ""
    return f"<table><thead>{head}</thead><tbody>{body}</tbody>{foot}</table>"


def notes(block):
    return "".join(f"<p>{words(line)}</p>" for line in block.lines)


def octets(block):
    return f"<code>{words(block.text)}</code>"


def blanks(block):
    return f'<div class="blanks">{"".join(f"<div><span>{words(n)}</span><i></i></div>" for n in block.names)}</div>'


def signatures(block):
    names = (f"{block.done} by", "Witnessed by", "Date")
    return f'<div class="signatures">{"".join(f"<div>{name}<i></i></div>" for name in names)}</div>'


RENDERERS = {
    Section: section, Pairs: pairs, Grid: grid, Notes: notes, Octets: octets, Blanks: blanks, Signatures: signatures,
}  # fmt: skip


def rendered(blocks):
    return "\n".join(RENDERERS[type(block)](block) for block in blocks)


def parted(blocks):
    """The blocks down to the last table and its notes, the conclusion, and what stands below both."""
    last = max((at for at, block in enumerate(blocks) if isinstance(block, (Grid, Blanks))), default=-1)
    last += isinstance(blocks[min(last + 1, len(blocks) - 1)], Notes)
    end = next((at for at, block in enumerate(blocks) if isinstance(block, Octets)), len(blocks))
    if end < len(blocks):
        end -= 1
    elif isinstance(blocks[-1], Signatures):
        end -= 1
    return Parts(blocks[: last + 1], [], blocks[last + 1 : end], blocks[end:])


def upper(blocks, beside):
    """The blocks above the conclusion; the tables side by side stand where the first of them did."""
    grids = [at for at, block in enumerate(blocks) if isinstance(block, Grid)][:beside]
    if beside < 2:
        return rendered(blocks)
    rest = [block for at, block in enumerate(blocks) if at > grids[0] and at not in grids]
    row = f'<div class="tables">{rendered(blocks[at] for at in grids)}</div>'
    return f"{rendered(blocks[: grids[0]])}\n{row}\n{rendered(rest)}"


def render(page, picture=None):
    """The file's text; `picture` is a plot as SVG."""
    shape = fit(parted(page.blocks), page.verdict, bool(picture))
    parts = shape.parts
    style = STYLE.substitute(width=WIDTH, size=shape.size, row=shape.row, side=shape.side, plot=PLOT)
    verdict = ""
    if page.verdict:
        about = "".join(f"<div>{words(line)}</div>" for line in page.verdict[1:])
        verdict = f'<div class="verdict"><b>{words(page.words_of_verdict)}</b>{about}</div>'
    side = f'<div class="side">{rendered(parts.side)}</div>' if parts.side else ""
    figure = f"<figure>{picture}</figure>" if picture else ""
    concluded = f"{side}<div>{rendered(parts.conclusion)}</div>{figure}"
    return f"""<!DOCTYPE html>
<html lang="en">
<head>
<meta charset="utf-8">
<meta name="generator" content="{words(version.NAME)}">
<title>{words(page.title.capitalize())}</title>
<style>{style}</style>
</head>
<body>
<header><h1>{words(page.title)}</h1><span>{words(page.right)}</span></header>
{verdict}
{upper(parts.above, shape.beside)}
<div class="{"conclusion" if picture or side else ""}">{concluded}</div>
{rendered(parts.rest)}
</body>
</html>
"""
