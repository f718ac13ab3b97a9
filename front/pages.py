"""The page of a worked job, of any kind: as blocks, and for print."""

from . import draw_report, html_page, plot, report, short_pages

BUILDERS = {
    "prove": report.build, "draw": draw_report.build, "ticket": short_pages.ticket, "live": short_pages.live,
    "panel": short_pages.panel,
}  # fmt: skip


def build(worked):
    return BUILDERS[worked.job.kind](worked)


def printed(worked):
    """The page as HTML, with its plot where its runs have figures."""
    return html_page.render(build(worked), plot.draw(worked) if worked.runs else None)
