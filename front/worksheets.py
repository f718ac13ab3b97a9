"""The worksheet of a worked job, of any kind."""

from . import draw_worksheet, ticket_worksheet, worksheet

BUILDERS = {"prove": worksheet.build, "draw": draw_worksheet.build, "ticket": ticket_worksheet.build}


def build(worked):
    return BUILDERS[worked.job.kind](worked)
