"""What each command does; each answers the exit status."""

import os
import sys

from . import book as books
from . import as_json, asked_numbers, figures, html_page, jobs, look_up_faults, look_up_pages, look_ups, moves, outputs
from . import page, pages, plot, report_record, rework, short_pages, steps, suffixes, templates
from . import verify as verifying
from . import workbook, worksheets
from . import worked as works
from .badfile import BadFile
from .hints import plain
from .jobfiles import NAMES
from .kept_book import KeptBook, NoBook
from .program import RUNNER, ProgramFailed, Refused

DONE, REFUSED = 0, 1


def show(options, shown):
    """The page, unless an output takes its place."""
    if options.page:
        print("\n".join(page.text(shown)), flush=True)


def tell(told):
    print(as_json.text(told), flush=True)


def refuse(path, told):
    print("\n   ".join((f"{plain(path)}: {told.headline}", *told.details)), file=sys.stderr)
    return REFUSED


def job(kind):
    """The command for a job of a kind. Its outputs are whole before the page is shown: whoever reads the page may leave
    before its end."""

    def command(options, program):
        own = jobs.read(options.job, kind)
        outputs.check(own.files, options.places, options.force)
        worked = works.work(own, program)
        write_outputs(options, worked)
        if options.json:
            tell(as_json.job(worked))
        elif worked.has_figures:
            show(options, pages.build(worked))
        return refuse_job(options, worked) if worked.refusal else DONE

    return command


def write_outputs(options, worked):
    """The page for print says of a refused job that it is; without figures there is nothing else to write."""
    if getattr(options, "html", None):
        outputs.write(options.html, pages.printed(worked))
    if getattr(options, "worksheet", None) and worked.has_figures:
        sheet = worksheets.build(worked)
        is_book = suffixes.of(options.worksheet) == suffixes.WORKBOOK
        outputs.write(options.worksheet, workbook.octets(sheet) if is_book else sheet.octets)
    if getattr(options, "plot", None) and worked.has_figures:
        outputs.write(options.plot, plot.draw(worked))
    if getattr(options, "record", None) and worked.answer:
        outputs.write(options.record, worked.answer.record)


def refuse_job(options, worked):
    """A refused job: a proving's record is not written, and what stands in its place is none of it."""
    status = refuse(worked.job.path, worked.refusal)
    say_kept(getattr(options, "record", None), "the record there is of an earlier job")
    return status


prove, draw, ticket, live, panel = (job(kind) for kind in ("prove", "draw", "ticket", "live", "panel"))


def read(options, program):
    given = options.hex is not None
    outputs.check([] if given else [options.record], options.places, options.force)
    record = report_record.from_hex(options.hex) if given else report_record.from_file(options.record)
    name = "--hex" if given else plain(NAMES.get(options.record, options.record))
    told = explained = None
    try:
        told = figures.read(record, program)
    except Refused as refused:
        explained = report_record.explain(record, refused.refusal)
    answer = short_pages.read(name, record, told, explained), as_json.record(name, record, told, explained)
    return give(options, name, *answer, explained)


def give(options, name, shown, for_machines, refusal):
    """The answer of a command that has no job file: its page, for print too, or its JSON; a refusal in words."""
    if options.html:
        outputs.write(options.html, html_page.render(shown))
    if options.json:
        tell(for_machines)
    elif not refusal:
        show(options, shown)
    return refuse(name, refusal) if refusal else DONE


def look_up(options, program):
    outputs.check([options.table], options.places, options.force)
    table, asked = asked_numbers.read(options.table, options.temperature, options.gravity)
    found = explained = None
    try:
        found = look_ups.find(table, *asked.values(), program)
    except Refused as refused:
        explained = look_up_faults.explain(table, asked, refused.refusal)
    shown = look_up_pages.build(table, asked, found, explained)
    return give(options, table.name, shown, as_json.look_up(table, asked, found, explained), explained)


def move(options, program):
    """Whole or not at all: what stands in NEW's place stays where a record is refused."""
    way = moves.BACK if options.back else moves.FORWARD
    old, new, explained = moves.read(options.old, way), None, None
    try:
        new = moves.moved(old, way, options.new, program)
    except Refused as refused:
        explained = moves.explain(old, way, refused.refusal, program)
    if new:
        outputs.write(options.new, new.octets)
    if options.json:
        tell(as_json.move(way, old, new, explained))
    elif new and options.page:
        print(moves.line(old, new, way), flush=True)
    if not explained:
        return DONE
    status = refuse(old.name, explained)
    say_kept(options.new, "the file there is as it was")
    return status


def say_kept(path, words):
    """Of an output that a refusal leaves out: what stands in its place."""
    if path and os.path.isfile(path):
        print(f"{plain(path)}: not written: {words}", file=sys.stderr)


def book(options, program):
    named = options.session not in (None, outputs.STANDARD)
    outputs.check([options.session] if named else [], {"--keep": options.keep}, force=True)
    source = steps.of_file(options.session) if named else steps.of_standard_input()
    kept = KeptBook(options.keep) if options.keep else NoBook()
    return books.session(source, program, kept, (lambda *told: tell(as_json.step(*told))) if options.json else None)


def lines(options, program):
    """The line program itself, in place of this process."""
    program.prepare()
    sys.stdout.flush()
    try:
        os.execv(RUNNER, [str(RUNNER)])
    except OSError as fault:
        raise ProgramFailed(f"{RUNNER} does not start: {fault.strerror}") from fault


def new(options, program):
    outputs.check([], {"OUT.csv" if options.kind == templates.TABLE else "OUT.toml": options.out}, options.force)
    if not options.json or options.out != outputs.STANDARD:
        outputs.write(options.out, templates.TEXTS[options.kind])
    if options.json:
        tell(as_json.new(options.kind, templates.TEXTS[options.kind]))
    return DONE


def rework_jobs(options, program):
    return rework.rework(options, program)


def verify(options, program):
    """0 the report is the job's, 1 it is not or has been changed."""
    if options.report == options.job == outputs.STANDARD:
        raise BadFile(NAMES[options.job], "", "is read once: expected a file for the report or for the job")
    job = jobs.read(options.job)
    outcome, words = verifying.verify(options.report, job, program)
    if options.json:
        tell(as_json.verified(outcome, words, options.report, job))
    else:
        print(verifying.line(options.report, words), flush=True)
    return DONE if outcome == verifying.SAME else REFUSED
