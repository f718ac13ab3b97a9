"""The command line: ./endakuro COMMAND ..."""

import argparse
import contextlib
import sys

from . import as_json, build, commands, fields, helps, outputs, suffixes, templates, version
from .badfile import BadFile
from .hints import echo, plain
from .outputs import NotWritten
from .program import Program, ProgramFailed, Refused
from .ticker import silence
from .unexpected import words_of

BAD_FILE, FAILED, STOPPED = 2, 3, 130
LONGEST_ERROR = 400


class Parser(argparse.ArgumentParser):
    """A word of a command line may hold anything, as a file's text may."""

    def error(self, message):
        super().error(plain(message[:LONGEST_ERROR]))


class Plain(argparse.RawDescriptionHelpFormatter):
    """Texts as they are written, in a width that does not depend on the terminal."""

    def __init__(self, prog):
        super().__init__(prog, max_help_position=24, width=104)


def parser():
    top = Parser("endakuro", description=helps.ABOUT, epilog=helps.STATUS, formatter_class=Plain)
    top.add_argument("--version", action=Version, help="show the version and the program's checksum")
    listed = top.add_subparsers(title="commands", metavar="COMMAND", required=True)

    def command(name, do, summary, about):
        texts = {"help": summary, "description": about, "epilog": helps.STATUS}
        own = listed.add_parser(name, formatter_class=Plain, **texts)
        own.set_defaults(do=do, command=name, json=False)
        if name != "lines":
            own.add_argument("--json", action="store_true", help="JSON in place of the page (docs/JSON.md)")
        return own

    prove = command("prove", commands.prove, "a proving job: the report with its meter factor", helps.PROVE)
    job_of(prove)
    writes(prove, "--record", "OUT", "write the 32-byte report record; nothing when refused")
    writes(prove, "--worksheet", "OUT.xlsx", "write the job as a spreadsheet with live formulas; also OUT.csv")
    writes(prove, "--plot", "OUT.svg", "write a picture of the run factors and the limit's band")
    writes(prove, "--html", "OUT.html", "write the page with its plot for print, one sheet of Letter or A4")

    draw = command("draw", commands.draw, "a water draw: the prover's base volume", helps.DRAW)
    job_of(draw)
    writes(draw, "--worksheet", "OUT.xlsx", "write the job as a spreadsheet with live formulas; also OUT.csv")
    writes(draw, "--html", "OUT.html", "write the page for print, one sheet of Letter or A4")

    ticket = command("ticket", commands.ticket, "a measurement ticket: gross and net volume", helps.TICKET)
    job_of(ticket)
    writes(ticket, "--worksheet", "OUT.xlsx", "write the ticket as a spreadsheet with live formulas; also OUT.csv")
    writes(ticket, "--html", "OUT.html", "write the ticket for print, one sheet of Letter or A4")

    live = command("live", commands.live, "a live reading: singles to tenths and psi", helps.LIVE)
    job_of(live)
    writes(live, "--html", "OUT.html", "write the reading for print, one sheet of Letter or A4")

    panel = command("panel", commands.panel, "numbers for the panel: tenths and psi to singles", helps.PANEL)
    job_of(panel)
    writes(panel, "--html", "OUT.html", "write the numbers for print, one sheet of Letter or A4")

    read = command("read", commands.read, "a report record read back", helps.READ)
    source = read.add_mutually_exclusive_group(required=True)
    source.add_argument("record", nargs="?", metavar="RECORD", help="the record's file, as prove --record writes it")
    source.add_argument("--hex", metavar="BYTES", help="the record's bytes in hex instead")
    writes(read, "--html", "OUT.html", "write what it says for print, one sheet of Letter or A4")

    look_up = command("look-up", commands.look_up, "a compressibility F in a table: its entry", helps.LOOK_UP)
    look_up.add_argument("table", metavar="TABLE.csv", help="the table's file; - is standard input")
    look_up.add_argument("temperature", metavar="TEMPERATURE", help=fields.TEMPERATURE.range)
    look_up.add_argument("gravity", metavar="GRAVITY", help=f"{fields.GRAVITY.range}, at 60 °F")
    writes(look_up, "--html", "OUT.html", "write what is found for print, one sheet of Letter or A4")

    move = command("move", commands.move, "run records moved to their longer form, or back", helps.MOVE)
    move.add_argument("old", metavar="OLD", help="the file of run records; - is standard input")
    move.add_argument("new", metavar="NEW", help="where they go in their other form; - is standard output")
    move.add_argument("--back", action="store_true", help="from the long form, 48 bytes a record, to the short one")
    move.add_argument("--force", action="store_true", help="write over a file that is there already")
    move.set_defaults(written={"NEW": "new"})

    book = command("book", commands.book, "a session with the book of waiting requests", helps.BOOK)
    book.add_argument("session", nargs="?", metavar="SESSION.txt", help="the steps, a line each; else the keyboard")
    book.add_argument("--keep", metavar="FILE", help="go on from the book of FILE, and keep it there")

    rework = command("rework", commands.rework_jobs, "many jobs: a CSV of results", helps.REWORK)
    about = "folders of job files, or job files; - is standard input"
    rework.add_argument("jobs", metavar="JOBS", nargs="+", help=about)
    rework.add_argument("--recursive", action="store_true", help="go into the folders inside too")
    seconds = {"type": seconds_of, "metavar": "SECONDS", "default": 30}
    rework.add_argument("--patience", help="how long a file may take before it is skipped (30)", **seconds)
    writes(rework, "--csv", "OUT.csv", "where results go (rework.csv)", "rework.csv")
    rework.add_argument("--reports", metavar="DIR", help="write the page for print and the plot of each job there")

    verify = command("verify", commands.verify, "whether a page is a job's, and unchanged", helps.VERIFY)
    verify.add_argument("report", metavar="REPORT", help="a page, plot, worksheet, JSON, record or CSV of results")
    job_of(verify)

    new = command("new", commands.new, "a job file to begin with, that runs as it is", helps.NEW)
    new.add_argument("kind", choices=templates.TEXTS, metavar="KIND", help=", ".join(templates.TEXTS))
    about = "where it goes, if not shown; OUT.csv of a table"
    new.add_argument("out", nargs="?", metavar="OUT.toml", default=outputs.STANDARD, help=about)
    new.add_argument("--force", action="store_true", help="write over a file that is there already")

    command("lines", commands.lines, "the line program itself: a line in, a line out", helps.LINES)
    return top


class Version(argparse.Action):
    """The version, and the checksum of the program, by which two machines are known to have the same."""

    def __init__(self, *words, **named):
        super().__init__(*words, nargs=0, default=argparse.SUPPRESS, **named)

    def __call__(self, *_):
        print("\n".join(version.lines()))
        sys.exit(0)


def seconds_of(word):
    if not (word.isascii() and word.isdigit() and 0 < int(word[:9]) and len(word) < 9):
        raise argparse.ArgumentTypeError(f"{echo(word)} is no number of seconds: expected a whole number")
    return int(word)


def job_of(own):
    own.add_argument("job", metavar="JOB.toml", help="the job file; - is standard input")


def writes(own, option, metavar, told, default=None):
    """An option that names an output. Those of a command are checked before it runs (`outputs.check`)."""
    if not own.get_default("written"):
        own.add_argument("--force", action="store_true", help="write over outputs that are there already")
    own.set_defaults(written={**(own.get_default("written") or {}), option: option.strip("-")})
    own.add_argument(option, metavar=metavar, help=told, default=default)


def ready(options):
    """The options, once no output can cost anything that is there. `-` as an output takes the page's place."""
    options.places = {option: getattr(options, name) for option, name in getattr(options, "written", {}).items()}
    options.force = getattr(options, "force", False)
    read = [getattr(options, name) for name in ("job", "old") if name in options]
    outputs.check(read, options.places, options.force)
    suffixes.check(options.places)
    options.page = outputs.STANDARD not in options.places.values()
    if options.json and not options.page:
        raise BadFile("-", "--json", "standard output has the JSON: expected files for the other outputs")


def tell(options, told):
    """What went wrong, for machines; where standard output is full or closed, the status alone tells it."""
    if options.json:
        with contextlib.suppress(OSError, ValueError):
            print(as_json.text(told), flush=True)


def main(words=None):
    # A letter that a terminal does not have, or a file does not spell, is no reason to stop.
    for stream in filter(None, (sys.stdin, sys.stdout, sys.stderr)):
        stream.reconfigure(errors="replace")
    try:
        options = parser().parse_args(words)
        ready(options)
        with Program(build.ensure) as program:
            return options.do(options, program)
    except BadFile as told:
        tell(options, as_json.bad(options.command, told))
        print(told, file=sys.stderr)
        return BAD_FILE
    except (ProgramFailed, Refused, build.BuildFailed, NotWritten) as told:
        # A refusal that no command expects is a fault of the front end, no answer to a job.
        tell(options, as_json.failed(options.command, str(told)))
        print(told, file=sys.stderr)
        return FAILED
    except BrokenPipeError:
        # The reader has gone, as head does: nothing is left to say.
        silence(sys.stdout)
        return FAILED
    except OSError as fault:
        print(f"{plain(str(fault.filename or 'output'))}: cannot be written: {fault.strerror}", file=sys.stderr)
        return FAILED
    except KeyboardInterrupt:
        return STOPPED
    except Exception as fault:
        # A fault of the front end: never the status of a refused job.
        print(f"endakuro: {words_of(fault)}", file=sys.stderr)
        return FAILED
