"""A session with the book of waiting requests: a step a line, and the book after each."""

from .book_faults import about, of_book
from .book_steps import STEPS, BadStep, step_of
from .hints import echo, plain
from .places import asked, shown
from .program import Refused
from .refusals import Explained


class Desk:
    """The program with its book; and the book last given from outside, since the program tells nothing of one that is
    not sound."""

    def __init__(self, program):
        self.program, self.given = program, None

    def do(self, step):
        """One step: what is said of it, and its refusal where it was refused."""
        self.given = step.book or self.given
        try:
            return step.told.format(*self.program.ask(*step.words)), None
        except Refused as fault:
            number = fault.refusal.number
            explained = Explained(number, 0, about(number, step, self.book(), self.given))
            return explained.line, explained

    def book(self):
        """The book as it stands, None where it is not sound."""
        return asked(self.program)

    def broken(self):
        """What of a book that is not sound breaks the rules."""
        return of_book(self.given)


def page_of(words, refusal, after):
    """What is shown of a step; a refusal that is about several things has a line for each."""
    if refusal and len(refusal.details) > 1:
        words = "\n   ".join((refusal.headline, *refusal.details))
    return "\n".join([words] * bool(words) + after)


def session(source, program, kept, tell=None):
    """The steps of a source; a keyboard is asked again after a line that is no step, any other source ends there.
    `tell` is given what came of each step in place of its page."""
    desk = Desk(program)
    kept.begin(desk)
    if source.keyboard and not tell:
        print(STEPS)
    any_refused = False
    for place, text in source.steps():
        if text in ("quit", "exit"):
            break
        if not source.keyboard and not tell:
            print(f"> {echo(text)}")
        try:
            done = text != "help"
            words, refusal = desk.do(step_of(text)) if done else (STEPS, None)
        except BadStep as bad:
            if not source.keyboard:
                raise source.bad({place: bad}) from bad
            words, refusal, done = plain(str(bad)), None, False
        any_refused = any_refused or bool(refusal)
        own = desk.book()
        said = kept.save(own)
        if tell:
            tell(plain(text), words, refusal, own)
        else:
            after = shown(own) if done else []
            print(page_of(words, refusal, after + said), flush=True)
    return 1 if any_refused and not source.keyboard else 0
