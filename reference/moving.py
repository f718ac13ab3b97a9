"""Moving a file of run records to the longer form, and back (02, Longer run records, and the way
back). What is lent is in the one form and the buffer is for the other. Each gives the buffer as
written."""

import ranges
from records import whole_records
from refusals import BUFFER_LENGTH, COUNT_NOT_WHOLE, Refused
from run_record import LONG, SHORT, judged_run, packed


def judge_lengths(longer, shorter):
    # "14, first of all, unless twice the longer form's buffer length is three times the shorter
    # form's"
    if 2 * len(longer) != 3 * len(shorter):
        raise Refused(BUFFER_LENGTH)


def records_of(lent, form):
    """By their number. "A file to be moved holds 1 to 4,096 records"."""
    return enumerate(whole_records(lent, ranges.MOVED_RECORDS, form.length), 1)


def whole_run(lent, number):
    """The run of a long record that has a short one. "Moving back works exactly when every pulse
    count is whole"; "36 with the record, after its 2, where the count isn't whole"."""
    run = judged_run(lent, number, LONG)
    if run.thousandths % SHORT.thousandths:
        raise Refused(COUNT_NOT_WHOLE, number)
    return run


def forward(buffer, lent):
    """"Moving an old file forward multiplies pulses by 1000 and loses nothing"."""
    judge_lengths(longer=buffer, shorter=lent)
    # "moving checks fields and zeros as a job does (1, 5, 2)"
    runs = [judged_run(record, number, SHORT) for number, record in records_of(lent, SHORT)]
    return b"".join(packed(run, LONG) for run in runs)


def back(buffer, lent):
    judge_lengths(longer=lent, shorter=buffer)
    runs = [whole_run(record, number) for number, record in records_of(lent, LONG)]
    return b"".join(packed(run, SHORT) for run in runs)
