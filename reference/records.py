"""Lent records: "All 32 bytes, little-endian, no header; bytes not named are zero"; those of the
compressibility table and long run records have lengths of their own."""

from refusals import RECORDS_NOT_WHOLE, Refused

LENGTH = 32


def whole_records(lent, how_many, length=LENGTH):
    """The records lent, refused 1 where they are "not whole, or too few or many"."""
    count, left = divmod(len(lent), length)
    if left or count not in how_many:
        raise Refused(RECORDS_NOT_WHOLE)
    return [lent[at : at + length] for at in range(0, len(lent), length)]
