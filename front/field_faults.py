"""What of fields, bytes and counts is out of range, in words that name it, its value and its range."""

from dataclasses import replace

from . import fields
from .refusals import Detail


def out_of_range(counts, known, at=""):
    """The fields that are; of one that was not looked up nothing is known."""
    return [
        Detail(
            f"{at}{field.label} is {field.text(counts[key])}, range {field.range}",
            *(key, counts[key], field.low, field.high, field.unit),
        )
        for key, field in known.items()
        if counts[key] is not None and not field.within(counts[key])
    ]


def of_fields(counts, known, at=""):
    """What is out of range, and then each equilibrium pressure that is above its pressure: that P is refused as one out
    of range is."""
    return [*out_of_range(counts, known, at), *above_pressure(counts, known, at)]


def above_pressure(counts, known, at):
    found = []
    for key, limit in fields.AT_MOST.items():
        # One that is out of range is told already.
        if key in known and counts[limit] < counts[key] <= known[key].high:
            # Its range ends at the pressure.
            own = replace(known[key], high=counts[limit])
            words = f"{at}{own.label} is {own.text(counts[key])}, above the {known[limit].label}, range {own.range}"
            found.append(Detail(words, key, counts[key], own.low, own.high, own.unit))
    return found


def of_unnamed_bytes(record, layout, at):
    """The bytes that differ from those of a record made of the same fields."""
    made = layout.pack(layout.unpack(record))
    wrong = [place for place in range(len(record)) if record[place] != made[place]]
    words = "{at}byte {place} is {value:02x}, range 00".format
    return [
        Detail(words(at=at, place=place, value=record[place]), f"byte {place}", record[place], 0, 0, fields.NUMBER)
        for place in wrong
    ]


def of_count(what, count, ends):
    return [Detail(f"{what}: {count}, range {ends[0]} to {ends[1]}", what, count, *ends, fields.NUMBER)]


def unknown(key, field, given, at):
    """A figure that no entry tells, by what it is worked from."""
    words = f"{at}{field.label} is {given}, range {field.range}"
    return Detail(words, key, None, field.low, field.high, field.unit)
