"""What a run record of either form reaches: its values where it stands, else what is wrong."""

from cases import ends


def of_value(name, value):
    return f"{name} {value}"


def of_byte(byte, value):
    return f"byte {byte} of {value}"


def is_in(value, ends_of):
    low, high = ends_of
    return low <= value <= high


def first_unnamed(form):
    return form.LAYOUT.size - len(form().unnamed)


def of_good_run(run):
    return [of_value(name, getattr(run, name)) for name in ends.RUN]


def of_fields(run, table):
    """Those out of range."""
    for name, (allowed, _) in table.items():
        if not is_in(getattr(run, name), allowed):
            yield of_value(name, getattr(run, name))


def of_unnamed(run):
    """The one byte that is not 0."""
    named = first_unnamed(type(run))
    told = [(byte, value) for byte, value in enumerate(run.unnamed, named) if value]
    if len(told) == 1:
        yield of_byte(*told[0])


def wanted_fields(table):
    """Each field but the count at its ends and past them, and whether that is in range."""
    for name, of in table.items():
        if name != "pulses":
            yield from ((is_in(value, of[0]), of_value(name, value)) for value in ends.around(of))
