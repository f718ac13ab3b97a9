"""What a command writes: held against its inputs and each other before anything runs, written beside its place and
renamed when whole, so that whatever goes wrong leaves the old file as it was.

`check` first, then `write` (or `opened`, piece by piece) for each output; "-" is standard input or output."""

import contextlib
import io
import os
import stat
import sys
import tempfile

from .badfile import BadFile
from .hints import plain

STANDARD = "-"
NAMES = {STANDARD: "standard output"}


class NotWritten(Exception):
    """An output that cannot be written; what stood in its place still stands there."""

    def __init__(self, path, reason):
        super().__init__(f"{plain(NAMES.get(path, str(path)))}: cannot be written: {reason}")


def identity(path):
    """The file that a path leads to, by its place on the disk; where there is none, where it would be."""
    try:
        found = os.stat(path)
        return found.st_dev, found.st_ino
    except OSError:
        return os.path.realpath(path)


def of_stream(stream):
    """The file that standard input or output was led to, None where it is no file of a disk."""
    try:
        found = os.fstat(stream.fileno())
    except (AttributeError, OSError, io.UnsupportedOperation, ValueError):
        return None
    return (found.st_dev, found.st_ino) if stat.S_ISREG(found.st_mode) else None


def is_special(path):
    """A device or a pipe: nothing in it can be lost."""
    return os.path.exists(path) and not os.path.isfile(path) and not os.path.isdir(path)


def check(inputs, outputs, force=False):
    """Refuses, as a bad command, outputs that something would be lost by. Inputs are paths; outputs stand under their
    options, {"--plot": path}, those that are None left out. A file that is there is written over by --force alone."""
    read = {of_stream(sys.stdin) if path == STANDARD else identity(path) for path in inputs}
    taken = {of_stream(sys.stdout): "standard output"}
    for option, path in outputs.items():
        if path is None or is_special(path) and path != STANDARD:
            continue
        own = STANDARD if path == STANDARD else identity(path)
        if own in read:
            raise BadFile(path, option, "is read by this command: expected another file")
        if own in taken:
            raise BadFile(path, option, f"is written by {taken[own]} too: expected a file of its own")
        taken[own] = option
        if path == STANDARD:
            continue
        if os.path.isdir(path):
            raise BadFile(path, option, "is a folder: expected a file")
        if os.path.exists(path) and not force:
            raise BadFile(path, option, "is there already: --force writes over it")


def write(path, content):
    """A text or bytes, whole or not at all."""
    with opened(path) as file:
        file.write(content.encode() if isinstance(content, str) else content)


@contextlib.contextmanager
def opened(path):
    """A file of bytes to write to; it takes its place when the block ends, and is gone when the block fails."""
    try:
        if path == STANDARD and not sys.stdout:
            raise OSError(None, "it is closed")
        if path == STANDARD:
            yield sys.stdout.buffer
            sys.stdout.buffer.flush()
        elif is_special(path):
            with open(path, "wb") as file:
                yield file
        else:
            yield from beside(os.path.realpath(path))
    except BrokenPipeError:
        raise
    except OSError as fault:
        raise NotWritten(path, fault.strerror) from fault


def beside(place):
    """The same for a file of a disk: links stay links, and an old file's rights stay."""
    old = os.path.exists(place)
    if old and not os.access(place, os.W_OK):
        raise PermissionError(None, "Permission denied")
    handle, part = tempfile.mkstemp(prefix=".endakuro-", suffix=".part", dir=os.path.dirname(place))
    try:
        with os.fdopen(handle, "wb") as file:
            os.fchmod(handle, stat.S_IMODE(os.stat(place).st_mode) if old else 0o666 & ~umask())
            yield file
            file.flush()
            if old:
                # The old file is given up for one that is on the disk.
                os.fsync(handle)
        if not old and os.path.lexists(place):
            raise FileExistsError(None, "a file has come there meanwhile")
        os.replace(part, place)
    except BaseException:
        with contextlib.suppress(OSError):
            os.unlink(part)
        raise


def umask():
    own = os.umask(0)
    os.umask(own)
    return own
