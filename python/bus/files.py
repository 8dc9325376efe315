"""Files read and written so that every fault is named, and a table is there whole or not at all."""

import contextlib
import errno
import os
import stat
import sys

from .errors import Error

# Far above any list, request or table.
MOST_BYTES = 1_000_000

ADVICE = {
    errno.ENOENT: "check the name and the folder",
    errno.ENOTDIR: "check the folder",
    errno.EISDIR: "name a file, not a folder",
    errno.EACCES: "choose a file that you may use",
    errno.EPERM: "choose a file that you may use",
    errno.EROFS: "choose a folder that can be written to",
    errno.ENOSPC: "make room, or write elsewhere",
}


class Content(bytes):
    """The bytes of a file, with what messages call it."""

    name = ""


class FileFault(Error):
    """A file that cannot be read or written; the text names it, with the reason and what to do."""


def called(path):
    """What messages call a file."""
    return "standard input" if path == "-" else str(path)


def _fault(doing, path, reason):
    advice = ADVICE.get(reason.errno)
    return FileFault(f"cannot {doing} {path or repr(path)}: {reason.strerror}" + (f": {advice}" if advice else ""))


def read(path):
    """The bytes of a file; of standard input for '-'."""
    try:
        if os.fspath(path) == "-":
            if sys.stdin is None:
                raise FileFault("cannot read standard input: it is closed: name a file")
            data = sys.stdin.buffer.read(MOST_BYTES + 1)
        else:
            with open(path, "rb") as file:
                data = file.read(MOST_BYTES + 1)
    except OSError as reason:
        raise _fault("read", called(os.fspath(path)), reason) from reason
    except ValueError as reason:
        raise FileFault(f"cannot read {path!r}: {reason}: check the name") from reason
    name = called(os.fspath(path))
    if len(data) > MOST_BYTES:
        raise FileFault(f"cannot read {name}: it has more than {MOST_BYTES} bytes: name a list, a request or a table")
    content = Content(data)
    content.name = name
    return content


def _write_all(file, data):
    """Writes and closes; what the disk did not take shows here."""
    with file:
        file.write(data)
        file.flush()
        if stat.S_ISREG(os.fstat(file.fileno()).st_mode):
            os.fsync(file.fileno())


@contextlib.contextmanager
def _new_file(path):
    """The name and the open file of a new one beside the path, which is gone if a fault comes up."""
    real = os.path.realpath(path)
    name = f"{real}.{os.getpid()}.new"
    file = open(name, "xb")
    try:
        with file:
            if os.path.exists(real):
                os.fchmod(file.fileno(), stat.S_IMODE(os.stat(real).st_mode))
            yield name, file
    except BaseException:
        os.unlink(name)
        raise


def _replace(path, data):
    with _new_file(path) as (name, file):
        _write_all(file, data)
        os.replace(name, os.path.realpath(path))


def _try(path):
    with _new_file(path) as (name, _):
        os.unlink(name)


def _with_faults(path, plain, other):
    """Does `plain` with a path that can be replaced, `other` with a device or a pipe, and names faults."""
    try:
        if not path:
            raise FileNotFoundError(errno.ENOENT, os.strerror(errno.ENOENT))
        if os.path.isdir(path):
            raise IsADirectoryError(errno.EISDIR, os.strerror(errno.EISDIR))
        special = os.path.exists(path) and not os.path.isfile(path) or path.startswith("/dev/")
        (other if special else plain)(path)
    except OSError as reason:
        raise _fault("write", path, reason) from reason
    except ValueError as reason:
        raise FileFault(f"cannot write {path!r}: {reason}: check the name") from reason


def probe(path):
    """Finds out now whether a file can be written later; nothing is left of it."""
    if path != "-":
        _with_faults(path, _try, lambda _: None)


def write(path, data):
    """Writes a file, under another name first. A device or a pipe is written to and never replaced, and '-' is standard
    output."""
    path = os.fspath(path)
    if path == "-":
        _put_out(data)
    else:
        _with_faults(path, lambda path: _replace(path, data), lambda path: _write_all(open(path, "wb"), data))


def _put_out(data):
    """Bytes to standard output, all of them, or a fault."""
    if sys.stdout is None:
        raise FileFault("cannot write to standard output: it is closed: open it, or send it to a file")
    try:
        sys.stdout.buffer.write(data)
        sys.stdout.buffer.flush()
    except OSError as reason:
        sys.stdout = None  # else Python tries the rest again at its end, and changes the exit status
        raise _fault("write to", "standard output", reason) from reason


def print_out(text):
    """Text to standard output, as UTF-8 and all of it, or a fault."""
    _put_out(text.encode("utf-8", "replace"))
