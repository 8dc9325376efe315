"""A process of its own that makes calls of the library, one after the other. child.py starts it as a script.

Standard input is a socket: a first word says that the library is loaded. Then each call comes from it with its name and
arguments, and its answer goes back.
"""

import _thread
import contextlib
import marshal
import os
import select
import struct
import sys
import time
import types

SOCKET = 0
SIZE = struct.Struct("<I")
PAUSE = 500  # milliseconds


def framed(value):
    """A value as bytes, with their number in front."""
    data = marshal.dumps(value)
    return SIZE.pack(len(data)) + data


def _exactly(size):
    """So many bytes; the other end may be gone before that."""
    data = b""
    while len(data) < size:
        piece = os.read(SOCKET, size - len(data))
        if not piece:
            raise SystemExit
        data += piece
    return data


def _next():
    return marshal.loads(_exactly(*SIZE.unpack(_exactly(SIZE.size))))


def _send(data):
    while data:
        data = data[os.write(SOCKET, data) :]


def _library(path):
    """The rows of the calls. The package is made without its __init__, which would load all of it."""
    package = types.ModuleType("bus")
    package.__path__ = [os.path.dirname(os.path.abspath(__file__))]
    sys.modules["bus"] = package
    os.environ["BUS_LIBRARY"] = path
    from bus import library

    return library


def _end_with(parent):
    """Ends this process, also in the middle of a call, when nobody waits for it any more.

    That is when the other end of the socket is closed, or when the parent is gone and a fork of it holds the socket
    open. The kernel's own signal at a parent's death comes when the thread ends that started this process: too early.
    """
    other = select.poll()
    other.register(SOCKET, 0)  # a hang-up is told without being asked for
    while not other.poll(PAUSE) and os.getppid() == parent:
        pass
    os._exit(1)


def main(parent, path):
    _thread.start_new_thread(_end_with, (int(parent),))
    library = _library(path)
    library.load()
    with contextlib.suppress(OSError):  # the other end is gone
        _send(framed("ready"))
        while True:
            name, arguments = _next()
            begin = time.monotonic()
            answer = getattr(library, name)(*arguments)
            _send(framed((answer, time.monotonic() - begin)))


if __name__ == "__main__":
    main(*sys.argv[1:])
