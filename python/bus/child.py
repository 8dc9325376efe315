"""Calls of the library in a process of their own: a call cannot be interrupted from inside, and a process can be ended
at once.

The process is started afresh and is no fork of this one, which may have threads. It ends with this one, whatever ends
that. One that has answered all it was asked is kept for the next call.
"""

import atexit
import contextlib
import marshal
import os
import select
import signal
import socket
import subprocess
import sys
import threading
import time

from . import library
from .errors import Error
from .worker import PAUSE, SIZE, framed

SCRIPT = os.path.join(os.path.dirname(os.path.abspath(__file__)), "worker.py")


class SearchEnded(Error):
    """The search was ended from outside before it had an answer."""

    def __init__(self, words="the search was ended from outside before it had an answer"):
        super().__init__(words)


class OutOfTime(SearchEnded):
    """The search was not at its end when its time was."""

    def __init__(self):
        super().__init__("the time was over before the search had an answer")


class Worker:
    """A process that makes calls of the library, one after the other."""

    def __init__(self):
        path = library.load()._name
        self._socket, theirs = socket.socketpair()
        command = [sys.executable, "-I", "-S", SCRIPT, str(os.getpid()), path]
        # Ctrl-C on a terminal reaches the child as well; it leaves it to this process to end it.
        held = signal.pthread_sigmask(signal.SIG_BLOCK, {signal.SIGINT})
        try:
            with theirs:
                self._process = subprocess.Popen(command, stdin=theirs, stdout=subprocess.DEVNULL)
        finally:
            signal.pthread_sigmask(signal.SIG_SETMASK, held)
        self._came = b""
        self._there = False
        self.waits = False

    def ask(self, name, *arguments):
        """Begins a call, by its name in library.py."""
        self.waits = True
        with contextlib.suppress(OSError):
            self._socket.sendall(framed((name, arguments)), socket.MSG_NOSIGNAL)

    def answer(self, pause=None, tell=None, until=None):
        """What the call answered, and the seconds that it took.

        Until then `tell` is called after each pause of so many seconds, with the seconds gone by. When the clock
        time.monotonic is at `until`, that is OutOfTime. The time that the process takes to start is none of the call.
        """
        self.started(until)
        found = self._next(pause, tell, until)
        self.waits = False
        return found

    def started(self, until=None):
        """Waits until the process is there."""
        if not self._there:
            self._next(None, None, until)
            self._there = True

    def _next(self, pause, tell, until):
        """The next value that comes."""
        begin = time.monotonic()
        told = begin
        while not self._whole():
            now = time.monotonic()
            if until is not None and now >= until:
                raise OutOfTime
            if tell is not None and now - told >= pause:
                tell(now - begin)
                told = now
            waits = [told + pause - now] if tell is not None else []
            waits += [until - now] if until is not None else []
            self._receive(min(waits, default=None))
        size = SIZE.size + SIZE.unpack_from(self._came)[0]
        data, self._came = self._came[SIZE.size : size], self._came[size:]
        return marshal.loads(data)

    def call(self, name, *arguments, **how):
        """Makes a call and waits for its answer, as `answer` does."""
        self.ask(name, *arguments)
        return self.answer(**how)

    def _whole(self):
        return len(self._came) >= SIZE.size and len(self._came) >= SIZE.size + SIZE.unpack_from(self._came)[0]

    def _receive(self, seconds):
        """Takes what comes within so many seconds, or within a pause.

        The socket tells that the process is gone, but not where a fork of this one holds the other end open too.
        """
        coming = select.poll()
        coming.register(self._socket, select.POLLIN)
        if coming.poll(PAUSE if seconds is None else min(1000 * seconds, PAUSE)):
            try:
                piece = self._socket.recv(65_536)
            except OSError:
                piece = b""
            if not piece:
                raise SearchEnded
            self._came += piece
        elif self._process.poll() is not None:
            raise SearchEnded

    @property
    def ready(self):
        """Whether it can be asked."""
        return not self.waits and self._process.poll() is None

    def end(self):
        """Ends the process, whatever it does."""
        self._process.kill()
        self._socket.close()
        self._process.wait()


class _Kept:
    """Workers that wait for their next call. Threads may take and give at the same time."""

    def __init__(self):
        self._lock = threading.Lock()
        self._workers, self._others = [], []
        atexit.register(self.end)
        os.register_at_fork(after_in_child=self._forget)

    def _forget(self):
        """In a fork the workers are still those of the other process, which ends them."""
        self._lock = threading.Lock()
        self._others, self._workers = self._workers, []

    def take(self):
        with self._lock:
            kept = self._workers.pop() if self._workers else None
        if kept is None or kept.ready:
            return kept or Worker()
        kept.end()
        return Worker()

    def give(self, worker):
        with self._lock:
            self._workers.append(worker)

    def end(self):
        with self._lock:
            workers, self._workers = self._workers, []
        for worker in workers:
            worker.end()


kept = _Kept()


@contextlib.contextmanager
def worker():
    """A worker for a block. One that still works when the block is left is ended."""
    taken = kept.take()
    try:
        yield taken
    finally:
        if taken.ready:
            kept.give(taken)
        else:
            taken.end()
