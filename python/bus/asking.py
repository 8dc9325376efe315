"""Questions to the library that can be ended: whether a request has a table.

Most are answered by planning with few tries, which takes microseconds; a table, 9 and 10 are final, however few tries
were allowed. The others are asked of the exact call. That may take long, and cannot be interrupted from inside, so a
process of its own answers them. Where the time of a question is over, that process is ended and the question stays
undecided; the next one has a new process.
"""

import contextlib
import time

from . import child, library, search

# The answer that there is a table, and the answer that did not come in time.
TABLE, UNDECIDED = 0, None

# The tries of a question that is answered at once.
QUICK_TRIES = 2_000

# A question may take this share of the time that is left, so that a long one leaves some to the others.
SHARE = 0.5


class Asking:
    """Questions for so many seconds, a worker for them, and the answers so far.

    `tell` is called about once a second with the number of questions and the seconds gone by.
    """

    def __init__(self, seconds, tell=None):
        library.load()
        self.begin = self._told = time.monotonic()
        self.limit = seconds
        self.questions = 0
        self.undecided = 0
        self._tell = tell
        self._known = {}
        self._opened = contextlib.ExitStack()
        self._worker = None

    def __enter__(self):
        return self

    def __exit__(self, *_):
        self._end()

    def _end(self):
        self._worker = None
        self._opened.close()

    @property
    def gone(self):
        """The seconds gone by."""
        return time.monotonic() - self.begin

    @property
    def over(self):
        """Whether the time is over: every question that was not answered stays undecided."""
        return self.gone >= self.limit

    def _sign(self):
        now = time.monotonic()
        if self._tell is not None and now - self._told >= search.SECONDS_BETWEEN_SIGNS:
            self._told = now
            self._tell(self.questions, now - self.begin)

    def _asked(self, data):
        """The library's answer and the table's bytes, or None if there was no time."""
        self._sign()
        left = self.limit - self.gone
        if left <= 0:
            return None
        self.questions += 1
        answer, table, _ = library.plan(data, QUICK_TRIES)
        return self._decided(data, SHARE * left) if answer == -search.ENDED else (answer, table)

    def _decided(self, data, seconds):
        """The same by the exact call."""
        if self._worker is None:
            self._worker = self._opened.enter_context(child.worker())
        try:
            signs = {"pause": search.SECONDS_BETWEEN_SIGNS, "tell": lambda _: self._sign()}
            answer, _ = self._worker.call("decide", data, until=time.monotonic() + seconds, **signs)
        except child.OutOfTime:
            self._end()
            return None
        return answer

    def answer(self, request):
        """TABLE, the number of a refusal, or UNDECIDED. What was not decided once is not asked again: less time is left
        then."""
        data = bytes(request)
        if data not in self._known:
            came = self._asked(data)
            self.undecided += came is None
            self._known[data] = (UNDECIDED, b"") if came is None else (max(-came[0], TABLE), came[1])
        return self._known[data][0]

    def table(self, request):
        """The bytes of the table of a request that has one."""
        return self._known[bytes(request)][1] if self.answer(request) == TABLE else b""
