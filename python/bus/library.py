"""The calls of include/bus.h: bytes and numbers in, the library's answer and the bytes that it wrote out.

Each call is one row of the table below: its name in C without `bus_`, and its arguments in C's order. The prototype
and the call follow from the row. The answer is given back as it is: a number from 0 on, or a refusal's number negated.
With lent buffers it is followed by what they hold then, in their order. Nothing is decided here.
"""

import ctypes
import functools
import os
from typing import Callable, NamedTuple, Optional

from .build import NotBuilt, build

# As in include/bus.h.
STATE_BYTES = 64
ENTRIES_BYTES = 32
TRIES_BYTES = 8
PHASES_BYTES = 8
TABLE_BYTES = 519
REQUEST_BYTES = 164
DRAFT_BYTES = 770
TIMER_BYTES = 72
HEATER_BYTES = 72
RECORD_BYTES = 8
RECORDS_BYTES = 1024

# The most tries that can be allowed, the most ticks that can be asked for or reported, those of a transfer, and the
# highest number of a frame that can be named.
MOST_TRIES = 2**64 - 1
MOST_TICKS = 2**32 - 1
MOST_LENGTH = 2**16 - 1
MOST_FRAME = 2**16 - 1

# No request has so many tasks, so a report on this one tells whether the bytes can be read, and nothing else. A name
# that no task has is handed on as this number, which the library then refuses.
NO_TASK = 255
NO_SUCH_TASK = 16

# No request has so many jobs. A job that is called otherwise than any of them is handed on as this number.
NO_JOB = 255

POINTER_AND_LENGTH = (ctypes.c_char_p, ctypes.c_size_t)


class Argument(NamedTuple):
    """An argument of a call: its name in C and its C types, two of them for a buffer.

    A lent buffer has a size, and `taken` is what is given back of it. What is not `given` by the caller begins empty.
    """

    name: str
    types: tuple
    size: int = 0
    given: bool = True
    taken: Optional[Callable] = None


def read(name):
    """Bytes that the library reads and leaves as they are."""
    return Argument(name, POINTER_AND_LENGTH)


def number(name, bits):
    """A whole number without a sign."""
    return Argument(name, (getattr(ctypes, f"c_uint{bits}"),))


def changed(name, size):
    """A buffer with the caller's bytes; given back whole."""
    return Argument(name, POINTER_AND_LENGTH, size, taken=lambda raw, _: raw)


def filled(name, size):
    """An empty buffer; given back whole."""
    return Argument(name, POINTER_AND_LENGTH, size, given=False, taken=lambda raw, _: raw)


def written(name, size):
    """An empty buffer; given back as far as the answer says that it was written."""
    return Argument(name, POINTER_AND_LENGTH, size, given=False, taken=lambda raw, answer: raw[: max(answer, 0)])


def recorded(name, size, record):
    """An empty buffer; given back as far as records of so many bytes were written, as many as the answer says."""
    return Argument(
        name, POINTER_AND_LENGTH, size, given=False, taken=lambda raw, answer: raw[: record * max(answer, 0)]
    )


def counted(name, size):
    """An empty buffer that gets a number, low byte first; the number is given back."""
    return Argument(name, POINTER_AND_LENGTH, size, given=False, taken=lambda raw, _: int.from_bytes(raw, "little"))


CALLS = []


class Call:
    """A call of the library, made from its row."""

    result = ctypes.c_int32

    def __init__(self, name, *arguments):
        self.name = f"bus_{name}"
        self.arguments = arguments
        CALLS.append(self)

    def declare(self, loaded):
        """Tells ctypes the prototype."""
        function = getattr(loaded, self.name)
        function.argtypes = [kind for argument in self.arguments for kind in argument.types]
        function.restype = self.result

    def __call__(self, *given):
        wanted = sum(argument.given for argument in self.arguments)
        if len(given) != wanted:
            raise TypeError(f"{self.name} takes {wanted} values, not {len(given)}")
        values, passed, lent = iter(given), [], []
        for argument in self.arguments:
            value = next(values) if argument.given else b""
            if argument.size:
                value = ctypes.create_string_buffer(bytes(value), argument.size)
                lent.append((argument, value))
            passed += [value, len(value)] if argument.types == POINTER_AND_LENGTH else [value]
        answer = getattr(load(), self.name)(*passed)
        return (answer, *(argument.taken(buffer.raw, answer) for argument, buffer in lent)) if lent else answer


# The table. search.py makes the calls `plan` and `decide` where they can be stopped, and phases.py the call `phases`.
plan = Call(
    "plan", read("request"), number("allowance", 64), written("out", TABLE_BYTES), counted("tries", TRIES_BYTES)
)
decide = Call("decide", read("request"), written("out", TABLE_BYTES))
phases = Call(
    "phases", read("request"), number("task", 8), number("allowance", 64), filled("counts", PHASES_BYTES)
)
check = Call("check", read("request"), read("table"))
rewrite = Call("rewrite", read("request"), read("table"), written("out", TABLE_BYTES))
fresh = Call("fresh", filled("state", STATE_BYTES))
next_frame = Call("next_frame", read("table"), changed("state", STATE_BYTES), filled("entries", ENTRIES_BYTES))
report = Call("report", read("request"), number("task", 8), number("ticks", 32), changed("state", STATE_BYTES))
join = Call("join", read("first"), read("second"), written("out", REQUEST_BYTES))
cut = Call("cut", read("request"), number("task", 8), number("first", 16), written("out", REQUEST_BYTES))
one_off = Call(
    "one_off", read("request"), read("table"), number("length", 32), number("from", 32), number("until", 32)
)
draft_start = Call("draft_start", read("request"), read("table"), filled("draft", DRAFT_BYTES))
draft_lift = Call("draft_lift", read("request"), number("job", 8), changed("draft", DRAFT_BYTES))
draft_put = Call("draft_put", read("request"), number("job", 8), number("frame", 16), changed("draft", DRAFT_BYTES))
draft_write = Call("draft_write", read("request"), read("draft"), written("out", TABLE_BYTES))
timer_fresh = Call("timer_fresh", filled("timer", TIMER_BYTES))
timer_read = Call("timer_read", number("address", 8), read("timer"))
timer_write = Call("timer_write", number("address", 8), number("value", 8), changed("timer", TIMER_BYTES))
timer_event = Call("timer_event", changed("timer", TIMER_BYTES))
timer_serve = Call("timer_serve", read("table"), changed("timer", TIMER_BYTES), filled("entries", ENTRIES_BYTES))
timer_report = Call(
    "timer_report", read("request"), number("task", 8), number("ticks", 32), changed("timer", TIMER_BYTES)
)
timer_line = Call("timer_line", read("timer"))
heater_fresh = Call("heater_fresh", filled("heater", HEATER_BYTES))
heater_serve = Call(
    "heater_serve",
    *(read("request"), read("table"), number("a", 8), number("b", 8), number("lost", 8)),
    *(changed("heater", HEATER_BYTES), filled("entries", ENTRIES_BYTES)),
)
timeline = Call("timeline", read("request"), read("table"), recorded("records", RECORDS_BYTES, RECORD_BYTES))


@functools.lru_cache(maxsize=None)
def load():
    """The loaded library. BUS_LIBRARY names one that was built elsewhere."""
    path = os.environ.get("BUS_LIBRARY") or str(build())
    try:
        loaded = ctypes.CDLL(path)
        for call in CALLS:
            call.declare(loaded)
    except OSError as reason:
        raise NotBuilt(f"the library cannot be loaded: {reason}") from reason
    except AttributeError as reason:
        raise NotBuilt(f"the library {path} is too old for this command: {reason}: build it anew") from reason
    return loaded


def fresh_state():
    """The bytes of a fresh state."""
    return fresh()[1]


def unreadable(request):
    """The number by which the bytes are no request, or 0."""
    answer, _ = report(request, NO_TASK, 0, fresh_state())
    return 0 if answer == -NO_SUCH_TASK else -answer


def no_table(table):
    """The number by which the bytes are no table, or 0."""
    answer, _, _ = next_frame(table, fresh_state())
    return max(-answer, 0)
