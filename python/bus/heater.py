"""A heater that is switched over the bus: the library's link in its 72 bytes, and what it tells of each frame."""

from typing import NamedTuple, Optional

from . import library
from .accepted import RequestLike, TableLike, TaskLike, kind_of
from .dispatcher import Frame, frame_of
from .names import task_number
from .refusals import Refused
from .sources import content, given, table_in

# What can be lost in a frame, a letter for each number that the library is told.
LOSSES = ".crb"

MASTER, OBEYED, TOGGLED, ANSWERED = 64, 65, 66, 67


class Message(NamedTuple):
    """A command or a reply: its bit, and whether it was lost."""

    bit: int
    lost: bool


class Exchange(NamedTuple):
    """A frame that a heater link served: the command and the reply in it, if there are; whether the board toggled the
    heater, and whether the command was answered."""

    frame: Frame
    command: Optional[Message]
    reply: Optional[Message]
    toggled: bool
    answered: bool


class Heater:
    """A heater link, from a fresh one: a command goes out with each entry of one task, and a reply comes back with each
    of another; the two are a pair of the request.

    Request and table may be given as to `check`, the tasks by name or by number. The heater is off at first.
    """

    def __init__(self, request: RequestLike, table: TableLike, command: TaskLike, reply: TaskLike):
        data, request = given(request)
        table = content(table)
        self._pair = task_number(request, command), task_number(request, reply)
        self._asked = data, table, *self._pair
        self.state = library.heater_fresh()[1]
        answer, _, _ = library.heater_serve(*self._asked, 0, self.state)
        if answer < 0:
            asked = {"pair": self._pair, "called": (command, reply)}
            raise Refused.of(-answer, data=data, request=request, table=table, **asked)
        self._table = table_in(table)
        self._served = 0
        self.toggles = 0
        self.answered = 0

    @property
    def on(self) -> bool:
        """Whether the heater is on."""
        return self.toggles % 2 == 1

    @property
    def under_way(self) -> bool:
        """Whether the board has done the current command and the answer is still to come."""
        return self.toggles > self.answered

    def serve(self, lost: str = ".") -> Exchange:
        """Serves the next frame, in which nothing is lost (.), the command (c), the reply (r) or both (b)."""
        if not isinstance(lost, str):
            raise TypeError(f"what is lost in a frame is one of the letters {LOSSES}, not {kind_of(lost)}")
        if len(lost) != 1 or lost not in LOSSES:
            raise ValueError(f"what is lost in a frame is one of the letters {LOSSES}")
        bits, before = LOSSES.index(lost), self.state
        answer, state, entries = library.heater_serve(*self._asked, bits, before)
        if answer < 0:
            raise Refused(-answer)
        frame = frame_of(self._table, self._served, entries[: 2 * answer])
        tasks = [entry.task for entry in frame.entries]
        command, reply = (task in tasks for task in self._pair)
        exchange = Exchange(
            frame,
            Message(before[MASTER], bits in (1, 3)) if command else None,
            Message(state[OBEYED], bits in (2, 3)) if reply else None,
            state[TOGGLED] == 1,
            state[ANSWERED] == 1,
        )
        self.state = state
        self._served += 1
        self.toggles += exchange.toggled
        self.answered += exchange.answered
        return exchange
