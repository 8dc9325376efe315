"""The bus timer as an object: the dispatcher behind eight registers, in the library's 72 bytes."""

import struct
from typing import Optional, Tuple

from . import library, table as tables
from .accepted import RequestLike, TableLike, TaskLike, whole
from .dispatcher import COUNTS, fits
from .names import task_number
from .refusals import Refused
from .sources import content, given, table_in
from .table import Row

REGISTERS = 8
CONTROL, STATUS = 0, 1
MOST_BYTE = 255
RUN, ENABLE = 1, 2
DUE, OVERRUN, MISSED = 1, 2, 4


class Timer:
    """A timer, fresh at first, whose frames are those of a table.

    Table and request may be given as to `Dispatcher`, which checks the table in the same way; without a request nothing
    can be reported. `state` has the bytes.
    What the library refuses leaves the timer as it was.
    """

    def __init__(self, table: TableLike, request: Optional[RequestLike] = None):
        self._table = content(table)
        table_in(self._table)
        self._given = None if request is None else given(request)
        if self._given is not None:
            fits(self._given, self._table)
        self.fresh()

    def fresh(self) -> None:
        """Makes the timer fresh: all eight registers are 0."""
        _, self.state = library.timer_fresh()

    def read(self, address: int) -> int:
        """The byte of a register."""
        address = whole("an address", address, 0, MOST_BYTE)
        return _taken(library.timer_read(address, self.state))

    def write(self, address: int, value: int) -> None:
        """Writes a byte to a register."""
        address = whole("an address", address, 0, MOST_BYTE)
        value = whole("what is written", value, 0, MOST_BYTE)
        answer, self.state = library.timer_write(address, value, self.state)
        _taken(answer)

    def event(self) -> None:
        """A timer event: with run set a frame is due, or a miss is marked if one was."""
        answer, self.state = library.timer_event(self.state)
        _taken(answer)

    def serve(self, table: Optional[TableLike] = None) -> Row:
        """The entries of the due frame, which is not due any more; none if no frame is due.

        Another table may be given, also bytes that are none, to see what the timer does then.
        """
        data = self._table if table is None else content(table)
        answer, self.state, entries = library.timer_serve(data, self.state)
        return tables.entries_of(entries[: 2 * _taken(answer)])

    def report(self, task: TaskLike, ticks: int) -> None:
        """Reports the ticks that a task, given by its name or its number, used."""
        if self._given is None:
            raise ValueError("this timer was made without a request, so it does not know how long a task may take")
        ticks = whole("the number of ticks", ticks, 0, library.MOST_TICKS)
        number = task_number(self._given.request, task)
        answer, self.state = library.timer_report(self._given.data, number, ticks, self.state)
        _taken(answer)

    @property
    def line(self) -> bool:
        """Whether the interrupt line is on."""
        return _taken(library.timer_line(self.state)) == 1

    @property
    def registers(self) -> Tuple[int, ...]:
        """The eight bytes."""
        return tuple(self.read(address) for address in range(REGISTERS))

    @property
    def run(self) -> bool:
        """Whether timer events make frames due."""
        return bool(self.read(CONTROL) & RUN)

    @property
    def enable(self) -> bool:
        """Whether status can put the interrupt line on."""
        return bool(self.read(CONTROL) & ENABLE)

    @property
    def due(self) -> bool:
        """Whether a frame waits to be served."""
        return bool(self.read(STATUS) & DUE)

    @property
    def overrun(self) -> bool:
        """Whether a report above its task's length came since this was cleared."""
        return bool(self.read(STATUS) & OVERRUN)

    @property
    def missed(self) -> bool:
        """Whether an event found a frame due since this was cleared."""
        return bool(self.read(STATUS) & MISSED)

    @property
    def row(self) -> int:
        """The row that is served next."""
        return self.read(2) + 256 * self.read(3)

    @property
    def overruns(self) -> int:
        """The overruns of all tasks together, at most 65,535."""
        return self.read(4) + 256 * self.read(5)

    @property
    def counts(self) -> Tuple[int, ...]:
        """The overruns of each of 16 tasks, at most 65,535."""
        return struct.unpack_from(f"<{COUNTS}H", self.state, 3)


def _taken(answer):
    """The answer, if it is no refusal."""
    if answer < 0:
        raise Refused(-answer)
    return answer
