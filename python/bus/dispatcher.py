"""The bus controller's dispatcher as an object: the library's state in its 64 bytes, and what it serves."""

import struct
from typing import Iterator, NamedTuple, Optional, Tuple

from . import library, table as tables
from .accepted import RequestLike, TableLike, TaskLike, whole
from .amounts import counted
from .names import task_number
from .refusals import Refused
from .sources import content, given, table_in
from .table import Table

COUNTS = 16


class Served(NamedTuple):
    """An entry that a frame serves; `cycle` is the one, from 0, that its job belongs to."""

    task: int
    job: int
    carry: bool
    cycle: int


class Frame(NamedTuple):
    """A served frame: its number from 0, the tick it starts at, and its entries."""

    number: int
    start: int
    entries: Tuple[Served, ...]


def frame_of(table: Table, number: int, entries: bytes) -> Frame:
    """The frame of a table with this number, and the bytes of the entries that it serves."""
    cycle = number // len(table.rows)
    served = tuple(Served(*entry, cycle - entry.carry) for entry in tables.entries_of(entries))
    return Frame(number, number * table.frame, served)


def fits(read, table):
    """Refuses the bytes of a table that does not describe a plan of the request that was read."""
    answer = library.check(read.data, table)
    if answer < 0:
        raise Refused.of(-answer, data=read.data, request=read.request, table=table)


def served(table: Table, cycles: int) -> Iterator[Frame]:
    """The frames of so many cycles of a table, one after the other."""
    dispatcher = Dispatcher(table)
    for _ in range(cycles * len(table.rows)):
        yield dispatcher.next_frame()


class Dispatcher:
    """Serves a table frame by frame, from a fresh state, and counts overruns by task. Going through a dispatcher gives
    its frames, without an end.

    Table and request may be given as to `plan` and `check`. With a request the table is checked against it; without
    one nothing can be reported.
    """

    def __init__(self, table: TableLike, request: Optional[RequestLike] = None):
        self._bytes = content(table)
        self._table = table_in(self._bytes)
        self._given = None if request is None else given(request)
        if self._given is not None:
            fits(self._given, self._bytes)
        self._served = 0
        self.state = library.fresh_state()

    def __iter__(self) -> Iterator[Frame]:
        return self

    def __next__(self) -> Frame:
        return self.next_frame()

    def __repr__(self) -> str:
        return f"<bus.Dispatcher: {counted(self._served, 'frame')} served, row {self.row} next>"

    @property
    def row(self) -> int:
        """The row that is served next."""
        return struct.unpack_from("<H", self.state)[0]

    @property
    def first_cycle(self) -> bool:
        """Whether the first cycle lasts, in which carried entries are left out."""
        return self.state[2] == 1

    @property
    def counts(self) -> Tuple[int, ...]:
        """The overruns of each of 16 tasks, at most 65,535."""
        return struct.unpack_from(f"<{COUNTS}H", self.state, 3)

    def next_frame(self) -> Frame:
        """Serves the next frame."""
        answer, state, entries = library.next_frame(self._bytes, self.state)
        if answer < 0:
            raise Refused(-answer)
        number, self.state = self._served, state
        self._served += 1
        return frame_of(self._table, number, entries[: 2 * answer])

    def report(self, task: TaskLike, ticks: int) -> None:
        """Reports the ticks that a task, given by its name or its number, used."""
        if self._given is None:
            raise ValueError("this dispatcher was made without a request, so it does not know how long a task may take")
        ticks = whole("the number of ticks", ticks, 0, library.MOST_TICKS)
        data, request = self._given
        answer, self.state = library.report(data, task_number(request, task), ticks, self.state)
        if answer < 0:
            raise Refused.of(-answer, request=request, called=task)
