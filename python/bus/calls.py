"""Planning, checking and time for a one-off transfer, for a notebook: records in and out, a refusal as an exception.

A request may be given as a record, as bytes, or as the path of a list or a request file; a table as a record, as bytes
or as the path of a table file.
"""

from typing import Any, Callable, NamedTuple, Optional, Tuple

from . import library, search, table as tables
from .accepted import RequestLike, TableLike, tick, whole
from .refusals import Refused
from .request import Request
from .sources import content, given
from .table import Row, Table


class FreeFrame(NamedTuple):
    """A frame with time for a one-off transfer: its number from time 0 and the ticks at which it starts and ends; the
    number and the entries of its row, and the ticks that these use, silent ones included."""

    number: int
    start: int
    end: int
    row: int
    entries: Row
    used: int

    @property
    def unused(self) -> int:
        """The ticks of the frame that are left for the transfer and the silent ticks after it."""
        return self.end - self.start - self.used

    @property
    def send(self) -> int:
        """The tick from which the transfer may be sent: by then the entries of the row, each with the silent ticks
        after it, have ended, however long they take."""
        return self.start + self.used


def plan(
    request: RequestLike, tries: Optional[int] = None, tell: Optional[Callable[[Optional[int]], Any]] = None
) -> Table:
    """The chosen table of a request, or why there is none.

    With `tries` no more are made, and where more are needed the refusal is 23; the table has those that were made, as
    a refusal has. Without them no tries are counted, and no answer is 23. `tell` is called about once a second of a
    long search, with about how many tries are used, or None while that is not known.
    """
    if tries is not None:
        tries = whole("the number of tries that are allowed", tries, 0, library.MOST_TRIES)
    data, request = given(request)
    if tries is None:
        answer, table, count = *search.decide(data, tell), 0
    else:
        answer, table, count = search.plan(data, tries, tell)
    if answer < 0:
        raise Refused.of(-answer, tries=count, data=data, request=request, allowed=tries)
    return tables.of(tables.decode(table), request, count)


def checked(request: RequestLike, table: TableLike) -> Tuple[bytes, Request, bytes]:
    """A request's bytes, the request, and the bytes of a table that describes a plan of it."""
    data, request = given(request)
    table = content(table)
    answer = library.check(data, table)
    if answer < 0:
        raise Refused.of(-answer, data=data, request=request, table=table)
    return data, request, table


def check(request: RequestLike, table: TableLike) -> Table:
    """The table, if it describes a plan of the request, of any frame length."""
    _, request, table = checked(request, table)
    return tables.of(tables.decode(table), request)


def rewrite(request: RequestLike, table: TableLike) -> Table:
    """Checks a table and gives the table of the plan that the library read, as the library writes it."""
    data, request = given(request)
    table = content(table)
    answer, written = library.rewrite(data, table)
    if answer < 0:
        raise Refused.of(-answer, data=data, request=request, table=table)
    return tables.of(tables.decode(written), request)


def _earliest(data, table, plan, length, begin, until):
    """The library's answer, for any two ticks. It is asked about the first two cycles, which all others are like: whole
    cycles are taken off both ticks and put back on the frame. A time that goes beyond has a whole cycle before that."""
    cycles = min(begin, until) // plan.cycle
    off = cycles * plan.cycle
    begin, until = min(begin - off, library.MOST_TICKS), min(until - off, 2 * plan.cycle)
    frame = library.one_off(data, table, length, begin, until)
    return frame + cycles * len(plan.rows) if frame >= 0 else frame


def _free_frame(request, plan, number):
    row = number % len(plan.rows)
    entries = plan.rows[row]
    return FreeFrame(number, number * plan.frame, (number + 1) * plan.frame, row, entries, request.used(entries))


def one_off(
    request: RequestLike, table: TableLike, length: int, begin: int = 0, until: Optional[int] = None
) -> FreeFrame:
    """The earliest frame, from the tick `begin` until the tick `until`, with time for a transfer of `length` ticks.

    Without `until` any later frame will do.
    """
    length = whole("a length", length, 0, library.MOST_TICKS)
    begin = tick(begin)
    until = until if until is None else tick(until)
    data, request, table = checked(request, table)
    plan = tables.decode(table)
    last = begin + 2 * plan.cycle if until is None else until
    frame = _earliest(data, table, plan, length, begin, last)
    if frame < 0:
        raise Refused.of(-frame, request=request, table=table, length=length, begin=begin, until=last)
    return _free_frame(request, plan, frame)


def free_frames(
    request: RequestLike, table: TableLike, length: int, begin: int = 0, until: Optional[int] = None
) -> Tuple[FreeFrame, ...]:
    """Every frame with time for a transfer of `length` ticks, of one cycle that begins with the first whole frame from
    the tick `begin` on, and no frame that ends after the tick `until`. Where there is none, it is refused."""
    first = one_off(request, table, length, begin, until)
    data, request = given(request)
    table = content(table)
    plan = tables.decode(table)
    end = (-(-begin // plan.frame) + len(plan.rows)) * plan.frame
    end = end if until is None else min(end, until)
    found, frame = [], first.number
    while frame >= 0 and (frame + 1) * plan.frame <= end:
        found.append(_free_frame(request, plan, frame))
        frame = _earliest(data, table, plan, length, (frame + 1) * plan.frame, end)
    return tuple(found)
